//! A second reader of bind opcodes, from loader.h: a cursor over the bytes of a stream, one opcode after the other.
use crate::mach::Segment;
use crate::reader::Command;

pub type Bind = [u64; 3];

/// A stream's range, and whether DONE parts its entries.
#[derive(Clone, Copy, PartialEq, Debug)]
pub struct Stream {
    pub off: u64,
    pub size: u64,
    pub lazy: bool,
}

struct Cursor<'a> {
    bytes: &'a [u8],
    at: usize,
}

impl Cursor<'_> {
    fn byte(&mut self) -> Result<u8, u64> {
        let b = *self.bytes.get(self.at).ok_or(19u64)?;
        self.at += 1;
        Ok(b)
    }
    /// The bits of a LEB128 number, the least first.
    fn bits(&mut self) -> Result<Vec<bool>, u64> {
        let mut bits = Vec::new();
        loop {
            let b = self.byte()?;
            bits.extend((0..7).map(|i| b >> i & 1 == 1));
            if b & 0x80 == 0 {
                return Ok(bits);
            }
        }
    }
    fn uleb(&mut self) -> Result<u64, u64> {
        let bits = self.bits()?;
        if bits.iter().skip(64).any(|b| *b) {
            return Err(19);
        }
        Ok(bits.iter().take(64).rev().fold(0, |n, b| n << 1 | *b as u64))
    }
    fn sleb(&mut self) -> Result<(), u64> {
        let bits = self.bits()?;
        let sign = *bits.last().unwrap();
        if bits.iter().skip(63).any(|b| *b != sign) { Err(19) } else { Ok(()) }
    }
}

/// What a stream binds, or 19 or 20.
pub fn binds(file: &[u8], segments: &[Segment], s: Stream) -> Result<Vec<Bind>, u64> {
    let end = file.len().min(usize::try_from(s.off + s.size).unwrap());
    let mut c = Cursor { bytes: &file[..end], at: usize::try_from(s.off).unwrap() };
    let (mut found, mut name, mut segment, mut offset) = (Vec::new(), None, None::<&Segment>, 0u64);
    while c.at < end {
        let b = c.byte()?;
        let imm = (b & 0x0F) as u64;
        // binds to make, and what is added to the address after each
        let (times, step) = match b & 0xF0 {
            0x00 if s.lazy => continue,
            0x00 => break,
            0x10 | 0x30 => continue,
            0x20 => {
                c.uleb()?;
                continue;
            }
            0x40 => {
                let from = c.at;
                while c.byte()? != 0 {}
                name = Some((from as u64, (c.at - 1 - from) as u64));
                continue;
            }
            0x50 if imm == 1 => continue,
            0x60 => {
                c.sleb()?;
                continue;
            }
            0x70 => {
                offset = c.uleb()?;
                segment = Some(segments.get(imm as usize).ok_or(19u64)?);
                continue;
            }
            0x80 => {
                offset = offset.wrapping_add(c.uleb()?);
                continue;
            }
            0x90 => (1, 8),
            0xA0 => (1, c.uleb()?.wrapping_add(8)),
            0xB0 => (1, 8 * imm + 8),
            0xC0 => (c.uleb()?, c.uleb()?.checked_add(8).ok_or(20u64)?),
            _ => return Err(19),
        };
        for _ in 0..times {
            let (Some((at, len)), Some(g)) = (name, segment) else { return Err(19) };
            let last = offset as u128 + 8;
            if last > g.filesize as u128 || g.fileoff as u128 + last > file.len() as u128 {
                return Err(20);
            }
            found.push([g.vmaddr.wrapping_add(offset), at, len]);
            offset = offset.wrapping_add(step);
        }
    }
    Ok(found)
}

/// The streams of the first LC_DYLD_INFO or LC_DYLD_INFO_ONLY: strong, weak, lazy; none without one.
pub fn streams(file: &[u8], commands: &[Command]) -> Result<Vec<Stream>, u64> {
    let Some(c) = commands.iter().find(|c| c.cmd & 0x7FFF_FFFF == 0x22) else { return Ok(Vec::new()) };
    if c.cmdsize < 48 {
        return Err(19);
    }
    let word = |i: usize| u32::from_le_bytes(file[c.at + i..c.at + i + 4].try_into().unwrap()) as u64;
    Ok([(16, false), (24, false), (32, true)].map(|(i, lazy)| Stream { off: word(i), size: word(i + 4), lazy }).to_vec())
}

/// The binds of a file: the first number met, after 15 and 16.
pub fn all(file: &[u8]) -> Result<Vec<Bind>, u64> {
    let commands = crate::reader::commands(file)?;
    let segments = crate::reader::segments(file, &commands);
    let mut found = Vec::new();
    for s in streams(file, &commands)? {
        found.extend(binds(file, &segments, s)?);
    }
    Ok(found)
}
