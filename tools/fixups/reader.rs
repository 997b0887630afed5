//! A second reader of chained fixups, from document 02, note 7, and fixup-chains.h: it takes each rule as it is written, with a test at each read.
use crate::mach::Segment;

pub const BIND_WORDS: usize = 4;

pub struct Command {
    pub cmd: u32,
    pub at: usize,
    pub cmdsize: usize,
}

fn number(bytes: &[u8], at: u64, k: u64) -> Option<u64> {
    let part = bytes.get(usize::try_from(at).ok()?..usize::try_from(at.checked_add(k)?).ok()?)?;
    Some(part.iter().rev().fold(0, |n, b| n << 8 | *b as u64))
}

/// The load commands, or 15 or 16.
pub fn commands(file: &[u8]) -> Result<Vec<Command>, u64> {
    if file.len() < 32 || number(file, 0, 4) != Some(0xFEED_FACF) {
        return Err(15);
    }
    let of = |at| number(file, at, 4).unwrap();
    let (ncmds, end) = (of(16), (32 + of(20)).min(file.len() as u64));
    let mut found = Vec::new();
    let mut at = 32;
    for _ in 0..ncmds {
        if at + 8 > end {
            return Err(16);
        }
        let (cmd, cmdsize) = (of(at), of(at + 4));
        if cmdsize < 8 || at + cmdsize > end {
            return Err(16);
        }
        if cmd == 0x19 && (cmdsize < 72 || cmdsize < 72 + 80 * of(at + 64)) {
            return Err(16);
        }
        found.push(Command { cmd: cmd as u32, at: at as usize, cmdsize: cmdsize as usize });
        at += cmdsize;
    }
    Ok(found)
}

pub fn segments(file: &[u8], commands: &[Command]) -> Vec<Segment> {
    let row = |c: &Command| {
        let of = |i| number(file, c.at as u64 + i, 8).unwrap();
        let segname = file[c.at + 8..c.at + 24].try_into().unwrap();
        Segment { segname, vmaddr: of(24), vmsize: of(32), fileoff: of(40), filesize: of(48) }
    };
    commands.iter().filter(|c| c.cmd == 0x19).map(row).collect()
}

/// The records in walk order, and what is told of them to compare with the Rust.
#[derive(Default)]
pub struct Found {
    pub rebases: Vec<[u64; 2]>,
    pub binds: Vec<[u64; 3]>,
    pub base: u64,
    pub offset_format: bool,
    pub top_bits: bool,
    pub past_filesize: bool,
    pub wraps: bool,
    pub commands: usize,
    pub range_cut: bool,
}

/// Note 7. The first number met in walk order.
pub fn fixups(file: &[u8]) -> Result<Found, u64> {
    let commands = commands(file)?;
    let segments = segments(file, &commands);
    let mut found = Found::default();
    let mut ours = commands.iter().filter(|c| c.cmd == 0x8000_0034);
    found.commands = ours.clone().count();
    let Some(c) = ours.next() else { return Ok(found) };
    if c.cmdsize < 16 {
        return Err(19);
    }
    let (dataoff, datasize) = (number(file, c.at as u64 + 8, 4).unwrap(), number(file, c.at as u64 + 12, 4).unwrap());
    let data = |at: u64, k: u64| if at + k > datasize { Err(19u64) } else { number(file, dataoff + at, k).ok_or(19) };
    let (starts, imports, symbols) = (data(4, 4)?, data(8, 4)?, data(12, 4)?);
    let imports_count = data(16, 4)?;
    if data(20, 4)? != 1 || data(24, 4)? != 0 {
        return Err(19);
    }
    found.range_cut = dataoff + datasize > file.len() as u64 || starts >= datasize || imports > datasize || symbols > datasize;
    let text = segments.iter().find(|s| s.segname == *b"__TEXT\0\0\0\0\0\0\0\0\0\0");
    found.base = text.map_or(0, |s| s.vmaddr);
    for i in 0..data(starts, 4)? {
        let seg_info_offset = data(starts + 4 + 4 * i, 4)?;
        if seg_info_offset == 0 {
            continue;
        }
        let Some(s) = segments.get(i as usize) else { return Err(19) };
        let at = starts + seg_info_offset;
        let (page_size, pointer_format) = (data(at + 4, 2)?, data(at + 6, 2)?);
        if pointer_format != 2 && pointer_format != 6 {
            return Err(19);
        }
        found.offset_format |= pointer_format == 6;
        for p in 0..data(at + 20, 2)? {
            let page_start = data(at + 22 + 2 * p, 2)?;
            if page_start == 0xFFFF {
                continue;
            }
            if page_start & 0x8000 != 0 {
                return Err(19);
            }
            let mut o = page_start;
            loop {
                if o >= page_size {
                    return Err(20);
                }
                let distance = p * page_size + o;
                let Some(word) = s.fileoff.checked_add(distance).and_then(|place| number(file, place, 8)) else { return Err(20) };
                let (slot, wraps) = s.vmaddr.overflowing_add(distance);
                found.wraps |= wraps;
                found.past_filesize |= distance >= s.filesize;
                if word >> 63 == 0 {
                    let top = word >> 36 & 0xFF;
                    let mut target = word & 0xF_FFFF_FFFF | top << 56;
                    found.top_bits |= top != 0;
                    if pointer_format == 6 {
                        // the Rust adds the base to the 36 bits alone
                        found.wraps |= (word & 0xF_FFFF_FFFF).checked_add(found.base).is_none();
                        target = target.wrapping_add(found.base);
                    }
                    found.rebases.push([slot, target]);
                } else {
                    let ordinal = word & 0xFF_FFFF;
                    if ordinal >= imports_count {
                        return Err(20);
                    }
                    let name = symbols + (data(imports + 4 * ordinal, 4)? >> 9);
                    let mut end = name;
                    while data(end, 1)? != 0 {
                        end += 1;
                    }
                    found.binds.push([slot, dataoff + name, end - name]);
                }
                let next = word >> 51 & 0xFFF;
                if next == 0 {
                    break;
                }
                o += 4 * next;
            }
        }
    }
    Ok(found)
}
