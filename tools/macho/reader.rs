//! A second reader, from loader.h: each struct is read field by field in the order of its declaration. Then the questions of opening a file, in
//! their order, and the words that it leaves.

pub const SEGMENT_WORDS: usize = 5;
pub const BIND_WORDS: usize = 4;
pub const NAMES: [&str; 5] = ["__objc_classlist", "__objc_nlclslist", "__objc_catlist", "__objc_nlcatlist", "__objc_protolist"];

struct Fields<'a>(&'a [u8]);

impl Fields<'_> {
    fn bytes<const N: usize>(&mut self) -> [u8; N] {
        let (head, rest) = self.0.split_at(N);
        self.0 = rest;
        head.try_into().unwrap()
    }
    fn u32(&mut self) -> u32 {
        u32::from_le_bytes(self.bytes())
    }
    fn u64(&mut self) -> u64 {
        u64::from_le_bytes(self.bytes())
    }
}

pub struct Section {
    pub sectname: [u8; 16],
    pub addr: u64,
    pub size: u64,
    pub offset: u32,
}

pub struct Segment {
    pub vmaddr: u64,
    pub vmsize: u64,
    pub fileoff: u64,
    pub filesize: u64,
    pub sections: Vec<Section>,
}

fn section_64(f: &mut Fields) -> Section {
    let sectname = f.bytes();
    let _segname: [u8; 16] = f.bytes();
    let addr = f.u64();
    let size = f.u64();
    let offset = f.u32();
    let [_align, _reloff, _nreloc, _flags, _reserved1, _reserved2, _reserved3] = [(); 7].map(|()| f.u32());
    Section { sectname, addr, size, offset }
}

/// None where the command is smaller than 72 bytes, or than it has to be for its sections.
fn segment_command_64(command: &[u8]) -> Option<Segment> {
    if command.len() < 72 {
        return None;
    }
    let mut f = Fields(command);
    let [_cmd, _cmdsize] = [(); 2].map(|()| f.u32());
    let _segname: [u8; 16] = f.bytes();
    let [vmaddr, vmsize, fileoff, filesize] = [(); 4].map(|()| f.u64());
    let [_maxprot, _initprot, nsects, _flags] = [(); 4].map(|()| f.u32());
    if f.0.len() / 80 < nsects as usize {
        return None;
    }
    let sections = (0..nsects).map(|_| section_64(&mut f)).collect();
    Some(Segment { vmaddr, vmsize, fileoff, filesize, sections })
}

/// The segments in command order, or 15 or 16.
pub fn segments(file: &[u8]) -> Result<Vec<Segment>, u64> {
    if file.len() < 32 {
        return Err(15);
    }
    let mut f = Fields(file);
    let [magic, _cputype, _cpusubtype, _filetype, ncmds, sizeofcmds, _flags, _reserved] = [(); 8].map(|()| f.u32());
    if magic != 0xFEED_FACF {
        return Err(15);
    }
    let mut rest = &f.0[..f.0.len().min(sizeofcmds as usize)];
    let mut found = Vec::new();
    for _ in 0..ncmds {
        if rest.len() < 8 {
            return Err(16);
        }
        let mut f = Fields(rest);
        let [cmd, cmdsize] = [(); 2].map(|()| f.u32());
        if cmdsize < 8 || rest.len() < cmdsize as usize {
            return Err(16);
        }
        let (command, after) = rest.split_at(cmdsize as usize);
        if cmd == 0x19 {
            found.push(segment_command_64(command).ok_or(16u64)?);
        }
        rest = after;
    }
    Ok(found)
}

/// What is lent, and what is left of it.
#[derive(Clone, PartialEq, Debug)]
pub struct Lent {
    pub segments: Vec<u64>,
    pub sections: Vec<u64>,
    pub rebases: Vec<u64>,
    pub binds: Vec<u64>,
    pub index: Vec<u32>,
}

/// The first section of a name, all 16 bytes of it.
pub fn first<'a>(segments: &'a [Segment], name: &str) -> Option<&'a Section> {
    let mut whole = [0; 16];
    whole[..name.len()].copy_from_slice(name.as_bytes());
    segments.iter().flat_map(|s| &s.sections).find(|s| s.sectname == whole)
}

/// Segments, version, flags, the info's offset and length; the buffers as they are left. With a number they stay.
pub fn open(file: &[u8], lent: &mut Lent) -> Result<[u64; 5], u64> {
    let n = file.len() as u64;
    let found = segments(file)?;
    let ask = |k: u64, yes: bool| if yes { Ok(()) } else { Err(k) };
    ask(1, n <= 0xFFFF_FFFF)?;
    ask(2, lent.segments.len() == 64 * SEGMENT_WORDS && found.len() <= 64)?;
    let five = NAMES.map(|name| first(&found, name));
    ask(3, lent.sections.len() == 15 && five.iter().flatten().all(|s| s.size <= n))?;
    let info = first(&found, "__objc_imageinfo");
    let at = info.map_or(0, |s| s.offset as u64);
    let len = info.map_or(0, |s| s.size.min(n.saturating_sub(at)));
    ask(4, len >= 8)?;
    let (rebases, binds) = (lent.rebases.len() / 2, lent.binds.len() / BIND_WORDS);
    ask(5, lent.rebases.len() % 2 == 0)?;
    ask(6, lent.binds.len() % BIND_WORDS == 0)?;
    ask(18, lent.binds.chunks(BIND_WORDS).all(|b| b[3] == 0))?;
    let names: Vec<_> = lent.binds.chunks(BIND_WORDS).map(|b| (b[1], b[2])).collect();
    ask(7, names.iter().all(|(o, l)| o.checked_add(*l).is_some_and(|end| end <= n)))?;
    ask(14, names.iter().all(|(o, l)| std::str::from_utf8(&file[*o as usize..(o + l) as usize]).is_ok()))?;
    ask(8, lent.index.len() >= 8192 + rebases + binds)?;
    for (i, s) in found.iter().enumerate() {
        lent.segments[SEGMENT_WORDS * i..][..SEGMENT_WORDS].copy_from_slice(&[s.vmaddr, s.vmsize, s.fileoff, s.filesize, 0]);
    }
    for (i, s) in five.iter().enumerate() {
        lent.sections[3 * i..3 * i + 3].copy_from_slice(&s.map_or([0; 3], |s| [1, s.addr, s.size]));
    }
    lent.index[..8192].fill(0);
    let slots = lent.rebases.chunks(2).map(|r| (0, r[0])).chain(lent.binds.chunks(BIND_WORDS).map(|b| (4096, b[0])));
    for (i, (heads, slot)) in slots.enumerate() {
        let head = heads + (slot / 8 % 4096) as usize;
        lent.index[8192 + i] = lent.index[head];
        lent.index[head] = if heads == 0 { i + 1 } else { i + 1 - rebases } as u32;
    }
    let mut f = Fields(&file[at as usize..]);
    Ok([found.len() as u64, f.u32() as u64, f.u32() as u64, at, len])
}
