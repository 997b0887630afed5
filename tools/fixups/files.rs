//! Generated and damaged files with chained fixups: a number decides its file.

pub struct Random(u64);

impl Random {
    pub fn of(number: u64) -> Self {
        let mut r = Random(number.wrapping_mul(0x9E37_79B9_7F4A_7C15) ^ 0x1234_5678_9ABC_DEF1);
        r.next();
        r
    }
    pub fn next(&mut self) -> u64 {
        self.0 = self.0.wrapping_add(0x9E37_79B9_7F4A_7C15);
        let mut z = self.0;
        z = (z ^ z >> 30).wrapping_mul(0xBF58_476D_1CE4_E5B9);
        z = (z ^ z >> 27).wrapping_mul(0x94D0_49BB_1331_11EB);
        z ^ z >> 31
    }
    pub fn below(&mut self, n: u64) -> u64 {
        self.next() % n
    }
    pub fn one_in(&mut self, n: u64) -> bool {
        self.below(n) == 0
    }
}

/// Puts the low k bytes of n at an offset.
fn put(v: &mut Vec<u8>, at: usize, n: u64, k: usize) {
    if v.len() < at + k {
        v.resize(at + k, 0);
    }
    v[at..at + k].copy_from_slice(&n.to_le_bytes()[..k]);
}

pub struct Shape {
    pub format: u64,
    pub page_size: u64,
    pub pages: u64,
    pub segments: usize,
    pub vmaddr: u64,
    pub imports: u64,
}

impl Shape {
    fn of(g: &mut Random) -> Self {
        Shape {
            format: if g.one_in(2) { 2 } else { 6 },
            page_size: [0x40, 0x80, 0x100, 0x1000][g.below(4) as usize],
            pages: 1 + g.below(3),
            segments: 2 + g.below(3) as usize,
            vmaddr: if g.one_in(12) { 0xFFFF_FFFF_FFFF_F000 } else { 0x1_0000_0000 },
            imports: 1 + g.below(4),
        }
    }
}

/// Segment commands with their sections, and other commands between them; where each segment's bytes begin.
fn segments(g: &mut Random, s: &Shape, v: &mut Vec<u8>, data: u64) -> Vec<Option<u64>> {
    let names: [&[u8]; 5] = [b"__TEXT", b"__DATA_CONST", b"__DATA", b"__MORE", b"__LINKEDIT"];
    let mut offsets = Vec::new();
    let mut fileoff = data;
    let command = |v: &mut Vec<u8>, name: &[u8], rows: [u64; 4], sections: u64| {
        let at = v.len();
        put(v, at, 0x19, 4);
        put(v, at + 4, 72 + 80 * sections, 4);
        v.resize(at + 72 + 80 * sections as usize, 0);
        v[at + 8..at + 8 + name.len()].copy_from_slice(name);
        for (i, row) in rows.into_iter().enumerate() {
            put(v, at + 24 + 8 * i, row, 8);
        }
        put(v, at + 64, sections, 4);
    };
    if g.one_in(2) {
        command(v, b"__PAGEZERO", [0, 0x1_0000_0000, 0, 0], 0);
        offsets.push(None);
    }
    for i in 0..s.segments {
        let size = s.pages * s.page_size;
        let (vmaddr, sections) = (s.vmaddr.wrapping_add(0x10000 * i as u64), g.below(3));
        let name: &[u8] = if g.one_in(20) { b"__TEXT2" } else { names[i % 5] };
        command(v, name, [vmaddr, 0x10000, fileoff, if g.one_in(30) { size / 2 } else { size }], sections);
        offsets.push(Some(fileoff));
        fileoff += size;
        if g.one_in(3) {
            let at = v.len();
            put(v, at, 0x1B, 4);
            put(v, at + 4, 24, 4);
            v.resize(at + 24, 0);
        }
    }
    offsets
}

/// The words of one chain: rebases and binds with steps that stay in the page.
fn chain(g: &mut Random, s: &Shape, v: &mut Vec<u8>, page: u64, start: u64) {
    let mut o = start;
    loop {
        let room = (s.page_size.saturating_sub(o + 8)) / 4;
        let next = if room < 2 || g.one_in(6) { 0 } else { 2 + g.below(room.min(12) - 1) };
        let low = if g.one_in(3) {
            1 << 63 | g.below(256) << 24 | g.below(s.imports)
        } else {
            (if g.one_in(3) { g.below(256) << 36 } else { 0 }) | g.below(1 << 20)
        };
        put(v, (page + o) as usize, low | next << 51, 8);
        if next == 0 {
            return;
        }
        o += 4 * next;
    }
}

/// The fixup data, with the chains put into the file.
fn fixup_data(g: &mut Random, s: &Shape, v: &mut Vec<u8>, offsets: &[Option<u64>]) -> Vec<u8> {
    let mut d = vec![0; 28];
    let starts = 32;
    put(&mut d, starts, offsets.len() as u64, 4);
    let mut at = starts + 4 + 4 * offsets.len();
    for (i, offset) in offsets.iter().enumerate() {
        put(&mut d, starts + 4 + 4 * i, 0, 4);
        let Some(fileoff) = offset else { continue };
        if g.one_in(3) {
            continue;
        }
        put(&mut d, starts + 4 + 4 * i, (at - starts) as u64, 4);
        put(&mut d, at, 22 + 2 * s.pages, 4);
        put(&mut d, at + 4, s.page_size, 2);
        put(&mut d, at + 6, s.format, 2);
        put(&mut d, at + 20, s.pages, 2);
        for p in 0..s.pages {
            let start = if g.one_in(4) { 0xFFFF } else { 4 * g.below(s.page_size / 8) };
            put(&mut d, at + 22 + 2 * p as usize, start, 2);
            if start != 0xFFFF {
                chain(g, s, v, fileoff + p * s.page_size, start);
            }
        }
        at = (at + 22 + 2 * s.pages as usize + 3) & !3;
    }
    let symbols = at + 4 * s.imports as usize;
    let mut pool = vec![0];
    for i in 0..s.imports as usize {
        put(&mut d, at + 4 * i, (pool.len() as u64) << 9 | g.below(512), 4);
        pool.extend(b"_sym");
        for _ in 0..g.below(5) {
            pool.push(if g.one_in(200) { 0xC3 } else { b'a' + g.below(26) as u8 });
        }
        pool.push(0);
    }
    d.resize(symbols, 0);
    d.append(&mut pool);
    for (i, n) in [starts as u64, at as u64, symbols as u64, s.imports, 1, 0].into_iter().enumerate() {
        put(&mut d, 4 + 4 * i, n, 4);
    }
    d
}

pub fn file_of(g: &mut Random, s: &Shape, data: u64) -> Vec<u8> {
    let mut v = vec![0; 32];
    let offsets = segments(g, s, &mut v, data);
    let fixups_at = data + s.segments as u64 * s.pages * s.page_size;
    let at = v.len();
    let commands = if g.one_in(20) { 0 } else if g.one_in(16) { 2 } else { 1 };
    for i in 0..commands {
        put(&mut v, at + 16 * i, 0x8000_0034, 4);
        put(&mut v, at + 16 * i + 4, 16, 4);
        put(&mut v, at + 16 * i + 8, if i == 0 { fixups_at } else { 3 }, 4);
        put(&mut v, at + 16 * i + 12, 0, 4);
    }
    let end = v.len();
    assert!(end as u64 <= data);
    let mut count = 0;
    let mut c = 32;
    while c < end {
        c += u32::from_le_bytes(v[c + 4..c + 8].try_into().unwrap()) as usize;
        count += 1;
    }
    put(&mut v, 0, 0xFEED_FACF, 4);
    put(&mut v, 16, count, 4);
    put(&mut v, 20, end as u64 - 32, 4);
    v.resize(fixups_at as usize, 0);
    let d = fixup_data(g, s, &mut v, &offsets);
    if commands > 0 {
        put(&mut v, at + 12, d.len() as u64, 4);
    }
    v.extend(d);
    v
}

fn damage(g: &mut Random, v: &mut Vec<u8>) {
    let fixups = crate::reader::commands(v).ok().and_then(|c| c.iter().find(|c| c.cmd == 0x8000_0034).map(|c| c.at));
    let at = fixups.map_or(0, |c| u32::from_le_bytes(v[c + 8..c + 12].try_into().unwrap()) as u64);
    for _ in 0..1 + g.below(3) {
        if g.one_in(12) {
            v.truncate(v.len().saturating_sub(g.below(60) as usize));
        }
        let place = match g.below(4) {
            0 => g.below(0x200),
            1 => at + g.below(40),
            2 => at + 28 + g.below(100),
            _ => g.below(v.len() as u64 + 1),
        } as usize;
        if place < v.len() {
            v[place] = match g.below(4) {
                0 => 0,
                1 => 0xFF,
                2 => v[place] ^ 1 << g.below(8),
                _ => g.next() as u8,
            };
        }
    }
}

/// Every second file is damaged.
pub fn made(number: u64) -> Vec<u8> {
    let mut g = Random::of(number);
    let s = Shape::of(&mut g);
    let mut v = file_of(&mut g, &s, 0x800);
    if number % 2 == 1 {
        damage(&mut g, &mut v);
    }
    v
}

/// About n fixups, in pages of 16,384 bytes.
pub fn large(n: u64) -> Vec<u8> {
    let mut v = vec![0; 32];
    let (mut g, pages) = (Random::of(1), n.div_ceil(2048));
    let per_segment = 512;
    let segments = pages.div_ceil(per_segment) as usize;
    let s = Shape { format: 6, page_size: 0x4000, pages: per_segment, segments, vmaddr: 0x1_0000_0000, imports: 1000 };
    let data = 0x10000;
    let mut offsets = Vec::new();
    for i in 0..segments as u64 {
        let at = v.len();
        put(&mut v, at, 0x19, 4);
        put(&mut v, at + 4, 72, 4);
        v.resize(at + 72, 0);
        let name: &[u8] = if i == 0 { b"__TEXT" } else { b"__DATA" };
        v[at + 8..at + 14].copy_from_slice(name);
        let size = s.pages * s.page_size;
        for (k, row) in [s.vmaddr + i * size, size, data + i * size, size].into_iter().enumerate() {
            put(&mut v, at + 24 + 8 * k, row, 8);
        }
        offsets.push(data + i * size);
    }
    let fixups_at = data + segments as u64 * s.pages * s.page_size;
    let at = v.len();
    for (k, n) in [0x8000_0034, 16, fixups_at, 0].into_iter().enumerate() {
        put(&mut v, at + 4 * k, n, 4);
    }
    for (k, n) in [(0, 0xFEED_FACF), (16, segments as u64 + 1), (20, at as u64 + 16 - 32)] {
        put(&mut v, k, n, 4);
    }
    v.resize(fixups_at as usize, 0);
    let mut d = vec![0; 32];
    put(&mut d, 32, segments as u64, 4);
    let mut place = 36 + 4 * segments;
    for (i, fileoff) in offsets.iter().enumerate() {
        put(&mut d, 36 + 4 * i, place as u64 - 32, 4);
        put(&mut d, place + 4, s.page_size, 2);
        put(&mut d, place + 6, s.format, 2);
        put(&mut d, place + 20, s.pages, 2);
        for p in 0..s.pages {
            put(&mut d, place + 22 + 2 * p as usize, 0, 2);
            for k in 0..2048 {
                let next = if k == 2047 { 0 } else { 2 };
                let low = if g.one_in(4) { 1 << 63 | g.below(s.imports) } else { g.below(1 << 30) };
                put(&mut v, (fileoff + p * s.page_size + 8 * k) as usize, low | next << 51, 8);
            }
        }
        place = (place + 22 + 2 * s.pages as usize + 3) & !3;
    }
    let symbols = place + 4 * s.imports as usize;
    let mut pool = vec![0];
    for i in 0..s.imports as usize {
        put(&mut d, place + 4 * i, (pool.len() as u64) << 9, 4);
        pool.extend(format!("_OBJC_CLASS_$_Name{i}\0").bytes());
    }
    d.resize(symbols, 0);
    d.append(&mut pool);
    for (i, n) in [32, place as u64, symbols as u64, s.imports, 1, 0].into_iter().enumerate() {
        put(&mut d, 4 + 4 * i, n, 4);
    }
    put(&mut v, at + 12, d.len() as u64, 4);
    v.extend(d);
    v
}

/// The file of 212 bytes of crates/fixups/proofs/Cases.antt.
pub fn small() -> Vec<u8> {
    let mut v = Vec::new();
    let words = |v: &mut Vec<u8>, at: usize, all: &[u64], k: usize| {
        for (i, n) in all.iter().enumerate() {
            put(v, at + k * i, *n, k);
        }
    };
    words(&mut v, 0, &[0xFEED_FACF, 0x0100_000C, 0, 2, 2, 88, 0, 0, 0x19, 72], 4);
    v.extend(b"__TEXT\0\0\0\0\0\0\0\0\0\0");
    words(&mut v, 56, &[0x1000, 0x1000, 120, 24], 8);
    words(&mut v, 88, &[7, 7, 0, 0, 0x8000_0034, 16, 144, 68], 4);
    words(&mut v, 120, &[0x0010_0AB0_0000_0010, 0x8010_0000_0000_0000, 0x20], 8);
    words(&mut v, 144, &[0, 28, 60, 64, 1, 1, 0, 1, 8, 24, 0x6_0040, 0, 0, 0, 1, 0x202], 4);
    v.extend(b"\0_a\0");
    v
}
