//! Generated and damaged files, with what is lent for them: a number decides all.
use crate::reader::{BIND_WORDS, Lent, NAMES, SEGMENT_WORDS};

pub struct Random(u64);

impl Random {
    pub fn of(number: u64) -> Self {
        let mut r = Random(number.wrapping_mul(0x9E37_79B9_7F4A_7C15) ^ 0x5DEE_CE66_D1CE_4E5B);
        r.next();
        r
    }
    pub fn next(&mut self) -> u64 {
        self.0 = self.0.wrapping_add(0x9E37_79B9_7F4A_7C15);
        let mut z = self.0;
        z = (z ^ z >> 30).wrapping_mul(0xBF58_476D_1CE4_E5B9);
        z = (z ^ z >> 27).wrapping_mul(0x94D0_49BB_1331_11EB);
        z ^ z >> 31
    }
    pub fn below(&mut self, n: u64) -> u64 {
        self.next() % n
    }
    pub fn one_in(&mut self, n: u64) -> bool {
        self.below(n) == 0
    }
    pub fn of_these<T: Copy>(&mut self, all: &[T]) -> T {
        all[self.below(all.len() as u64) as usize]
    }
}

/// The names, names that another begins with or that begin another, and bytes after a zero.
fn name(g: &mut Random) -> [u8; 16] {
    let names = [NAMES[0], NAMES[1], NAMES[2], NAMES[3], NAMES[4], "__objc_imageinfo"];
    let other = ["__objc_catlist2", "__objc_catlis", "__objc_classlis", "__objc_protolisu", "__objc_selrefs", "__text", ""];
    let text = if g.one_in(3) { g.of_these(&other) } else { g.of_these(&names) };
    let mut whole = [0; 16];
    whole[..text.len()].copy_from_slice(text.as_bytes());
    if g.one_in(12) {
        whole[15] ^= 1 << g.below(8);
    }
    whole
}

fn segment(g: &mut Random, out: &mut Vec<u8>, nsects: u64, length: u64) {
    let spare = g.of_these(&[0, 0, 0, 8, 79]);
    out.extend([0x19u32, (72 + 80 * nsects + spare) as u32].map(u32::to_le_bytes).concat());
    out.extend([b'_'; 16]);
    out.extend([g.next(), g.below(0x10000), g.below(length), g.below(length)].map(u64::to_le_bytes).concat());
    out.extend([7u32, 5, nsects as u32, 0].map(u32::to_le_bytes).concat());
    for _ in 0..nsects {
        out.extend(name(g));
        out.extend([b'_'; 16]);
        let size = match g.below(40) {
            0 => length + g.below(2),
            1 => g.next(),
            _ => 8 + g.below(64),
        };
        out.extend([g.next(), size].map(u64::to_le_bytes).concat());
        let offset = match g.below(16) {
            0 => length.saturating_sub(g.below(12)),
            1 => g.next(),
            _ => g.below(length / 2 + 1),
        };
        out.extend([offset as u32, 0, 0, 0, 0, 0, 0, 0].map(u32::to_le_bytes).concat());
    }
    out.resize(out.len() + spare as usize, 0xEE);
}

fn well_formed(g: &mut Random) -> Vec<u8> {
    let count = if g.one_in(64) { 60 + g.below(10) } else { g.below(7) };
    let tail = 64 + g.below(200);
    let mut commands = Vec::new();
    for _ in 0..count {
        if count < 60 && g.one_in(4) {
            let size = 8 + g.below(40);
            commands.extend([g.of_these(&[0x1Bu32, 0x2, 0x80000034]), size as u32].map(u32::to_le_bytes).concat());
            commands.resize(commands.len() + size as usize - 8, 0);
        } else {
            let nsects = if count < 60 { g.below(7) } else { 0 };
            segment(g, &mut commands, nsects, 400 + tail);
        }
    }
    let size = commands.len() as u64 + if g.one_in(8) { g.below(20) } else { 0 };
    let mut file = [0xFEED_FACFu32, 0x0100_000C, 0, 2, count as u32, size as u32, 0, 0].map(u32::to_le_bytes).concat();
    file.append(&mut commands);
    for _ in 0..tail {
        file.push(if g.one_in(40) { g.next() as u8 } else { b'a' + g.below(26) as u8 });
    }
    file
}

fn damage(g: &mut Random, file: &mut Vec<u8>) {
    for _ in 0..1 + g.below(3) {
        if g.one_in(5) {
            file.truncate(g.below(file.len() as u64 + 1) as usize);
        }
        if file.is_empty() {
            return;
        }
        let reach = file.len() as u64;
        let at = match g.below(3) {
            0 => g.below(reach.min(32)),
            1 => g.below(reach.min(32 + 160)),
            _ => g.below(reach),
        } as usize;
        file[at] = match g.below(4) {
            0 => 0,
            1 => 0xFF,
            2 => file[at] ^ 1 << g.below(8),
            _ => g.next() as u8,
        };
    }
}

pub fn made(number: u64) -> (Vec<u8>, Lent) {
    let mut g = Random::of(number);
    let mut file = well_formed(&mut g);
    if number % 2 == 1 {
        damage(&mut g, &mut file);
    }
    let g = &mut g;
    let whole = 64 * SEGMENT_WORDS;
    let segments = if g.one_in(24) { g.of_these(&[0, 256, whole - 1, whole + 1, 2 * whole]) } else { whole };
    let sections = if g.one_in(24) { g.of_these(&[0, 14, 16]) } else { 15 };
    let slot = |g: &mut Random| g.of_these(&[0x1000, 0x1008, 0x1000 + 8 * 4096, 0xFFFF_FFFF_FFFF_FFF8]) + g.below(4);
    let mut rebases = Vec::new();
    for _ in 0..g.below(5) {
        rebases.extend([slot(g), g.next()]);
    }
    if g.one_in(24) {
        rebases.push(1);
    }
    let mut binds = Vec::new();
    for _ in 0..g.below(4) {
        let n = file.len() as u64;
        let offset = if g.one_in(24) { g.of_these(&[n, n + 1, u64::MAX]) } else { n.saturating_sub(1 + g.below(60)) };
        let len = if g.one_in(24) { g.of_these(&[61, u64::MAX]) } else { g.below(8).min(n.saturating_sub(offset)) };
        let file = if g.one_in(24) { g.of_these(&[1, 4, u64::MAX]) } else { 0 };
        binds.extend([slot(g), offset, len, file]);
    }
    if g.one_in(24) {
        binds.push(1);
    }
    let needed = 8192 + rebases.len() / 2 + binds.len() / BIND_WORDS;
    let index = if g.one_in(24) { g.of_these(&[0, 8191, needed - 1]) } else { needed + g.below(3) as usize };
    let lent = Lent {
        segments: vec![0xAAAA_AAAA; segments],
        sections: vec![0xBBBB_BBBB; sections],
        rebases,
        binds,
        index: vec![0xCCCC_CCCC; index],
    };
    (file, lent)
}
