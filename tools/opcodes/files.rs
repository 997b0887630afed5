//! Generated and damaged files with bind opcodes: a number decides its file.
use crate::random::Random;

/// Puts the low k bytes of n at an offset.
fn put(v: &mut Vec<u8>, at: usize, n: u64, k: usize) {
    if v.len() < at + k {
        v.resize(at + k, 0);
    }
    v[at..at + k].copy_from_slice(&n.to_le_bytes()[..k]);
}

fn segment(v: &mut Vec<u8>, name: &[u8], rows: [u64; 4], sections: u64) {
    let at = v.len();
    put(v, at, 0x19, 4);
    put(v, at + 4, 72 + 80 * sections, 4);
    v.resize(at + 72 + 80 * sections as usize, 0);
    v[at + 8..at + 8 + name.len()].copy_from_slice(name);
    for (i, row) in rows.into_iter().enumerate() {
        put(v, at + 24 + 8 * i, row, 8);
    }
    put(v, at + 64, sections, 4);
}

/// A ULEB128 number, some padded.
fn uleb(g: &mut Random, v: &mut Vec<u8>, mut n: u64) {
    loop {
        let digit = (n & 0x7F) as u8;
        n >>= 7;
        if n == 0 {
            if g.one_in(40) {
                v.push(digit | 0x80);
                for _ in 0..g.below(12) {
                    v.push(0x80);
                }
                v.push(0);
            } else {
                v.push(digit);
            }
            return;
        }
        v.push(digit | 0x80);
    }
}

/// The bytes of each segment in the file; none has no bytes.
type Sizes = Vec<u64>;

fn symbol(g: &mut Random, v: &mut Vec<u8>) {
    v.push(0x40 | if g.one_in(4) { g.below(16) as u8 } else { 0 });
    v.extend(b"_OBJC_");
    for _ in 0..g.below(6) {
        v.push(if g.one_in(200) { 0xC3 } else { b'a' + g.below(26) as u8 });
    }
    v.push(0);
}

/// Opcodes in an order that linkers write: what is dropped, a symbol, a segment, then binds that stay in it.
fn entry(g: &mut Random, v: &mut Vec<u8>, sizes: &Sizes, offset: &mut Option<(usize, u64)>) {
    if g.one_in(2) {
        v.push(0x10 | g.below(16) as u8);
    } else if g.one_in(6) {
        v.push(0x30 | g.below(16) as u8);
    } else if g.one_in(6) {
        v.push(0x20);
        let n = g.below(300);
        uleb(g, v, n);
    }
    if g.one_in(3) {
        v.push(0x51);
    }
    if g.one_in(12) {
        v.push(0x60);
        for _ in 0..g.below(3) {
            v.push(0x80 | g.below(128) as u8);
        }
        v.push(g.below(128) as u8);
    }
    symbol(g, v);
    let (s, mut at) = match *offset {
        Some(x) if !g.one_in(3) => x,
        _ => {
            let mut s = g.below(sizes.len() as u64) as usize;
            // most often one that has a slot
            for _ in 0..6 {
                if sizes[s] < 8 {
                    s = g.below(sizes.len() as u64) as usize;
                }
            }
            let at = 8 * g.below(sizes[s] / 8 + 1);
            v.push(0x70 | s as u8);
            uleb(g, v, at);
            (s, at)
        }
    };
    // back into the segment where the last bind left it
    if at + 8 > sizes[s] {
        let to = 8 * g.below(sizes[s] / 16 + 1);
        v.push(0x80);
        uleb(g, v, to.wrapping_sub(at));
        at = to;
    }
    for _ in 0..1 + g.below(3) {
        let room = sizes[s].saturating_sub(at + 8);
        let skip = if room >= 8 { 8 * g.below(room.min(64) / 8) } else { 0 };
        match g.below(6) {
            0 if skip > 0 => {
                v.push(0xA0);
                uleb(g, v, skip);
                at += 8 + skip;
            }
            1 if skip / 8 < 16 => {
                v.push(0xB0 | (skip / 8) as u8);
                at += 8 + skip;
            }
            2 => {
                let most = room / (8 + skip) + 1;
                let count = if g.one_in(20) { g.below(most + 2) } else { g.below(most.min(5) + 1) };
                v.push(0xC0);
                uleb(g, v, count);
                uleb(g, v, skip);
                at += count * (8 + skip);
            }
            3 if at >= 8 => {
                let back = 8 * (1 + g.below(at / 8));
                v.push(0x80);
                uleb(g, v, 0u64.wrapping_sub(back));
                v.push(0x90);
                at = at - back + 8;
            }
            _ => {
                v.push(0x90);
                at += 8;
            }
        }
        if at + 8 > sizes[s] {
            break;
        }
    }
    *offset = Some((s, at));
}

fn stream(g: &mut Random, sizes: &Sizes, lazy: bool) -> Vec<u8> {
    let mut v = Vec::new();
    if g.one_in(if lazy { 3 } else { 6 }) {
        return v;
    }
    let mut offset = None;
    for _ in 0..g.below(6) {
        entry(g, &mut v, sizes, &mut offset);
        if lazy {
            v.push(0);
        }
    }
    if g.one_in(40) {
        // what only a rare or a wrong file has
        match g.below(6) {
            0 => v.push(0xD0 | g.below(16) as u8),
            1 => v.push(0x50 | g.below(16) as u8),
            2 => v.extend([0xC0, 2, 0xF8, 0xFF, 0xFF, 0xFF, 0xFF, 0xFF, 0xFF, 0xFF, 0xFF, 1]),
            3 => v.extend([0xC0, 0xFF, 0xFF, 0xFF, 0xFF, 0xFF, 0xFF, 0xFF, 0xFF, 0xFF, 1, g.below(64) as u8]),
            4 => v.extend([0x70 | g.below(16) as u8, g.below(128) as u8, 0x90]),
            _ => v.push(g.next() as u8),
        }
    }
    for _ in 0..g.below(5) {
        v.push(0);
    }
    v
}

fn file_of(g: &mut Random) -> Vec<u8> {
    let data = 0x400u64;
    let mut v = vec![0; 32];
    let (mut sizes, mut fileoff) = (Sizes::new(), data);
    let vmaddr = if g.one_in(12) { 0xFFFF_FFFF_FFFF_F000 } else { 0x1_0000_0000u64 };
    if g.one_in(2) {
        segment(&mut v, b"__PAGEZERO", [0, 0x1_0000_0000, 0, 0], 0);
        sizes.push(0);
    }
    for i in 0..1 + g.below(3) {
        let size = if g.one_in(12) { g.below(20) } else { 8 * (1 + g.below(40)) };
        let filesize = if g.one_in(30) { size / 2 } else { size };
        let sections = g.below(2);
        segment(&mut v, b"__DATA", [vmaddr.wrapping_add(0x1000 * i), 0x1000, fileoff, filesize], sections);
        sizes.push(filesize);
        fileoff += size;
        if g.one_in(3) {
            let at = v.len();
            put(&mut v, at, 0x1B, 4);
            put(&mut v, at + 4, 24, 4);
            v.resize(at + 24, 0);
        }
    }
    let commands = if g.one_in(20) { 0 } else if g.one_in(12) { 2 } else { 1 };
    let at = v.len();
    for i in 0..commands {
        put(&mut v, at + 48 * i, if g.one_in(4) { 0x22 } else { 0x8000_0022 }, 4);
        put(&mut v, at + 48 * i + 4, 48, 4);
        put(&mut v, at + 48 * i + 44, 0, 4);
    }
    let end = v.len();
    assert!(end as u64 <= data);
    let (mut c, mut count) = (32, 0);
    while c < end {
        c += u32::from_le_bytes(v[c + 4..c + 8].try_into().unwrap()) as usize;
        count += 1;
    }
    for (i, n) in [(0, 0xFEED_FACF), (16, count), (20, end as u64 - 32)] {
        put(&mut v, i, n, 4);
    }
    v.resize(fileoff as usize, 0);
    for i in 0..commands {
        for field in [16, 24, 32] {
            let ops = stream(g, &sizes, field == 32);
            let n = v.len() as u64;
            put(&mut v, at + 48 * i + field, n, 4);
            put(&mut v, at + 48 * i + field + 4, ops.len() as u64, 4);
            v.extend(ops);
        }
    }
    v
}

fn damage(g: &mut Random, v: &mut Vec<u8>) {
    let info = crate::reader::commands(v).ok().and_then(|c| c.iter().find(|c| c.cmd & 0x7FFF_FFFF == 0x22).map(|c| c.at));
    let word = |v: &Vec<u8>, at: usize| u32::from_le_bytes(v[at..at + 4].try_into().unwrap()) as u64;
    for _ in 0..1 + g.below(3) {
        if g.one_in(12) {
            v.truncate(v.len().saturating_sub(g.below(60) as usize));
        }
        let place = match (g.below(5), info) {
            (0, _) => g.below(0x200),
            (1, Some(c)) => c as u64 + g.below(48),
            (2 | 3, Some(c)) if c + 48 <= v.len() => {
                let field = 16 + 8 * g.below(3) as usize;
                let (off, size) = (word(v, c + field), word(v, c + field + 4));
                off + g.below(size.max(1))
            }
            _ => g.below(v.len() as u64 + 1),
        };
        if let Some(b) = usize::try_from(place).ok().and_then(|p| v.get_mut(p)) {
            *b = match g.below(5) {
                0 => 0,
                1 => 0xFF,
                2 => *b ^ 1 << g.below(8),
                3 => (g.below(16) << 4) as u8 | *b & 0x0F,
                _ => g.next() as u8,
            };
        }
    }
}

/// Every second file is damaged.
pub fn made(number: u64) -> Vec<u8> {
    let mut g = Random::of(number);
    let mut v = file_of(&mut g);
    if number % 2 == 1 {
        damage(&mut g, &mut v);
    }
    v
}
