//! A bundle's tables, and the questions 13, 1 to 8, 14, 18 and 23, computed apart: the Rust has none of them. Source: document
//! 01, "The questions, in order" and "The program's listing"; document 02, notes 2, 6 and 11. The Rust has one image: only
//! bundles whose file numbers are all 0 are listed.

use crate::binary::{Import, MachoBinary, Rebase, Section, Segment};

/// Names of the sections in the order of the section table.
const LISTS: [&str; 5] =
    ["__objc_classlist", "__objc_nlclslist", "__objc_catlist", "__objc_nlcatlist", "__objc_protolist"];

const MOST_RECORDS: usize = 16_777_215;

/// Bodies of sections, which may be longer than the image where another file is.
static ZEROS: [u8; 32_768] = [0; 32_768];

fn words(bytes: &[u8]) -> Vec<u64> {
    bytes.chunks_exact(8).map(|c| u64::from_le_bytes(c.try_into().unwrap())).collect()
}

/// Why a bundle is not listed: the number of the first question that says no, or it spans files, which the Rust cannot.
pub enum Unlisted {
    Refused(u32),
    Spans,
}

/// The tables of a bundle and the ends of its ranges, frames first, unless a question says no.
pub fn open(bundle: &[u8]) -> Result<(MachoBinary<'_>, [u64; 4]), Unlisted> {
    let refused = |k| Err(Unlisted::Refused(k));
    // 13: at most 32,768 bytes, and exactly as long as the counts say. The sum of seven such products fits 128 bits.
    if bundle.len() > 32_768 || bundle.len() < 88 {
        return refused(13);
    }
    let (head, rest) = bundle.split_at(56);
    let counts: [u64; 7] = words(head).try_into().unwrap();
    let [segments, rebases, binds, n0, n1, n2, n3] = counts.map(u128::from);
    if 88 + 8 + 40 * segments + 120 + 16 * rebases + 32 * binds + n0 + n1 + n2 + n3 != bundle.len() as u128 {
        return refused(13);
    }
    let (ends, rest) = rest.split_at(32);
    let ends: [u64; 4] = words(ends).try_into().unwrap();
    let (info, rest) = rest.split_at(8);
    let (seg, rest) = rest.split_at(40 * segments as usize);
    let (sec, rest) = rest.split_at(120);
    let (reb, rest) = rest.split_at(16 * rebases as usize);
    let (bnd, rest) = rest.split_at(32 * binds as usize);
    let (image, rest) = rest.split_at(n0 as usize);
    let (second, rest) = rest.split_at(n1 as usize);
    let (third, fourth) = rest.split_at(n2 as usize);
    let files = [image, second, third, fourth];
    let (seg, sec, reb, bnd) = (words(seg), words(sec), words(reb), words(bnd));
    let longest = files.iter().map(|f| f.len() as u64).max().unwrap();

    // 1, 4, 5 and 6 cannot say no to a bundle, which is too short for it, nor can 8: the program lends the index.
    if longest > 0xFFFF_FFFF {
        return refused(1);
    }
    if seg.len() % 5 != 0 || seg.len() / 5 > 64 {
        return refused(2);
    }
    // 18: the four files are all lent.
    if seg.chunks(5).any(|s| s[4] > 3) {
        return refused(18);
    }
    if sec.len() != 15 || sec.chunks(3).any(|s| s[0] > 1 || (s[0] == 1 && s[2] > longest)) {
        return refused(3);
    }
    if info.len() < 8 {
        return refused(4);
    }
    if reb.len() % 2 != 0 || reb.len() / 2 > MOST_RECORDS {
        return refused(5);
    }
    if bnd.len() % 4 != 0 || bnd.len() / 4 > MOST_RECORDS {
        return refused(6);
    }
    if bnd.chunks(4).any(|b| b[3] > 3) {
        return refused(18);
    }
    // 7 of every bind name, in its own file, then 14 of every one.
    if bnd.chunks(4).any(|b| b[1].checked_add(b[2]).is_none_or(|end| end > files[b[3] as usize].len() as u64)) {
        return refused(7);
    }
    let mut imports = Vec::new();
    for b in bnd.chunks(4) {
        let name = &files[b[3] as usize][b[1] as usize..(b[1] + b[2]) as usize];
        let name = core::str::from_utf8(name).map_err(|_| Unlisted::Refused(14))?;
        imports.push(Import { address: b[0], name, dylib: "" });
    }
    // 23 comes last.
    if ends[0] > ends[1] || ends[2] > ends[3] {
        return refused(23);
    }
    if seg.chunks(5).any(|s| s[4] != 0) || bnd.chunks(4).any(|b| b[3] != 0) {
        return Err(Unlisted::Spans);
    }

    let mut sections = vec![Section { name: "__objc_imageinfo", body: info, addr: 0 }];
    for (name, s) in LISTS.into_iter().zip(sec.chunks(3)) {
        if s[0] == 1 {
            // Of these sections the Rust uses the body's length alone, and reads the slots by address.
            sections.push(Section { name, body: &ZEROS[..s[2] as usize], addr: s[1] });
        }
    }
    let bin = MachoBinary {
        image,
        segments: seg.chunks(5).map(|s| Segment(s[..4].try_into().unwrap())).collect(),
        sections,
        rebases: reb.chunks(2).map(|r| Rebase(r.try_into().unwrap())).collect(),
        imports,
    };
    Ok((bin, ends))
}
