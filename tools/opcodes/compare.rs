//! Files with bind opcodes through the crate `opcodes` and through a second reader, and what the Rust's `imports` would read of them.
//!
//!     compare [COUNT [FIRST]]
//!     compare --inputs
//!     compare --speed [BINDS [ROUNDS]]
//!     compare --table FILE..
//!
//! Each number decides its file; every second one is damaged. Of each: the answer, the count and every word of the table are the second
//! reader's, with tables that have room and with some that are a word too short. Of the Rust only binary.rs is there, which names the
//! streams; the second reader reads those, and its binds must be ours without the weak ones. `--inputs` shows the inputs of docs/DIFFERENCES.md
//! and docs/DECISIONS.md; `--speed` times the crate on one large stream; `--table` writes the slots and names of files (tools/opcodes/linked.py).

extern crate self as goblin;

#[allow(dead_code)]
mod binary;
mod files;
#[allow(dead_code)]
mod fixup;
#[allow(dead_code)]
mod mach;
mod opcodes;
#[allow(dead_code)]
mod others;
#[allow(dead_code)]
mod ptrauth;
mod random;
#[allow(dead_code)]
mod reader;
#[allow(dead_code)]
mod util;
use others::*;

use opcodes::{Bind, Stream};
use std::collections::BTreeMap;
use std::process::ExitCode;
use std::time::Instant;

// A slice is passed as its pointer and its length.
unsafe extern "C" {
    fn face_binds(file: *const u8, n: usize, binds: *mut u64, b: usize, out: *mut [u64; 1]) -> u64;
}

const OLD: u64 = 0xBBBB_BBBB_BBBB_BBBB;

type Built = (Result<u64, u64>, Vec<u64>);

fn ours(file: &[u8], words: usize) -> Built {
    let (mut b, mut out) = (vec![OLD; words], [0]);
    let k = unsafe { face_binds(file.as_ptr(), file.len(), b.as_mut_ptr(), b.len(), &mut out) };
    (if k == 0 { Ok(out[0]) } else { Err(k) }, b)
}

fn expected(found: &Result<Vec<Bind>, u64>, words: usize) -> Built {
    let mut table = vec![OLD; words];
    let binds = match found {
        Ok(binds) => binds,
        Err(k) => return (Err(*k), table),
    };
    if words < 4 * binds.len() {
        return (Err(6), table);
    }
    for (row, b) in table.chunks_mut(4).zip(binds) {
        row[..3].copy_from_slice(b);
        row[3] = 0;
    }
    (Ok(binds.len() as u64), table)
}

/// The streams that the Rust's `imports` names, read by the second reader over the Rust's segments.
fn rust(file: &[u8]) -> Option<Result<Vec<Bind>, u64>> {
    let b = binary::MachoBinary::parse(file).ok()?;
    let mut found = Vec::new();
    for s in b.imports().legacy {
        let segments: Vec<_> = s.image.segments.iter().map(|g| mach::Segment { segname: [0; 16], vmaddr: g.vmaddr, vmsize: g.vmsize, fileoff: g.fileoff, filesize: g.filesize }).collect();
        let stream = Stream { off: s.range.start as u64, size: (s.range.end - s.range.start) as u64, lazy: s.is_lazy };
        match opcodes::binds(file, &segments, stream) {
            Ok(binds) => found.extend(binds),
            Err(k) => return Some(Err(k)),
        }
    }
    Some(Ok(found))
}

/// Ours without the weak stream, of a file that is not refused.
fn without_weak(file: &[u8]) -> Vec<Bind> {
    let commands = reader::commands(file).ok().unwrap();
    let segments = reader::segments(file, &commands);
    let streams = opcodes::streams(file, &commands).ok().unwrap();
    streams.iter().enumerate().filter(|(i, _)| *i != 1).flat_map(|(_, s)| opcodes::binds(file, &segments, *s).ok().unwrap()).collect()
}

fn compare(count: u64, first: u64) -> ExitCode {
    let (mut agree, mut differ, mut same, mut other, mut total, mut twice) = (0u64, 0u64, 0u64, 0u64, 0u64, 0u64);
    let mut answers = BTreeMap::<u64, u64>::new();
    for i in first..first + count {
        let file = files::made(i);
        let found = opcodes::all(&file);
        let need = found.as_ref().map_or(8, |f| 4 * f.len());
        let words = match i % 5 {
            0 if need > 0 => need - 1,
            1 => need,
            _ => need + (i % 7) as usize,
        };
        let answer = ours(&file, words);
        *answers.entry(answer.0.err().unwrap_or(0)).or_default() += 1;
        if answer == expected(&found, words) {
            agree += 1;
        } else {
            differ += 1;
            if differ < 6 {
                println!("file {i}: {:?}, the second reader {:?}", answer.0, found.as_ref().map(|f| f.len()));
            }
        }
        let Ok(binds) = found else { continue };
        total += binds.len() as u64;
        let slots: std::collections::BTreeSet<u64> = binds.iter().map(|b| b[0]).collect();
        twice += (slots.len() < binds.len()) as u64;
        if rust(&file) == Some(Ok(without_weak(&file))) {
            same += 1;
        } else {
            other += 1;
            if other < 6 {
                println!("file {i}: the Rust names other streams");
            }
        }
    }
    println!("answers (0: built): {answers:?}; {total} binds; in {twice} files a slot is bound twice");
    println!("of files not refused by 15, 16, 19 or 20 the Rust names the same streams but the weak one in {same}, others in {other}");
    println!("{agree} agree, {differ} differ");
    if differ == 0 && other == 0 { ExitCode::SUCCESS } else { ExitCode::FAILURE }
}

/// The file of crates/opcodes/proofs/Cases.antt: a segment at 0x1000 with 24 bytes from 152 on, and three streams.
fn small(streams: [&[u8]; 3]) -> Vec<u8> {
    let mut v: Vec<u8> = [0xFEED_FACFu32, 0x0100_000C, 0, 2, 2, 120, 0, 0, 0x19, 72].iter().flat_map(|n| n.to_le_bytes()).collect();
    v.extend(b"__DATA\0\0\0\0\0\0\0\0\0\0");
    v.extend([0x1000u64, 0x1000, 152, 24].iter().flat_map(|n| n.to_le_bytes()));
    v.extend([3u32, 3, 0, 0, 0x8000_0022, 48, 0, 0].iter().flat_map(|n| n.to_le_bytes()));
    let mut at = 176;
    for s in streams {
        v.extend([at, s.len() as u32].iter().flat_map(|n| n.to_le_bytes()));
        at += s.len() as u32;
    }
    v.extend([0; 32]);
    v.extend(streams.concat());
    v
}

fn inputs() {
    let bind = [0x40, b'_', b'a', 0, 0x70, 0, 0x90];
    let with = |more: &[u8]| [&bind[..], more].concat();
    let cases: [(&str, Vec<u8>, Vec<u8>, Vec<u8>); 8] = [
        ("one bind, strong", bind.to_vec(), vec![], vec![]),
        ("the same, weak", vec![], bind.to_vec(), vec![]),
        ("DONE, then a bind, strong", with(&[0, 0x90]), vec![], vec![]),
        ("DONE, then a bind, lazy", vec![], vec![], with(&[0, 0x90])),
        ("type 2", with(&[0x52]), vec![], vec![]),
        ("threaded", with(&[0xD0, 1]), vec![], vec![]),
        ("a bind past filesize", with(&[0x80, 9, 0x90]), vec![], vec![]),
        ("2^64 - 8 binds, skipping 0", with(&[0xC0, 0xF8, 0xFF, 0xFF, 0xFF, 0xFF, 0xFF, 0xFF, 0xFF, 0xFF, 1, 0]), vec![], vec![]),
    ];
    for (what, strong, weak, lazy) in cases {
        let file = small([&strong, &weak, &lazy]);
        let (answer, b) = ours(&file, 12);
        let rows = b.chunks(4).take(answer.unwrap_or(0) as usize).map(|b| (b[0], b[1], b[2])).collect::<Vec<_>>();
        println!("{what}: {answer:?} {rows:x?}; the streams that the Rust names give {:x?}", rust(&file).unwrap());
    }
}

fn speed(binds: u64, rounds: u64) {
    let mut ops = Vec::new();
    for i in 0..binds {
        ops.extend([0x11, 0x40]);
        ops.extend(format!("_OBJC_CLASS_$_Name{}\0", i % 1000).bytes());
        ops.extend([0x51, 0x70]);
        ops.extend([8 * (i % 3) as u8, 0x90]);
    }
    let file = small([&ops, &[], &[]]);
    let mut table = vec![0u64; 4 * binds as usize];
    println!("{binds} binds, a file of {} bytes", file.len());
    for _ in 0..rounds {
        let (mut out, began) = ([0], Instant::now());
        let k = unsafe { face_binds(file.as_ptr(), file.len(), table.as_mut_ptr(), table.len(), &mut out) };
        let here = began.elapsed();
        let began = Instant::now();
        let n = opcodes::all(&file).ok().unwrap().len();
        let there = began.elapsed();
        assert_eq!((k, out[0]), (0, n as u64));
        println!("ours {:.2} ms, the second reader {:.2} ms", here.as_secs_f64() * 1e3, there.as_secs_f64() * 1e3);
    }
}

/// A line for each file with the answer, then one for each bind.
fn table(paths: &[String]) {
    for path in paths {
        let file = std::fs::read(path).unwrap();
        let (answer, b) = ours(&file, 4 * file.len());
        println!("{path} {answer:?}");
        for b in b.chunks(4).take(answer.unwrap_or(0) as usize) {
            println!("{:#x} {}", b[0], String::from_utf8_lossy(&file[b[1] as usize..(b[1] + b[2]) as usize]));
        }
    }
}

fn main() -> ExitCode {
    let args: Vec<String> = std::env::args().skip(1).collect();
    let number = |k: usize, other: u64| args.get(k).and_then(|s| s.parse().ok()).unwrap_or(other);
    match args.first().map(String::as_str) {
        Some("--speed") => speed(number(1, 200_000), number(2, 5)),
        Some("--inputs") => inputs(),
        Some("--table") => table(&args[1..]),
        _ => return compare(number(0, 1_000_000), number(1, 0)),
    }
    ExitCode::SUCCESS
}
