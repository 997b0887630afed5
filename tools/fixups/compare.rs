//! Files with chained fixups through the crate `fixups`, through a second reader, and through the Rust's `chained_rebases` and `imports`, in one
//! process.
//!
//!     compare [COUNT [FIRST]]
//!     compare --departures
//!     compare --speed [FIXUPS [ROUNDS]]
//!
//! Each number decides its file; every second one is damaged. Of each: the answer, both counts and every word of both tables are the second
//! reader's, with tables that have room and with some that are a word too short. Of files that are not refused, the Rust's rebases and binds are
//! these too, or the file has one of the properties by which the Rust is known to depart (docs/DIFFERENCES.md); the rest are counted as
//! unexplained. `--departures` shows the departures on a file of 212 bytes and changes of it; `--speed` times both on one large file.

extern crate self as goblin;

#[allow(dead_code)]
mod binary;
#[allow(dead_code)]
mod fixup;
mod files;
#[allow(dead_code)]
mod mach;
#[allow(dead_code)]
mod others;
#[allow(dead_code)]
mod ptrauth;
mod reader;
#[allow(dead_code)]
mod util;
use others::*;

use reader::{BIND_WORDS, Found};
use std::collections::BTreeMap;
use std::process::ExitCode;
use std::time::Instant;

// A slice is passed as its pointer and its length.
unsafe extern "C" {
    fn face_build(file: *const u8, n: usize, rebases: *mut u64, a: usize, binds: *mut u64, b: usize, out: *mut [u64; 2]) -> u64;
}

const OLD: [u64; 2] = [0xAAAA_AAAA_AAAA_AAAA, 0xBBBB_BBBB_BBBB_BBBB];

type Built = (Result<[u64; 2], u64>, Vec<u64>, Vec<u64>);

fn ours(file: &[u8], rebases: usize, binds: usize) -> Built {
    let (mut r, mut b, mut out) = (vec![OLD[0]; rebases], vec![OLD[1]; binds], [0; 2]);
    let k = unsafe { face_build(file.as_ptr(), file.len(), r.as_mut_ptr(), r.len(), b.as_mut_ptr(), b.len(), &mut out) };
    (if k == 0 { Ok(out) } else { Err(k) }, r, b)
}

fn expected(found: &Result<Found, u64>, rebases: usize, binds: usize) -> Built {
    let (mut r, mut b) = (vec![OLD[0]; rebases], vec![OLD[1]; binds]);
    let f = match found {
        Ok(f) => f,
        Err(k) => return (Err(*k), r, b),
    };
    if rebases < 2 * f.rebases.len() {
        return (Err(5), r, b);
    }
    if binds < BIND_WORDS * f.binds.len() {
        return (Err(6), r, b);
    }
    for (row, x) in r.chunks_mut(2).zip(&f.rebases) {
        row.copy_from_slice(x);
    }
    for (row, x) in b.chunks_mut(BIND_WORDS).zip(&f.binds) {
        row.fill(0);
        row[..3].copy_from_slice(x);
    }
    (Ok([f.rebases.len() as u64, f.binds.len() as u64]), r, b)
}

/// A rebase's slot and its target with the top eight bits put on; a bind's slot and name, empty if it is not UTF-8.
type Records = (Vec<(u64, u64)>, Vec<(u64, String)>);

fn rust(file: &[u8]) -> Records {
    let Ok(b) = binary::MachoBinary::parse(file) else { return Records::default() };
    let rebases = b.chained_rebases().map(|r| (r.vm_address(), r.target_vmaddr().wrapping_add((r.high8().unwrap_or(0) as u64) << 56)));
    let binds = b.imports().map(|i| (i.address, i.name.to_string()));
    (rebases.collect(), binds.collect())
}

fn records(file: &[u8], f: &Found) -> (Records, bool) {
    let text = |b: &[u64; 3]| std::str::from_utf8(&file[b[1] as usize..(b[1] + b[2]) as usize]);
    let utf8 = f.binds.iter().all(|b| text(b).is_ok());
    let binds = f.binds.iter().map(|b| (b[0], text(b).unwrap_or("").to_string()));
    ((f.rebases.iter().map(|r| (r[0], r[1])).collect(), binds.collect()), utf8)
}

/// Why the Rust gives other records.
fn departs(file: &[u8], f: &Found) -> &'static str {
    let segments = reader::segments(file, &reader::commands(file).unwrap());
    let least = segments.iter().filter(|s| s.filesize > 0).map(|s| s.vmaddr).min().unwrap_or(0);
    if f.commands > 1 {
        "its last command counts"
    } else if f.range_cut {
        "a range past the file or an offset past the range: no fixups"
    } else if f.past_filesize {
        "it stops at filesize"
    } else if f.offset_format && least != f.base {
        "another image base"
    } else if f.wraps {
        "its sums saturate"
    } else {
        "unexplained"
    }
}

fn compare(count: u64, first: u64) -> ExitCode {
    let (mut agree, mut differ, mut same, mut top, mut broken) = (0u64, 0u64, 0u64, 0u64, 0u64);
    let mut answers = BTreeMap::<u64, u64>::new();
    let mut other = BTreeMap::<&str, u64>::new();
    for i in first..first + count {
        let file = files::made(i);
        let found = reader::fixups(&file);
        let (r, b) = found.as_ref().map_or((4, 8), |f| (2 * f.rebases.len(), BIND_WORDS * f.binds.len()));
        let room = match i % 7 {
            0 if r > 0 => (r - 1, b),
            1 if b > 0 => (r, b - 1),
            2 if r > 0 && b > 0 => (r - 1, b - 1),
            3 => (r, b),
            _ => (r + (i % 5) as usize, b + (i % 3) as usize),
        };
        let answer = ours(&file, room.0, room.1);
        *answers.entry(answer.0.err().unwrap_or(0)).or_default() += 1;
        if answer == expected(&found, room.0, room.1) {
            agree += 1;
        } else {
            differ += 1;
            if differ < 6 {
                println!("file {i}: {:?}, the second reader {:?}", answer.0, found.as_ref().map(|f| (f.rebases.len(), f.binds.len())));
            }
        }
        let Ok(f) = &found else { continue };
        top += f.top_bits as u64;
        let (records, utf8) = records(&file, f);
        broken += !utf8 as u64;
        if records == rust(&file) {
            same += 1;
        } else {
            let why = departs(&file, f);
            *other.entry(why).or_default() += 1;
            if why == "unexplained" && other[why] < 6 {
                println!("file {i}: the Rust gives other records");
            }
        }
    }
    println!("answers (0: built): {answers:?}");
    println!("of files not refused by 15, 16, 19 or 20 the Rust gives the same records in {same}; else: {other:#?}");
    println!("in {top} files a target has top bits, which the Rust hands out apart; in {broken} a name is not UTF-8, for which it has an empty one");
    println!("{agree} agree, {differ} differ");
    if differ == 0 && !other.contains_key("unexplained") { ExitCode::SUCCESS } else { ExitCode::FAILURE }
}

/// The inputs of docs/DIFFERENCES.md: the bytes that are changed, from an offset on.
fn departures() {
    let changes: [(&str, &[(usize, &[u8])]); 7] = [
        ("the file itself", &[]),
        ("its segment is called __TEXX", &[(45, b"X")]),
        ("filesize 8", &[(80, &[8])]),
        ("page_size 16", &[(184, &[16])]),
        ("vmaddr 0xFFFFFFFFFFFFFFF8", &[(56, &[0xF8, 0xFF, 0xFF, 0xFF, 0xFF, 0xFF, 0xFF, 0xFF])]),
        ("the name's second byte 0xC3", &[(210, &[0xC3])]),
        ("datasize 69", &[(116, &[69])]),
    ];
    for (what, bytes) in changes {
        let mut file = files::small();
        for (at, new) in bytes {
            file[*at..at + new.len()].copy_from_slice(new);
        }
        show(what, &file);
    }
    let mut file = files::small();
    // a second command, put between the first and the data, which moves by 16 bytes
    file.splice(120..120, [0x8000_0034u32, 16, 3, 5].map(u32::to_le_bytes).concat());
    for (at, n) in [(16, 3), (20, 104), (72, 136), (112, 160)] {
        file[at] = n;
    }
    show("a second command, with dataoff 3 and datasize 5", &file);
}

fn show(what: &str, file: &[u8]) {
    let (answer, r, b) = ours(file, 6, 8);
    let b = b.chunks(BIND_WORDS).map(|b| (b[0], b[1], b[2])).collect::<Vec<_>>();
    let (rust_rebases, rust_binds) = match binary::MachoBinary::parse(file) {
        Ok(m) => (m.chained_rebases().map(|r| (r.vm_address(), r.target_vmaddr())).collect(), m.imports().map(|i| (i.address, i.name)).collect()),
        Err(_) => (Vec::new(), Vec::new()),
    };
    match answer {
        Ok([n, m]) => println!("{what}\n  ours {:x?} {:x?}", r.chunks(2).take(n as usize).collect::<Vec<_>>(), &b[..m as usize]),
        Err(k) => println!("{what}\n  ours {k}"),
    }
    println!("  the Rust {rust_rebases:x?} {rust_binds:x?}");
}

fn speed(fixups: u64, rounds: u64) {
    let file = files::large(fixups);
    let n = reader::fixups(&file).ok().unwrap();
    let (mut r, mut b) = (vec![0u64; 2 * n.rebases.len()], vec![0u64; BIND_WORDS * n.binds.len()]);
    println!("{} rebases, {} binds, a file of {} bytes", n.rebases.len(), n.binds.len(), file.len());
    for _ in 0..rounds {
        let began = Instant::now();
        let mut out = [0; 2];
        let k = unsafe { face_build(file.as_ptr(), file.len(), r.as_mut_ptr(), r.len(), b.as_mut_ptr(), b.len(), &mut out) };
        let here = began.elapsed();
        assert_eq!(k, 0);
        let began = Instant::now();
        let bin = binary::MachoBinary::parse(&file).ok().unwrap();
        let (rs, bs) = (bin.chained_rebases().count(), bin.imports().count());
        let there = began.elapsed();
        assert_eq!(out, [rs as u64, bs as u64]);
        println!("ours {:.2} ms, the Rust {:.2} ms: {:.2}", here.as_secs_f64() * 1e3, there.as_secs_f64() * 1e3, here.as_secs_f64() / there.as_secs_f64());
    }
}

fn main() -> ExitCode {
    let args: Vec<String> = std::env::args().skip(1).collect();
    let number = |k: usize, other: u64| args.get(k).and_then(|s| s.parse().ok()).unwrap_or(other);
    if args.first().is_some_and(|a| a == "--speed") {
        speed(number(1, 1_000_000), number(2, 7));
        return ExitCode::SUCCESS;
    }
    if args.first().is_some_and(|a| a == "--departures") {
        departures();
        return ExitCode::SUCCESS;
    }
    compare(number(0, 1_000_000), number(1, 0))
}
