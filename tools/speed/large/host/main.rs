//! Opening and listing of large synthetic images: the proved library (libface.a) beside the Rust it ports, in one process. See README.md.
#![allow(dead_code, unused_imports)]

extern crate self as bitflags;
#[path = "bitflags.rs"]
mod macros;

mod binary;
mod gen_;
mod objc;
mod ptrauth;
mod replay;
mod trace;
mod traced;
mod util;

use binary::{Import, MachoBinary, Rebase, Section, Segment};
use gen_::{Shape, Tables, generate};
use objc::ObjcRuntime;
use std::hint::black_box;

unsafe extern "C" {
    fn clock_gettime(clock: i32, at: *mut [i64; 2]) -> i32;
    fn dlopen(path: *const i8, flags: i32) -> *mut u8;
    fn dlsym(lib: *mut u8, name: *const i8) -> *mut u8;
    fn dlerror() -> *const i8;
}

// A slice is passed as its pointer and its length.
type FaceOpen = unsafe extern "C" fn(
    *const u8, usize, *const u64, usize, *const u64, usize, *const u8, usize, *const u64, usize, *const u64, usize, *mut u32, usize,
) -> u64;
type FaceList = unsafe extern "C" fn(
    *const u8, usize, *const u64, usize, *const u64, usize, *const u8, usize, *const u64, usize, *const u64, usize, *const u32, usize,
    *mut u64, usize, u64, *mut [u64; 16], u64,
) -> u64;

/// The face of one build of the library (libface.so).
struct Face {
    name: String,
    open: FaceOpen,
    list: FaceList,
    walk: Option<FaceList>,
    /// Rebases are found by halves.
    halves: u64,
}

impl Face {
    fn load(path: &str) -> Face {
        unsafe {
            let c = std::ffi::CString::new(path).unwrap();
            let lib = dlopen(c.as_ptr(), 2);
            if lib.is_null() {
                panic!("{:?}", std::ffi::CStr::from_ptr(dlerror()));
            }
            let get = |name: &std::ffi::CStr| dlsym(lib, name.as_ptr());
            let name = std::path::Path::new(path).parent().unwrap().file_name().unwrap().to_string_lossy().into_owned();
            let walk = get(c"face_walk");
            Face {
                name,
                open: std::mem::transmute::<*mut u8, FaceOpen>(get(c"face_open")),
                list: std::mem::transmute::<*mut u8, FaceList>(get(c"face_list")),
                walk: (!walk.is_null()).then(|| std::mem::transmute::<*mut u8, FaceList>(walk)),
                halves: std::env::args().any(|w| w == "halves") as u64,
            }
        }
    }
}

/// CPU seconds of this thread: another job on the machine does not count.
fn now() -> f64 {
    let mut t = [0i64; 2];
    unsafe { clock_gettime(3, &mut t) };
    t[0] as f64 + t[1] as f64 * 1e-9
}

fn ours_open(f: &Face, t: &Tables, index: &mut [u32]) -> u64 {
    unsafe {
        (f.open)(
            t.image.as_ptr(), t.image.len(), t.segments.as_ptr(), t.segments.len(), t.sections.as_ptr(), t.sections.len(),
            t.info.as_ptr(), t.info.len(), t.rebases.as_ptr(), t.rebases.len(), t.binds.as_ptr(), t.binds.len(),
            index.as_mut_ptr(), index.len(),
        )
    }
}

/// The whole listing, or only the class walk and the list walks, without the state of the listing.
fn ours_list(f: &Face, t: &Tables, index: &[u32], ledger: &mut [u64], walks: bool, out: &mut [u64; 16]) -> u64 {
    unsafe {
        (if walks { f.walk.unwrap() } else { f.list })(
            t.image.as_ptr(), t.image.len(), t.segments.as_ptr(), t.segments.len(), t.sections.as_ptr(), t.sections.len(),
            t.info.as_ptr(), t.info.len(), t.rebases.as_ptr(), t.rebases.len(), t.binds.as_ptr(), t.binds.len(),
            index.as_ptr(), index.len(), ledger.as_mut_ptr(), ledger.len(), u64::MAX, out, f.halves,
        )
    }
}

/// The tables as the Rust's parser hands them out; bind names are tested for UTF-8 here, as question 7 asks.
fn binary(t: &Tables) -> MachoBinary<'_> {
    let lists = ["__objc_classlist", "__objc_nlclslist", "__objc_catlist", "__objc_nlcatlist", "__objc_protolist"];
    let mut sections = vec![Section { name: "__objc_imageinfo", body: &t.info, addr: 0 }];
    for (name, c) in lists.into_iter().zip(t.sections.chunks(3)) {
        if c[0] == 1 {
            sections.push(Section { name, body: &t.image[..c[2] as usize], addr: c[1] });
        }
    }
    MachoBinary {
        image: &t.image,
        segments: t.segments.chunks(5).map(|c| Segment(c[..4].try_into().unwrap())).collect(),
        sections,
        rebases: t.rebases.chunks(2).map(|c| Rebase(c.try_into().unwrap())).collect(),
        imports: t.binds.chunks(4).map(|c| Import { address: c[0], name: bind_name(t, c), dylib: "" }).collect(),
    }
}

fn bind_name<'a>(t: &'a Tables, c: &[u64]) -> &'a str {
    core::str::from_utf8(&t.image[c[1] as usize..(c[1] + c[2]) as usize]).unwrap()
}

/// The sums that face_list leaves in `out`, from the Rust's iterators.
#[unsafe(no_mangle)]
#[inline(never)]
fn rust_list(rt: &ObjcRuntime<'_>) -> [u64; 10] {
    let mut o = [0u64; 10];
    fn add(o: &mut [u64; 10], a: usize, b: usize, mix: u64) {
        o[6] += (a + b) as u64;
        o[7] = o[7].wrapping_add(mix);
    }
    o[5] = 1;
    for c in rt.classes() {
        o[0] += 1;
        add(&mut o, c.superclass_name().map_or(0, str::len), 0, c.address().wrapping_add(c.isa()).wrapping_add(c.bits()));
        let Some(ro) = c.ro() else { continue };
        o[1] += 1;
        add(&mut o, ro.name().len(), 0, ro.address());
        for m in ro.methods() {
            o[2] += 1;
            add(&mut o, m.selector().len(), m.types().len(), m.implementation().unwrap_or(0));
        }
        for v in ro.ivars() {
            o[3] += 1;
            add(&mut o, v.name().len(), v.type_encoding().len(), u64::from(v.offset().unwrap_or(0)) + u64::from(v.size()));
        }
        for p in ro.properties() {
            o[4] += 1;
            add(&mut o, p.name().len(), p.attributes().len(), 0);
        }
        o[5] += ro.protocols().count() as u64;
    }
    o[5] += rt.protocols().count() as u64;
    o[5] += rt.categories().count() as u64;
    o[8] = o[0];
    o[9] = o[2] + o[3] + o[4];
    o
}

/// The slots that the Rust looks up among the rebases while it lists, in order.
fn looked_up(t: &Tables) -> Vec<u64> {
    let bin = binary(t);
    let rt = traced::ObjcRuntime::build(&bin).expect("build");
    for c in rt.classes() {
        black_box(c.superclass_name());
        let Some(ro) = c.ro() else { continue };
        black_box(ro.methods().count() + ro.ivars().count() + ro.properties().count() + ro.protocols().count());
    }
    trace::SLOTS.with_borrow_mut(|s| std::mem::take(&mut s[0]))
}

/// Walks all that the listing walks, over a map that notes its lookups; then the lookups and the ledger alone.
fn replay_forms(t: &Tables, shape: Shape) {
    let bin = binary(t);
    let rt = traced::ObjcRuntime::build(&bin).expect("build");
    let mut addresses = Vec::new();
    for c in rt.classes() {
        if !c.is_meta() {
            addresses.push(c.address());
        }
        black_box(c.superclass_name());
        let Some(ro) = c.ro() else { continue };
        black_box(ro.methods().count() + ro.ivars().count() + ro.properties().count() + ro.protocols().count());
    }
    let trace = trace::SLOTS.with_borrow_mut(|s| std::mem::take(&mut s[0]));
    println!("{} classes, {}% legacy", shape.classes, shape.legacy);
    if shape.rebased {
        replay::lookups(t, &trace);
    }
    let listed: Vec<u64> = (0..shape.classes).filter(|i| i % 50 == 7).map(|i| 0x1_4000_0028 + 80 * i as u64).collect();
    addresses.extend(listed);
    replay::ledgers(&addresses);
}

/// Damaged tables of small images: every library must leave the same sums, answer and ledger as the first. `fuzz=N` rounds from `seed=S`.
fn fuzz(libs: &[Face], rounds: u64, seed: u64) {
    let mut x = seed | 1;
    let mut next = move || {
        x ^= x << 13;
        x ^= x >> 7;
        x ^= x << 17;
        x >> 3
    };
    let (mut steps, mut answers, mut refused) = (0u64, std::collections::BTreeMap::new(), 0u64);
    for round in 0..rounds {
        let shape = Shape { classes: 1 + (next() % 12) as usize, rebased: next() % 2 == 0, legacy: [0, 50, 100][(next() % 3) as usize], shuffled: next() % 4 == 0, nonlazy: 50 };
        let mut t = generate(shape);
        let some = |next: &mut dyn FnMut() -> u64, t: &Tables| {
            let s = &t.segments;
            let base = match next() % 8 {
                0 => 0,
                1 => u64::MAX,
                2 => next() << 20,
                3 => t.image.len() as u64,
                4 => s[(next() % s.len() as u64) as usize],
                5 => s[(next() % s.len() as u64) as usize / 5 * 5].wrapping_add(s[(next() % s.len() as u64) as usize / 5 * 5 + 1]),
                6 if !t.rebases.is_empty() => t.rebases[(next() % t.rebases.len() as u64) as usize],
                _ => s[(next() % s.len() as u64) as usize / 5 * 5].wrapping_add(next() % 4096),
            };
            match next() % 4 {
                0 => base,
                1 => base.wrapping_add(next() % 64),
                2 => base.wrapping_sub(next() % 64),
                _ => base.wrapping_add(next() % 0x2000),
            }
        };
        // more segments, in any order, that overlap the others
        for _ in 0..next() % 4 {
            let at = (next() % (t.segments.len() as u64 / 5 + 1)) as usize * 5;
            let mut row: Vec<u64> = (0..4).map(|_| some(&mut next, &t)).collect();
            row.push(0);
            let row = if next() % 2 == 0 {
                // a part of a segment, elsewhere in the file
                let k = (next() % (t.segments.len() as u64 / 5)) as usize * 5;
                vec![t.segments[k].wrapping_add(next() % (t.segments[k + 1] % 0x10000 + 1)), next() % 0x3000, next() % (t.image.len() as u64 + 1), next() % 0x3000, 0]
            } else { row };
            t.segments.splice(at..at, row);
        }
        for _ in 0..next() % 4 {
            let k = (next() % t.segments.len() as u64) as usize;
            t.segments[k] = if k % 5 == 4 { next() % 2 } else { some(&mut next, &t) };
        }
        for _ in 0..[0, 0, 3, 40, 400][(next() % 5) as usize] {
            let k = (next() % t.image.len() as u64) as usize;
            t.image[k] = [0, 1, 0x7F, 0x80, 0xC3, 0xFF, next() as u8][(next() % 7) as usize];
        }
        for _ in 0..next() % 6 {
            let k = (next() % (t.image.len() as u64 / 8)) as usize * 8;
            let w = some(&mut next, &t);
            t.image[k..k + 8].copy_from_slice(&w.to_le_bytes());
        }
        if next() % 3 == 0 {
            let n = (next() % t.image.len() as u64) as usize;
            t.image.truncate(n.max(8));
            for b in t.binds.chunks_mut(4) {
                b[1] = b[1].min(t.image.len() as u64 - 1);
                b[2] = b[2].min(t.image.len() as u64 - b[1]);
            }
        }
        if next() % 4 == 0 {
            for _ in 0..3 {
                let k = (next() % 5) as usize * 3;
                t.sections[k] = 1;
                t.sections[k + 1] = some(&mut next, &t);
                t.sections[k + 2] = next() % (t.image.len() as u64 + 1) % 0x400;
            }
        }
        for _ in 0..next() % 6 {
            if !t.rebases.is_empty() {
                let k = (next() % t.rebases.len() as u64) as usize;
                t.rebases[k] = some(&mut next, &t);
            }
        }
        let mut index = vec![0u32; 8192 + t.rebases.len() / 2 + t.binds.len() / 4];
        let opened = ours_open(&libs[0], &t, &mut index);
        if next() % 4 == 0 {
            for _ in 0..1 + next() % 60 {
                let k = (next() % index.len() as u64) as usize;
                index[k] = (next() % (index.len() as u64 - 8192 + 3)) as u32;
            }
        }
        if next() % 40 == 0 {
            index.truncate((next() % index.len() as u64) as usize);
        }
        let slots = t.sections.chunks(3).map(|c| if c[0] == 1 { c[2] / 8 } else { 0 }).sum::<u64>();
        let words = if next() % 50 == 0 { slots / 2 } else { slots };
        let run = |f: &Face| {
            let mut again = vec![0u32; index.len()];
            let o = if again.len() >= 8192 { ours_open(f, &t, &mut again) } else { 0 };
            let mut ledger = vec![0u64; words as usize];
            let mut out = [0u64; 16];
            let a = unsafe {
                (f.list)(
                    t.image.as_ptr(), t.image.len(), t.segments.as_ptr(), t.segments.len(), t.sections.as_ptr(), t.sections.len(),
                    t.info.as_ptr(), t.info.len(), t.rebases.as_ptr(), t.rebases.len(), t.binds.as_ptr(), t.binds.len(),
                    index.as_ptr(), index.len(), ledger.as_mut_ptr(), ledger.len(), 20_000, &mut out, f.halves,
                )
            };
            (o, again, a, out, ledger)
        };
        let first = run(&libs[0]);
        for f in &libs[1..] {
            let other = run(f);
            assert!(first == other, "round {round} of seed {seed}: {} differs: {:?} {:?} and {:?} {:?}", f.name, first.2, first.3, other.2, other.3);
        }
        refused += (opened != 0) as u64;
        steps += first.3[..6].iter().sum::<u64>() + first.3[10];
        *answers.entry(first.2).or_insert(0u64) += 1;
    }
    println!("{rounds} rounds of seed {seed}: all agree; {steps} steps; opening refused {refused}; answers of listings {answers:?}");
}

fn main() {
    let words: Vec<String> = std::env::args().skip(1).collect();
    let number = |key: &str, or: u64| {
        words.iter().find_map(|w| w.strip_prefix(key)?.strip_prefix('=')).map_or(or, |v| v.parse().expect("a number"))
    };
    let has = |key: &str| words.iter().any(|w| w == key);
    let shape = Shape {
        classes: number("classes", 1000) as usize,
        rebased: !has("plain"),
        legacy: number("legacy", 50),
        shuffled: has("shuffled"),
        nonlazy: number("nonlazy", 50).max(1) as usize,
    };
    let (runs, only) = (number("runs", 5), number("only", 0));
    if number("fuzz", 0) > 0 {
        let libs: Vec<Face> = words.iter().filter_map(|w| w.strip_prefix("lib=")).map(Face::load).collect();
        fuzz(&libs, number("fuzz", 0), number("seed", 1));
        return;
    }
    let t = generate(shape);
    if has("replay") {
        replay_forms(&t, shape);
        return;
    }
    let slots = (t.sections[2] + t.sections[5]) / 8;
    let libs: Vec<Face> = words.iter().filter_map(|w| w.strip_prefix("lib=")).map(Face::load).collect();
    // Least times: of each library opening, listing, walks; then the Rust's opening, listing, names of binds.
    let mut best = vec![[f64::MAX; 3]; libs.len()];
    let mut rust = [f64::MAX; 3];
    // All times of listing, for the medians.
    let mut all: Vec<Vec<f64>> = vec![Vec::new(); libs.len() + 1];
    let keep = |b: &mut f64, from: f64| *b = b.min(now() - from);
    let mut steps = 0;
    // `chains`: the chain walks of the listing alone (the slots that the Rust looks up), by the index of document 01.
    let trace = if has("chains") && shape.rebased { looked_up(&t) } else { Vec::new() };
    let paper = replay::Index::new(&t.rebases, 2, 4096);
    let mut bare = f64::MAX;
    let followed: u64 = trace.iter().map(|&s| paper.followed(&t.rebases, s)).sum();
    for _ in 0..runs {
        if !trace.is_empty() {
            let at = now();
            black_box(trace.iter().fold(0u64, |a, &s| a.wrapping_add(paper.find(&t.rebases, s))));
            keep(&mut bare, at);
        }
        let mut sums: Vec<[u64; 16]> = Vec::new();
        if only != 2 {
            for (k, (f, b)) in libs.iter().zip(&mut best).enumerate() {
                let mut ours = [0u64; 16];
                let at = now();
                let mut index = vec![0u32; 8192 + t.rebases.len() / 2 + t.binds.len() / 4];
                assert_eq!(ours_open(f, black_box(&t), &mut index), 0, "open refused");
                keep(&mut b[0], at);
                let at = now();
                let mut ledger = vec![0u64; slots as usize];
                assert_eq!(ours_list(f, black_box(&t), &index, &mut ledger, false, &mut ours), 0, "listing refused");
                keep(&mut b[1], at);
                all[k].push(now() - at);
                if has("walks") && f.walk.is_some() {
                    let mut walked = [0u64; 16];
                    let at = now();
                    assert_eq!(ours_list(f, black_box(&t), &index, &mut ledger, true, &mut walked), 0, "walk refused");
                    keep(&mut b[2], at);
                    assert_eq!((&walked[..5], &walked[6..8]), (&ours[..5], &ours[6..8]), "the walks differ");
                }
                steps = ours[..6].iter().sum::<u64>() + ours[10] + 2;
                sums.push(ours);
            }
        }
        if only != 1 {
            let at = now();
            for c in t.binds.chunks(4) {
                black_box(bind_name(&t, c));
            }
            keep(&mut rust[2], at);
            let bin = binary(&t);
            let at = now();
            let rt = ObjcRuntime::build(black_box(&bin)).expect("ObjcRuntime::build");
            keep(&mut rust[0], at);
            let at = now();
            let theirs = rust_list(black_box(&rt));
            keep(&mut rust[1], at);
            all[libs.len()].push(now() - at);
            for ours in &sums {
                assert_eq!(theirs, ours[..10], "the listings differ");
            }
        }
        for ours in &sums {
            assert_eq!(ours, &sums[0], "two builds differ");
        }
        black_box(&sums);
    }
    let ms = |b: f64| b * 1e3;
    let median = |v: &Vec<f64>| {
        let mut v = v.clone();
        v.sort_by(f64::total_cmp);
        v.get(v.len() / 2).copied().unwrap_or(f64::NAN)
    };
    println!(
        "{} {}% legacy{} classes {} image {:.1} MB rebases {} binds {} steps {} runs {}",
        if shape.rebased { "rebased" } else { "plain" }, shape.legacy, if shape.shuffled { " shuffled" } else { "" }, shape.classes,
        t.image.len() as f64 / 1e6, t.rebases.len() / 2, t.binds.len() / 4, steps, runs,
    );
    if only != 1 {
        println!("  {:<24} open {:>9.3} (+names {:.3})      list {:>10.3} ms              median {:>10.3}", "rust", ms(rust[0]), ms(rust[2]), ms(rust[1]), ms(median(&all[libs.len()])));
    }
    if !trace.is_empty() {
        println!("  {:<24} {} lookups follow {} records: {:.3} ms, {:.2} ns a record", "bare chain walks", trace.len(), followed, ms(bare), bare * 1e9 / followed as f64);
    }
    if only != 2 {
        for (k, (f, b)) in libs.iter().zip(&best).enumerate() {
            let open = b[0] / (rust[0] + rust[2]);
            print!("  {:<24} open {:>9.3} ratio {:<8.2}       list {:>10.3} ms ratio {:.3}  median {:>10.3} ratio {:.3}", f.name, ms(b[0]), open, ms(b[1]), b[1] / rust[1], ms(median(&all[k])), median(&all[k]) / median(&all[libs.len()]));
            if has("walks") && f.walk.is_some() {
                print!("   walks {:.3} ms ratio {:.3}", ms(b[2]), b[2] / rust[1]);
            }
            if !trace.is_empty() {
                print!("   less the bare walks {:.3} ms ratio {:.3}", ms(b[1] - bare), (b[1] - bare) / rust[1]);
            }
            println!();
        }
    }
}
