//! The time of `used_ranges` beside the listing's own, over the images of tools/speed/large: `speed LISTING RANGES [classes=N] [plain] [shuffled]
//! [legacy=P] [nonlazy=N] [runs=N] [out=DIR]`. LISTING and RANGES are libraries that speed.sh builds. Times are CPU time of this thread, the least of the runs. With `out` the tables are written
//! to DIR as a bundle, for `ranges.py --long`, and the ranges beside it.
#![allow(dead_code)]

#[path = "../speed/large/host/gen_.rs"]
mod gen_;

use gen_::{Shape, Tables, generate};

unsafe extern "C" {
    fn clock_gettime(clock: i32, at: *mut [i64; 2]) -> i32;
    fn dlopen(path: *const i8, flags: i32) -> *mut u8;
    fn dlsym(lib: *mut u8, name: *const i8) -> *mut u8;
}

/// A slice, as it is passed.
#[repr(C)]
#[derive(Clone, Copy)]
struct Part<T>(*const T, usize);

fn part<T>(x: &[T]) -> Part<T> {
    Part(x.as_ptr(), x.len())
}

type Lists = unsafe extern "C" fn(Part<u8>, Part<u64>, Part<u64>, Part<u8>, Part<u64>, Part<u64>, Part<u32>, *mut u64, usize, u64, *mut [u64; 16]) -> u64;
type Opens = unsafe extern "C" fn(
    Part<u8>, Part<u8>, Part<u8>, Part<u8>, Part<u64>, Part<u64>, Part<u8>, Part<u64>, Part<u64>, *mut u32, usize,
) -> u64;
type Ranges = unsafe extern "C" fn(
    Part<u8>, Part<u8>, Part<u8>, Part<u8>, Part<u64>, Part<u64>, Part<u8>, Part<u64>, Part<u64>, Part<u32>, u64, *mut u64, usize,
) -> u64;

fn symbol(path: &str, name: &str) -> *mut u8 {
    let c = |s: &str| std::ffi::CString::new(s).unwrap();
    unsafe {
        let lib = dlopen(c(path).as_ptr(), 2);
        assert!(!lib.is_null(), "no library {path}");
        dlsym(lib, c(name).as_ptr())
    }
}

fn now() -> f64 {
    let mut t = [0i64; 2];
    unsafe { clock_gettime(3, &mut t) };
    t[0] as f64 + t[1] as f64 * 1e-9
}

/// The tables as a bundle (document 01, "The program's listing"), of any length.
fn bundle(t: &Tables) -> Vec<u8> {
    let counts = [t.segments.len() as u64 / 5, t.rebases.len() as u64 / 2, t.binds.len() as u64 / 4, t.image.len() as u64, 0, 0, 0, 0, 0, 0, 0];
    let words = |w: &[u64]| w.iter().flat_map(|x| x.to_le_bytes()).collect::<Vec<u8>>();
    [words(&counts), t.info.clone(), words(&t.segments), words(&t.sections), words(&t.rebases), words(&t.binds), t.image.clone()].concat()
}

/// The windows of 2 MiB that the sweep over a file comes to: the first at byte 0, each other at the next used byte past the one before.
fn windows(size: u64, ranges: &[u64]) -> u64 {
    let (mut at, mut count) = (0, 0);
    while at < size {
        count += 1;
        let past = (at + (1 << 21)).min(size);
        at = ranges.chunks(3).find(|r| past < r[1] + r[2]).map_or(size, |r| r[1].max(past));
    }
    count
}

fn main() {
    let words: Vec<String> = std::env::args().skip(1).collect();
    let number = |key: &str, or: u64| words.iter().find_map(|w| w.strip_prefix(key)?.strip_prefix('=')).map_or(or, |v| v.parse().expect("a number"));
    let has = |key: &str| words.iter().any(|w| w == key);
    let shape = Shape {
        classes: number("classes", 1000) as usize,
        rebased: !has("plain"),
        legacy: number("legacy", 50),
        shuffled: has("shuffled"),
        nonlazy: number("nonlazy", 50).max(1) as usize,
    };
    let (list, open, used): (Lists, Opens, Ranges) = unsafe {
        (
            std::mem::transmute::<*mut u8, Lists>(symbol(&words[0], "face_list")),
            std::mem::transmute::<*mut u8, Opens>(symbol(&words[1], "face_open")),
            std::mem::transmute::<*mut u8, Ranges>(symbol(&words[1], "face_ranges")),
        )
    };
    let t: Tables = generate(shape);
    let none = part::<u8>(&[]);
    let mut index = vec![0u32; 8192 + t.rebases.len() / 2 + t.binds.len() / 4];
    let opened = unsafe {
        open(part(&t.image), none, none, none, part(&t.segments), part(&t.sections), part(&t.info), part(&t.rebases), part(&t.binds), index.as_mut_ptr(), index.len())
    };
    assert_eq!(opened, 0, "opening is refused");
    let mut ledger = vec![0u64; (t.sections[2] + t.sections[5]) as usize / 8];
    let mut out = vec![0u64; 3 * t.image.len() / 16];
    let (mut listing, mut ranging, mut count, mut sums) = (f64::MAX, f64::MAX, 0, [0u64; 16]);
    for _ in 0..number("runs", 3) {
        let from = now();
        let answer = unsafe {
            list(part(&t.image), part(&t.segments), part(&t.sections), part(&t.info), part(&t.rebases), part(&t.binds), part(&index), ledger.as_mut_ptr(), ledger.len(), u64::MAX, &mut sums)
        };
        listing = listing.min(now() - from);
        assert_eq!(answer, 0, "the listing is refused");
        let from = now();
        count = unsafe {
            used(part(&t.image), none, none, none, part(&t.segments), part(&t.sections), part(&t.info), part(&t.rebases), part(&t.binds), part(&index), 1, out.as_mut_ptr(), out.len())
        };
        ranging = ranging.min(now() - from);
        assert!(count < 1 << 32, "used_ranges is refused: {}", count.wrapping_add(1001));
    }
    let ranges = &out[..3 * count as usize];
    if let Some(folder) = words.iter().find_map(|w| w.strip_prefix("out=")) {
        let lines: String = ranges.chunks(3).map(|r| format!("{} {} {}\n", r[0], r[1], r[2])).collect();
        std::fs::write(format!("{folder}/bundle"), bundle(&t)).unwrap();
        std::fs::write(format!("{folder}/ranges"), format!("{count}\n{lines}")).unwrap();
    }
    let (bytes, windows) = (ranges.chunks(3).map(|r| r[2]).sum::<u64>(), windows(t.image.len() as u64, ranges));
    let passes = 2 * windows + 1;
    println!(
        "{} classes, {} rebases, image of {:.1} MB: listing {:.2} ms; {} ranges, {} of {} bytes; {} windows, {} passes; used_ranges {:.1} ms, {:.3} ms a pass: {:.1} listings, {:.2} a pass",
        shape.classes, t.rebases.len() / 2, t.image.len() as f64 * 1e-6, listing * 1e3, count, bytes, t.image.len(), windows, passes, ranging * 1e3,
        ranging * 1e3 / passes as f64, ranging / listing, ranging / listing / passes as f64
    );
}
