//! compare [COUNT [FIRST]]: starts marked by the crate `frames` and by brute force over pairs of a frame and a slide, as note 11 says it.
//!
//! First every choice of four ends from 0 to 9, with every list of up to four starts from 0 to 9, in every order; then COUNT cases (a number
//! decides its case) of ranges anywhere in 64 bits, with up to eight starts about their possible addresses. Compared are the number and every
//! word of the marks, which stay with a number. The last line is `K agree, D differ`; the status is 0 if all agree.
use std::collections::BTreeMap;

unsafe extern "C" {
    fn face_marks(ends: *const u64, starts: *const u64, count: u64, marks: *mut u64, room: u64) -> u64;
}

const UNWRITTEN: u64 = 99;

/// The unslid addresses of all pairs, in whole numbers, those below zero left out; none where a range's first end exceeds its second.
fn addresses(ends: &[u64; 4]) -> Option<Vec<i128>> {
    let [f0, f1, s0, s1] = ends.map(|e| e as i128);
    if f0 > f1 || s0 > s1 {
        return None;
    }
    Some((f0..=f1).flat_map(|frame| (s0..=s1).map(move |slide| frame - slide)).filter(|address| *address >= 0).collect())
}

fn holds(starts: &[u64], start: u64, address: i128) -> bool {
    start as i128 <= address && !starts.iter().any(|other| start < *other && *other as i128 <= address)
}

fn mark(addresses: &[i128], starts: &[u64], start: u64) -> u64 {
    let held = addresses.iter().filter(|address| holds(starts, start, **address)).count();
    if held == 0 {
        0
    } else if held < addresses.len() {
        1
    } else {
        2
    }
}

#[derive(Default)]
struct Tally {
    agree: u64,
    differ: u64,
    seen: BTreeMap<&'static str, u64>,
}

impl Tally {
    fn count(&mut self, what: &'static str, times: u64) {
        *self.seen.entry(what).or_default() += times;
    }

    fn case(&mut self, ends: &[u64; 4], possible: &Option<Vec<i128>>, starts: &[u64]) {
        let n = starts.len();
        let mut got = [UNWRITTEN; 10];
        let number = unsafe { face_marks(ends.as_ptr(), starts.as_ptr(), n as u64, got.as_mut_ptr(), n as u64) };
        let mut want = [UNWRITTEN; 10];
        if let Some(addresses) = possible {
            for (i, start) in starts.iter().enumerate() {
                want[i] = mark(addresses, starts, *start);
            }
        }
        let asked = if possible.is_none() { 23 } else { 0 };
        if number == asked && got == want {
            self.agree += 1;
        } else {
            self.differ += 1;
            if self.differ <= 10 {
                println!("ends {ends:x?} starts {starts:x?}: {number} {:?}, by pairs {asked} {:?}", &got[..n], &want[..n]);
            }
        }
        self.tell(ends, possible, starts, &want);
    }

    fn tell(&mut self, ends: &[u64; 4], possible: &Option<Vec<i128>>, starts: &[u64], marks: &[u64; 10]) {
        let Some(addresses) = possible else {
            return self.count("refused, 23", 1);
        };
        let (Some(low), Some(high)) = (addresses.iter().min(), addresses.iter().max()) else {
            return self.count("no pair left", 1);
        };
        let n = starts.len();
        for (what, k) in [("starts marked 0", 0), ("starts marked 1", 1), ("starts marked 2", 2)] {
            self.count(what, marks[..n].iter().filter(|m| **m == k).count() as u64);
        }
        let is = |t: bool| t as u64;
        self.count("some pairs below zero", is(ends[0] < ends[3]));
        self.count("a start at 0", is(starts.contains(&0)));
        self.count("a start at the lowest address", is(starts.iter().any(|s| *s as i128 == *low)));
        self.count("a start at the highest address", is(starts.iter().any(|s| *s as i128 == *high)));
        self.count("equal starts", is((1..n).any(|i| starts[..i].contains(&starts[i]))));
        self.count("no start at or before the lowest address", is(n > 0 && starts.iter().all(|s| *s as i128 > *low)));
        self.count("no start at or before any address", is(n > 0 && starts.iter().all(|s| *s as i128 > *high)));
    }
}

/// All lists of up to four starts below `limit`, in every order.
fn lists(limit: u64) -> Vec<Vec<u64>> {
    let mut all = vec![vec![]];
    let mut from = 0;
    for _ in 0..4 {
        let to = all.len();
        for i in from..to {
            for start in 0..limit {
                let mut longer: Vec<u64> = all[i].clone();
                longer.push(start);
                all.push(longer);
            }
        }
        from = to;
    }
    all
}

fn small(tally: &mut Tally, limit: u64) {
    let all = lists(limit);
    for number in 0..limit.pow(4) {
        let ends = [number / limit.pow(3), number / limit.pow(2) % limit, number / limit % limit, number % limit];
        let possible = addresses(&ends);
        // The number does not depend on the starts: short lists are enough.
        let some = if possible.is_none() { &all[..1 + limit as usize] } else { &all[..] };
        for starts in some {
            tally.case(&ends, &possible, starts);
        }
    }
}

/// splitmix64.
struct Random(u64);

impl Random {
    fn next(&mut self) -> u64 {
        self.0 = self.0.wrapping_add(0x9E37_79B9_7F4A_7C15);
        let mut z = self.0;
        z = (z ^ (z >> 30)).wrapping_mul(0xBF58_476D_1CE4_E5B9);
        z = (z ^ (z >> 27)).wrapping_mul(0x94D0_49BB_1331_11EB);
        z ^ (z >> 31)
    }

    /// Of any length in bits.
    fn any(&mut self) -> u64 {
        let bits = self.below(64);
        self.next() >> bits
    }

    fn below(&mut self, n: u64) -> u64 {
        self.next() % n
    }
}

/// A range of up to 13 numbers about `middle`, cut at the ends of 64 bits; one in 40 is out of order.
fn range(r: &mut Random, middle: u64) -> (u64, u64) {
    let first = middle.saturating_sub(r.below(7));
    let last = middle.saturating_add(r.below(7));
    if r.below(40) == 0 { (last, first) } else { (first, last) }
}

fn random(number: u64) -> ([u64; 4], Vec<u64>) {
    let mut r = Random(number);
    let slide = match r.below(4) {
        0 => r.below(16),
        1 => u64::MAX - r.below(16),
        _ => r.any(),
    };
    let frame = match r.below(4) {
        0 => slide.saturating_sub(r.below(14)),
        1 => u64::MAX - r.below(16),
        2 => slide.saturating_add(r.any()),
        _ => slide.saturating_add(r.below(30)),
    };
    let (f0, f1) = range(&mut r, frame);
    let (s0, s1) = range(&mut r, slide);
    let about = frame.saturating_sub(slide);
    let starts = (0..r.below(9))
        .map(|_| match r.below(8) {
            0 => 0,
            1 => f0.saturating_sub(s1),
            2 => f1.saturating_sub(s0),
            3 => r.next(),
            _ => about.saturating_sub(15).saturating_add(r.below(31)),
        })
        .collect();
    ([f0, f1, s0, s1], starts)
}

fn main() {
    let numbers: Vec<u64> = std::env::args().skip(1).map(|a| a.parse().expect("compare [COUNT [FIRST]]")).collect();
    let count = numbers.first().copied().unwrap_or(1_000_000);
    let first = numbers.get(1).copied().unwrap_or(0);
    let mut tally = Tally::default();
    small(&mut tally, 10);
    println!("{} cases of small ranges", tally.agree + tally.differ);
    for number in first..first + count {
        let (ends, starts) = random(number);
        tally.case(&ends, &addresses(&ends), &starts);
    }
    for (what, times) in &tally.seen {
        println!("{times:>12} {what}");
    }
    println!("{} agree, {} differ", tally.agree, tally.differ);
    std::process::exit((tally.differ > 0) as i32);
}
