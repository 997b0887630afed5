//! The rebase lookups of a listing alone, and the ledger alone, by several forms: what each form costs without the rest.
use crate::gen_::Tables;
use crate::now;
use std::hint::black_box;

/// The index of document 01 over a table of `width` words, with `chains` chains (4,096 there).
pub struct Index {
    heads: Vec<u32>,
    next: Vec<u32>,
    mask: usize,
}

impl Index {
    pub fn new(table: &[u64], width: usize, chains: usize) -> Index {
        let mut x = Index { heads: vec![0; chains], next: vec![0; table.len() / width], mask: chains - 1 };
        for i in 0..x.next.len() {
            let h = &mut x.heads[table[i * width] as usize / 8 & x.mask];
            x.next[i] = *h;
            *h = i as u32 + 1;
        }
        x
    }

    /// pointers/src/index.rt, find.
    #[inline(always)]
    pub fn find(&self, table: &[u64], slot: u64) -> u64 {
        let mut limit = self.next.len();
        let mut number = self.heads[slot as usize / 8 & self.mask] as usize;
        while number != 0 {
            if limit < number {
                return u64::MAX;
            }
            limit = number - 1;
            if table[limit * 2] == slot {
                return table[limit * 2 + 1];
            }
            number = self.next[limit] as usize;
        }
        0
    }

    /// How many records `find` looks at.
    pub fn followed(&self, table: &[u64], slot: u64) -> u64 {
        let mut n = 0;
        let mut number = self.heads[slot as usize / 8 & self.mask] as usize;
        while number != 0 {
            n += 1;
            if table[(number - 1) * 2] == slot {
                break;
            }
            number = self.next[number - 1] as usize;
        }
        n
    }

    /// The same for a table known to rise: a smaller slot ends the search.
    #[inline(always)]
    fn find_rising(&self, table: &[u64], slot: u64) -> u64 {
        let mut limit = self.next.len();
        let mut number = self.heads[slot as usize / 8 & self.mask] as usize;
        while number != 0 {
            if limit < number {
                return u64::MAX;
            }
            limit = number - 1;
            if table[limit * 2] <= slot {
                return if table[limit * 2] == slot { table[limit * 2 + 1] } else { 0 };
            }
            number = self.next[limit] as usize;
        }
        0
    }

    /// Up to four slots side by side, so that their loads overlap.
    #[inline(always)]
    fn find_together<const N: usize>(&self, table: &[u64], slots: [u64; N]) -> u64 {
        let mut limit = [self.next.len(); N];
        let mut number = [0usize; N];
        let mut found = [0u64; N];
        for k in 0..N {
            number[k] = self.heads[slots[k] as usize / 8 & self.mask] as usize;
        }
        loop {
            let mut live = 0;
            for k in 0..N {
                if number[k] != 0 {
                    if limit[k] < number[k] {
                        return u64::MAX;
                    }
                    limit[k] = number[k] - 1;
                    if table[limit[k] * 2] == slots[k] {
                        found[k] = table[limit[k] * 2 + 1];
                        number[k] = 0;
                    } else {
                        number[k] = self.next[limit[k]] as usize;
                    }
                    live |= number[k];
                }
            }
            if live == 0 {
                return found.iter().fold(0, |a, &b| a.wrapping_add(b));
            }
        }
    }
}

fn timed(what: &str, n: usize, run: impl Fn() -> u64) -> u64 {
    let mut best = f64::MAX;
    let mut sum = 0;
    let rounds = if n > 3_000_000 { 1 } else { 3 };
    for _ in 0..rounds {
        let at = now();
        sum = black_box(run());
        best = best.min(now() - at);
    }
    println!("  {what:<44} {:>11.3} ms {:>9.1} ns each", best * 1e3, best * 1e9 / n as f64);
    sum
}

pub fn lookups(t: &Tables, trace: &[u64]) {
    let n = trace.len();
    let r = t.rebases.len() / 2;
    let table = &t.rebases[..];
    let found = trace.iter().filter(|s| table.chunks(2).next().is_some() && bsearch(table, **s) != 0).count();
    println!("rebase lookups {n}, of them found {found}; rebases {r}, {} a chain", r / 4096);
    let sum = |find: &dyn Fn(u64) -> u64| trace.iter().fold(0u64, |a, &s| a.wrapping_add(find(s)));
    let paper = Index::new(table, 2, 4096);
    let want = timed("4,096 chains (document 01)", n, || trace.iter().fold(0u64, |a, &s| a.wrapping_add(paper.find(table, s))));
    let got = timed("the same, ends at a smaller slot", n, || trace.iter().fold(0u64, |a, &s| a.wrapping_add(paper.find_rising(table, s))));
    assert_eq!(want, got);
    if n < 2_000_000 {
        let got = timed("the same, neighbours side by side (2 to 4)", n, || together(&paper, table, trace));
        assert_eq!(want, got);
    }
    for bits in [14, 16, 18, 20, 22] {
        let x = Index::new(table, 2, 1 << bits);
        assert_eq!(want, timed(&format!("2^{bits} chains"), n, || trace.iter().fold(0u64, |a, &s| a.wrapping_add(x.find(table, s)))));
    }
    assert_eq!(want, timed("binary search in the table (rising)", n, || sum(&|s| bsearch(table, s))));
    let map: std::collections::HashMap<u64, u64> = table.chunks(2).map(|c| (c[0], c[1])).collect();
    assert_eq!(want, timed("HashMap (the Rust)", n, || trace.iter().fold(0u64, |a, s| a.wrapping_add(map.get(s).copied().unwrap_or(0)))));
}

/// Runs of neighbouring slots (within 64 bytes) in the trace are looked up side by side.
fn together(x: &Index, table: &[u64], trace: &[u64]) -> u64 {
    let (mut i, mut sum) = (0, 0u64);
    while i < trace.len() {
        let mut k = 1;
        while k < 4 && i + k < trace.len() && trace[i + k].wrapping_sub(trace[i]) <= 64 {
            k += 1;
        }
        sum = sum.wrapping_add(match k {
            4 => x.find_together(table, [trace[i], trace[i + 1], trace[i + 2], trace[i + 3]]),
            3 => x.find_together(table, [trace[i], trace[i + 1], trace[i + 2]]),
            2 => x.find_together(table, [trace[i], trace[i + 1]]),
            _ => x.find(table, trace[i]),
        });
        i += k;
    }
    sum
}

fn bsearch(table: &[u64], slot: u64) -> u64 {
    let (mut lo, mut hi) = (0, table.len() / 2);
    while lo < hi {
        let mid = (lo + hi) / 2;
        if table[2 * mid] <= slot { lo = mid + 1 } else { hi = mid }
    }
    if lo > 0 && table[2 * (lo - 1)] == slot { table[2 * lo - 1] } else { 0 }
}

fn met(ledger: &[u64], used: usize, va: u64) -> bool {
    let mut i = 0;
    while i < used {
        if ledger[i] == va {
            return true;
        }
        i += 1;
    }
    false
}

/// Eight words a round, with one test: LLVM makes SSE2 of it.
fn met_by_eight(ledger: &[u64], used: usize, va: u64) -> bool {
    let mut i = 0;
    while used - i >= 8 {
        let mut hit = false;
        for k in 0..8 {
            hit |= ledger[i + k] == va;
        }
        if hit {
            return true;
        }
        i += 8;
    }
    met(&ledger[i..], used - i, va)
}

/// One word an address, at the first free word from its hash on; 0 is free. Cleared before the first address.
fn met_hashed(ledger: &mut [u64], used: usize, va: u64) -> bool {
    let n = ledger.len() as u64;
    if used == 0 {
        ledger.fill(0);
    }
    let mut at = ((va.wrapping_mul(0x9E37_79B9_7F4A_7C15) >> 32) * n >> 32) as usize;
    for _ in 0..n {
        if ledger[at] == va {
            return true;
        }
        if ledger[at] == 0 {
            ledger[at] = va;
            return false;
        }
        at = if at + 1 == n as usize { 0 } else { at + 1 };
    }
    false
}

pub fn ledgers(addresses: &[u64]) {
    let n = addresses.len();
    println!("ledger: {n} slots");
    let walk = |met: fn(&[u64], usize, u64) -> bool, highest: bool| {
        let mut ledger = vec![0u64; n];
        let (mut used, mut top) = (0, 0);
        for &va in addresses {
            if highest && va > top || !met(&ledger, used, va) {
                ledger[used] = va;
                used += 1;
            }
            top = top.max(va);
        }
        used as u64
    };
    let want = timed("a list, scanned (sections.rt, met)", n, || walk(met, false));
    assert_eq!(want, timed("a list, scanned eight words a round", n, || walk(met_by_eight, false)));
    assert_eq!(want, timed("a list, with the highest address met", n, || walk(met, true)));
    for (what, words) in [("hashed, as many words as slots", n), ("hashed, twice as many words", 2 * n)] {
        let got = timed(what, n, || {
            let mut ledger = vec![1u64; words];
            let mut used = 0;
            for &va in addresses {
                if !met_hashed(&mut ledger, used, va) {
                    used += 1;
                }
            }
            used as u64
        });
        assert_eq!(want, got);
    }
    let got = timed("HashSet (the Rust)", n, || {
        let mut seen = std::collections::HashSet::new();
        addresses.iter().filter(|a| seen.insert(**a)).count() as u64
    });
    assert_eq!(want, got);
}
