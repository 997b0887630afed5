//! Times `ancestries` on generated images: classes of ordinary depth, one chain, one loop, classes that lead into one loop, lists that do not
//! rise, chains through classes that are not listed. Results are compared with a plain computation first.
use std::ptr::null;

#[repr(C)]
struct Timespec {
    s: i64,
    ns: i64,
}

unsafe extern "C" {
    fn clock_gettime(clock: i32, out: *mut Timespec) -> i32;
    fn face_open(f: *const u8, fl: usize, g: *const u8, gl: usize, segments: *const u64, sl: usize, sections: *const u64, tl: usize, info: *const u8,
        il: usize, rebases: *const u64, rl: usize, binds: *const u64, bl: usize, index: *mut u32, xl: usize) -> u64;
    fn face_walk(f: *const u8, fl: usize, g: *const u8, gl: usize, segments: *const u64, sl: usize, sections: *const u64, tl: usize, info: *const u8,
        il: usize, rebases: *const u64, rl: usize, binds: *const u64, bl: usize, index: *const u32, xl: usize, ledger: *mut u64, ll: usize, budget: u64) -> u64;
    fn face_ancestries(f: *const u8, fl: usize, g: *const u8, gl: usize, segments: *const u64, sl: usize, sections: *const u64, tl: usize, info: *const u8,
        il: usize, rebases: *const u64, rl: usize, binds: *const u64, bl: usize, index: *const u32, xl: usize, classes: *const u64, cl: usize, used: u64,
        result: *mut u64, ul: usize) -> u64;
}

/// CPU time of the thread, in ms.
fn now() -> f64 {
    let mut t = Timespec { s: 0, ns: 0 };
    unsafe { clock_gettime(3, &mut t) };
    t.s as f64 * 1e3 + t.ns as f64 / 1e6
}

struct Rng(u64);

impl Rng {
    fn below(&mut self, n: usize) -> usize {
        self.0 = self.0.wrapping_mul(6364136223846793005).wrapping_add(1442695040888963407);
        ((self.0 >> 33) as usize) % n.max(1)
    }
}

const BASE: u64 = 0x1000;

fn address(k: usize) -> u64 {
    BASE + 40 * k as u64
}

struct Image {
    bytes: Vec<u8>,
    segments: [u64; 5],
    sections: [u64; 15],
    rebases: Vec<u64>,
    index: Vec<u32>,
    list: Vec<u64>,
}

/// Class k is at BASE + 40k, with the superclass up[k]; `list` are the numbers of those listed.
fn image(up: &[Option<usize>], list: &[usize], rebased: bool) -> Image {
    let n = up.len();
    let mut bytes = vec![0u8; 40 * n];
    let mut rebases = vec![];
    for (k, above) in up.iter().enumerate() {
        if let Some(b) = above {
            if rebased {
                rebases.extend([address(k) + 8, address(*b)]);
            } else {
                bytes[40 * k + 8..40 * k + 16].copy_from_slice(&address(*b).to_le_bytes());
            }
        }
    }
    let list: Vec<u64> = list.iter().map(|&k| address(k)).collect();
    for a in &list {
        bytes.extend(a.to_le_bytes());
    }
    let mut sections = [0; 15];
    sections[0..3].copy_from_slice(&[1, BASE + 40 * n as u64, 8 * list.len() as u64]);
    let size = bytes.len() as u64;
    let index = vec![0; 8192 + rebases.len() / 2];
    Image { bytes, segments: [BASE, size, 0, size, 0], sections, rebases, index, list }
}

/// The three words of every class, by taking away what ends.
fn plain(up: &[Option<usize>]) -> Vec<[u64; 3]> {
    let mut below = vec![vec![]; up.len()];
    for (k, b) in up.iter().enumerate() {
        if let Some(b) = b {
            below[*b].push(k);
        }
    }
    let mut told = vec![[0, 0, 1]; up.len()];
    let mut row: Vec<(usize, [u64; 3])> = (0..up.len()).filter(|&k| up[k].is_none()).map(|k| (k, [0, 0, 0])).collect();
    while let Some((k, r)) = row.pop() {
        told[k] = r;
        for &c in &below[k] {
            row.push((c, [r[0] + 1, if r[0] == 0 { address(k) } else { r[1] }, 0]));
        }
    }
    told
}

fn measure(name: &str, up: Vec<Option<usize>>, list: Vec<usize>, rebased: bool, unopened: bool, runs: usize) {
    let mut im = image(&up, &list, rebased);
    let info = [0u8; 8];
    let mut ledger = vec![0u64; list.len()];
    let mut result = vec![0u64; 3 * list.len()];
    unsafe {
        macro_rules! tables {
            ($f:ident, $index:expr $(, $rest:expr)*) => {
                $f(im.bytes.as_ptr(), im.bytes.len(), null(), 0, im.segments.as_ptr(), 5, im.sections.as_ptr(), 15, info.as_ptr(), 8,
                    im.rebases.as_ptr(), im.rebases.len(), null(), 0, $index, im.index.len() $(, $rest)*)
            };
        }
        assert_eq!(tables!(face_open, im.index.as_mut_ptr()), 0);
        let from = now();
        let used = tables!(face_walk, im.index.as_ptr(), ledger.as_mut_ptr(), ledger.len(), 4 * ledger.len() as u64 + 4);
        let walk = now() - from;
        assert_eq!(used as usize, list.len());
        assert_eq!(ledger, im.list);
        if unopened {
            im.index[4095] = u32::MAX;
        }
        let mut least = f64::MAX;
        for _ in 0..runs {
            let from = now();
            let n = tables!(face_ancestries, im.index.as_ptr(), ledger.as_ptr(), ledger.len(), used, result.as_mut_ptr(), result.len());
            least = least.min(now() - from);
            assert_eq!(n as usize, list.len());
        }
        let told = plain(&up);
        let want: Vec<u64> = list.iter().flat_map(|&k| told[k]).collect();
        assert!(result == want, "{name}: results differ");
        println!("| {name} | {} | {} | {least:.2} | {:.0} | {walk:.2} |", up.len(), list.len(), least * 1e6 / list.len() as f64);
    }
}

fn shuffled(n: usize) -> Vec<usize> {
    let mut list: Vec<usize> = (0..n).collect();
    let mut rng = Rng(5);
    for k in (1..n).rev() {
        list.swap(k, rng.below(k + 1));
    }
    list
}

fn tree(n: usize) -> Vec<Option<usize>> {
    let mut rng = Rng(7);
    (0..n).map(|k| if k == 0 { None } else { Some(rng.below(k / 3 + 1)) }).collect()
}

fn main() {
    println!("| Classes | in the image | listed | ms | ns a class | class walk, ms |");
    println!("|---|---|---|---|---|---|");
    for (n, runs) in [(1_000, 51), (10_000, 21), (100_000, 7)] {
        let all: Vec<usize> = (0..n).collect();
        measure("ordinary depth", tree(n), all.clone(), false, false, runs);
        measure("one chain, superclass behind", (0..n).map(|k| (k + 1 < n).then_some(k + 1)).collect(), all.clone(), false, false, runs);
        measure("one chain, superclass before", (0..n).map(|k| k.checked_sub(1)).collect(), all.clone(), false, false, runs);
        measure("one loop", (0..n).map(|k| Some((k + 1) % n)).collect(), all.clone(), false, false, runs);
        let mut rng = Rng(3);
        measure("all lead into one loop of 3", (0..n).map(|k| Some(if k < 3 { (k + 1) % 3 } else { rng.below(3) })).collect(), all.clone(), false, false, runs);
        measure("a chain into a loop of 1", (0..n).map(|k| Some((k + 1).min(n - 1))).collect(), all.clone(), false, false, runs);
        measure("one chain, one in 10 listed", (0..n).map(|k| (k + 1 < n).then_some(k + 1)).collect(), (0..n).step_by(10).collect(), false, false, runs);
        measure("ordinary depth, rebased", tree(n), all.clone(), true, false, runs.min(3));
    }
    for (n, runs) in [(1_000, 21), (10_000, 3), (100_000, 1)] {
        measure("ordinary depth, shuffled list", tree(n), shuffled(n), false, false, runs);
        measure("one chain, shuffled list", (0..n).map(|k| (k + 1 < n).then_some(k + 1)).collect(), shuffled(n), false, false, runs);
    }
    // 1,000 classes below one chain of classes that are not listed
    let n = 10_000;
    let below = |k: usize| if k < n { (k + 1 < n).then_some(k + 1) } else { Some(0) };
    measure("below a chain that is not listed", (0..n + 1_000).map(below).collect(), (n..n + 1_000).collect(), false, false, 3);
    // a head of the index, of a chain that no slot here has, does not fall: each class is climbed alone
    let n = 1_000;
    measure("ordinary depth, never opened", tree(n), (0..n).collect(), false, true, 21);
    measure("one chain, never opened", (0..n).map(|k| (k + 1 < n).then_some(k + 1)).collect(), (0..n).collect(), false, true, 21);
}
