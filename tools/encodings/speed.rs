// Time of type_words by the length of the text, and of texts that it leaves at their first bytes. speed.sh builds and runs it.
use std::hint::black_box;

unsafe extern "C" {
    fn face_types(text: *const u8, len: usize, words: *mut u64, room: usize) -> u64;
    fn clock_gettime(clock: i32, time: *mut [i64; 2]) -> i32;
}

// CPU time of this thread, in nanoseconds.
fn now() -> f64 {
    let mut time = [0; 2];
    unsafe { clock_gettime(3, &mut time) };
    time[0] as f64 * 1e9 + time[1] as f64
}

#[inline(never)]
fn types(text: &[u8], words: &mut [u64]) -> u64 {
    unsafe { face_types(text.as_ptr(), text.len(), words.as_mut_ptr(), words.len()) }
}

// A text of n bytes: the part again and again, and then i.
fn long(part: &str, n: usize) -> Vec<u8> {
    let mut text = part.repeat(n / part.len()).into_bytes();
    text.resize(n, b'i');
    text
}

// CPU time of a call, the least of 100 rounds.
fn time(text: &[u8], words: &mut [u64], calls: usize) -> f64 {
    let mut least = f64::MAX;
    for _ in 0..100 {
        let start = now();
        for _ in 0..calls {
            black_box(types(black_box(text), words));
        }
        least = least.min((now() - start) / calls as f64);
    }
    least
}

fn main() {
    let mut words = vec![0; 400_000];
    // Each with a text of ten bytes, and a part of the longer ones.
    let parts = [
        ("a method's types", "@16@0:8i16", "@16@0:8"),
        ("structures", "{a={b=d}}8", "{CGRect={CGPoint=dd}{CGSize=dd}}16"),
        ("pointers, arrays, bit fields", "r^^[12b3]8", "r^^[12{?=b3b5^v}]8"),
        ("names", "{vector=i}", "{std::vector<std::pair<int, NSString*>, std::allocator<int>>=ii}"),
    ];
    println!("| Text | bytes | types | ns a call | ns a byte |\n|---|---|---|---|---|");
    for (name, ten, part) in parts {
        for text in [ten.as_bytes().to_vec(), long(part, 1_000), long(part, 100_000)] {
            let (n, count) = (text.len(), types(&text, &mut words));
            assert!(0 < count && count < 1 << 32);
            let ns = time(&text, &mut words, (100_000 / n).max(1));
            println!("| {name} | {n} | {count} | {ns:.0} | {:.1} |", ns / n as f64);
        }
    }
    for (name, front) in [("outside at the second byte", "i%"), ("a 33rd level", &"^".repeat(33))] {
        for n in [1_000, 100_000] {
            let mut text = front.as_bytes().to_vec();
            text.resize(n, b'i');
            let ns = time(&text, &mut words, 1_000);
            println!("| {name} | {n} | none | {ns:.0} | |");
        }
    }
}
