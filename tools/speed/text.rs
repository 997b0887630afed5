// Time of a text read: `read_cstr_at` of the crate reads against the two passes of util.rs (the position of the zero byte,
// then core::str::from_utf8), and with `--cfg before` against another state of the crate. All are asked for the same texts, and must
// give the same answers. text.sh links and runs it; see README.md.
use std::hint::black_box;
use std::time::Instant;

type Read = fn(&[u8], u64) -> u64;

// The function `reads_cstr_length_plus_one` of src/text.rt at four places: a slice is passed as its pointer and its length.
macro_rules! linked {
    ($all:ident: $($name:ident)*) => {
        mod $all {
            extern "C" {
                $(pub fn $name(image: *const u8, len: usize, offset: u64) -> u64;)*
            }
        }
        $(#[inline(never)]
        fn $name(image: &[u8], offset: u64) -> u64 {
            unsafe { $all::$name(image.as_ptr(), image.len(), offset) }
        })*
        fn $all() -> Vec<Read> {
            vec![$($name),*]
        }
    };
}
linked!(now: now_0 now_1 now_2 now_3);
#[cfg(before)]
linked!(before: before_0 before_1 before_2 before_3);
#[cfg(not(before))]
fn before() -> Vec<Read> {
    Vec::new()
}

#[inline(never)]
fn two_passes(image: &[u8], offset: u64) -> u64 {
    let read = || {
        let tail = image.get(offset as usize..)?;
        let len = tail.iter().position(|&b| b == 0).unwrap_or(tail.len());
        core::str::from_utf8(tail.get(..len)?).ok()
    };
    read().map_or(0, |t| t.len() as u64 + 1)
}

// An image of zero-ended copies of a text, 20,000 or about a million bytes of them, and their offsets.
fn image_of(text: &[u8]) -> (Vec<u8>, Vec<u64>) {
    let mut image = vec![0; 4096];
    let mut offsets = Vec::new();
    for k in 0..20_000.min(1_000_000 / (text.len() + 1)) {
        offsets.push(image.len() as u64);
        image.extend_from_slice(text);
        image.resize(image.len() + 1 + k % 8, 0);
    }
    (image, offsets)
}

// A text of n bytes: the characters of `part` again and again, filled up with x.
fn long(part: &str, n: usize) -> Vec<u8> {
    let mut text = String::new();
    for c in part.chars().cycle() {
        if n < text.len() + c.len_utf8() {
            break;
        }
        text.push(c);
    }
    let mut bytes = text.into_bytes();
    bytes.resize(n, b'x');
    bytes
}

// Nanoseconds for a call, in one round.
fn round(read: Read, image: &[u8], offsets: &[u64]) -> f64 {
    let start = Instant::now();
    let mut sum = 0;
    for &offset in offsets {
        sum += read(black_box(image), black_box(offset));
    }
    black_box(sum);
    start.elapsed().as_nanos() as f64 / offsets.len() as f64
}

// The same for each function, the best of 50 rounds in turn.
fn times(reads: &[Read], image: &[u8], offsets: &[u64]) -> Vec<f64> {
    let mut best = vec![f64::MAX; reads.len()];
    for _ in 0..50 {
        for (time, &read) in best.iter_mut().zip(reads) {
            *time = time.min(round(read, image, offsets));
        }
    }
    best
}

fn mean(times: &[f64]) -> f64 {
    times.iter().sum::<f64>() / times.len() as f64
}

fn main() {
    // As Swift writes names: a class in a module, mangled, and a generic type with names in other alphabets.
    let mangled = "_TtGC11Application9ContainerVs10DictionarySSSaCS_4Node_";
    let mixed = "Application.Größe<Foundation.名前<Element.Änderung>, Swift.Dictionary<Swift.String, 🎉Party.View>>.";
    let (ascii_1, ascii_10) = (long(mangled, 1_000), long(mangled, 10_000));
    let (mixed_1, mixed_10) = (long(mixed, 1_000), long(mixed, 10_000));
    let texts: [(&str, &[u8]); 12] = [
        ("empty", b""),
        ("selector, 20 bytes", b"initWithFrame:style:"),
        ("selector, 46 bytes", b"setObject:forKey:withReason:andAnother:longer:"),
        ("ASCII, 200 bytes", &[b'a'; 200]),
        ("two-byte and ASCII", "größe_änderung_übermäßig".as_bytes()),
        ("three-byte", "名前を取得するメソッド".as_bytes()),
        ("four-byte and ASCII", "𝒳𝒴𝒵 emoji 🎉 text 𝒳".as_bytes()),
        ("surrogate, malformed", b"surrogate\xED\xA0\x80"),
        ("ASCII, 1,000 bytes", &ascii_1),
        ("ASCII, 10,000 bytes", &ascii_10),
        ("mixed, 1,000 bytes", &mixed_1),
        ("mixed, 10,000 bytes", &mixed_10),
    ];
    let mut reads: Vec<Read> = vec![two_passes];
    reads.extend(now());
    reads.extend(before());
    for (name, text) in texts {
        let (image, offsets) = image_of(text);
        for &offset in &offsets {
            for read in &reads {
                assert_eq!(read(&image, offset), two_passes(&image, offset));
            }
        }
        let times = times(&reads, &image, &offsets);
        let (theirs, ours) = (times[0], mean(&times[1..5]));
        let ratio = ours / theirs;
        print!("{name:22} two passes {theirs:8.1} ns  now {ours:8.1} ns  ratio {ratio:.2}");
        if times.len() > 5 {
            let earlier = mean(&times[5..]);
            print!("  before {earlier:8.1} ns  ratio {:.2}  now to before {:.2}", earlier / theirs, ours / earlier);
        }
        println!();
        assert!(text.len() != 20 || ratio <= 1.5, "a selector of 20 bytes takes more than 1.5 times the two passes");
    }
}
