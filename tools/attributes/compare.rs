//! Attribute strings through the crate `attributes` and through the Rust's parser, in one process.
//!
//!     compare [COUNT [FIRST]]
//!
//! Each number decides its text. Of each: the items and the type are the Rust's; the declared property and its text are those that
//! this file makes of the Rust's items; 12 refuses buffers that are too short and writes nothing; and where the conditions of the
//! round trip hold, the written text is UTF-8 and declares the same, through the crate and through the Rust's parser.

// The Rust's property.rs, with a line behind it that lets its parser be called, and the little that it takes from elsewhere.
#[allow(dead_code)]
mod property;
#[allow(dead_code)]
mod objc {
    pub struct ObjcRuntime<'a>(&'a [u8]);
    impl<'a> ObjcRuntime<'a> {
        pub fn read_bytes(&self, _: u64, _: usize) -> Option<&'a [u8]> {
            None
        }
        pub fn resolve_pointer(&self, _: u64) -> Option<u64> {
            None
        }
        pub fn read_cstr(&self, _: u64) -> Option<&'a str> {
            None
        }
    }
}
mod util {
    pub fn read_u32_le_at(_: &[u8], _: usize) -> Option<u32> {
        None
    }
}

use std::process::ExitCode;

// A slice is passed as its pointer and its length.
unsafe extern "C" {
    fn face_parse(text: *const u8, n: usize, buffer: *mut u64, room: usize, out: *mut [u64; 64]) -> u64;
    fn face_decode(text: *const u8, n: usize, buffer: *mut u64, room: usize, out: *mut [u64; 64]) -> u64;
    fn face_write(text: *const u8, n: usize, from: *const [u64; 64], rows: *const u64, words: usize, out: *mut u8, room: usize) -> u64;
}

const LETTERS: &[u8; 12] = b"TRC&NDWPGStV";
const REFUSED: u64 = u64::MAX;
const OLD: u64 = 0xABAB;

/// A declared property, its values as bytes.
#[derive(PartialEq, Eq, Debug, Default, Clone)]
struct Record {
    values: [Option<Vec<u8>>; 12],
    unknown: Vec<(u8, Vec<u8>)>,
}

/// Out of items: the first value of each letter, and all others.
fn record_of(items: &[(u8, Vec<u8>)]) -> Record {
    let mut r = Record::default();
    for (key, value) in items {
        match LETTERS.iter().position(|l| l == key) {
            Some(k) if r.values[k].is_none() => r.values[k] = Some(value.clone()),
            Some(_) => {}
            None => r.unknown.push((*key, value.clone())),
        }
    }
    r
}

/// Its text: T, the flags, G, S, t, unknown letters, V.
fn text_of(r: &Record) -> Vec<u8> {
    let letter = |k: usize| r.values[k].clone().map(|v| (LETTERS[k], v));
    let items = (0..11).filter_map(letter).chain(r.unknown.clone()).chain(letter(11));
    items.map(|(key, value)| [vec![key], value].concat()).collect::<Vec<_>>().join(&b","[..])
}

/// Double quotes only in pairs, and no comma outside them.
fn closed(value: &[u8]) -> bool {
    let mut quoted = false;
    for &b in value {
        match b {
            b'"' => quoted = !quoted,
            b',' if !quoted => return false,
            _ => {}
        }
    }
    !quoted
}

fn writable(r: &Record) -> bool {
    let values = r.values.iter().flatten().chain(r.unknown.iter().map(|u| &u.1));
    values.map(|v| closed(v)).all(|c| c) && r.unknown.iter().all(|u| u.0 < 0x80)
}

/// The Rust's items.
fn rust_items(text: &str) -> (Vec<(u8, Vec<u8>)>, Vec<u8>) {
    let parsed = property::parse(text);
    let items = parsed.items.iter().map(|i| (i.key as u32 as u8, i.value.as_bytes().to_vec())).collect();
    (items, parsed.type_encoding.as_bytes().to_vec())
}

fn bytes(text: &[u8], start: u64, len: u64) -> Vec<u8> {
    text[start as usize..(start + len) as usize].to_vec()
}

/// The items of rows.
fn rows_items(text: &[u8], rows: &[u64]) -> Vec<(u8, Vec<u8>)> {
    rows.chunks(3).map(|w| (w[0] as u8, bytes(text, w[1], w[2]))).collect()
}

/// parse_attributes with a buffer of so many words.
fn parse(text: &[u8], room: usize) -> (u64, Vec<u64>, [u64; 64]) {
    let (mut buffer, mut out) = (vec![OLD; room], [0; 64]);
    let answer = unsafe { face_parse(text.as_ptr(), text.len(), buffer.as_mut_ptr(), room, &mut out) };
    (answer, buffer, out)
}

fn decode(text: &[u8], room: usize) -> (u64, Vec<u64>, [u64; 64]) {
    let (mut buffer, mut out) = (vec![OLD; room], [0; 64]);
    let answer = unsafe { face_decode(text.as_ptr(), text.len(), buffer.as_mut_ptr(), room, &mut out) };
    (answer, buffer, out)
}

fn write(text: &[u8], from: &[u64; 64], rows: &[u64], room: usize) -> (u64, Vec<u8>) {
    let mut out = vec![0xAB; room];
    let answer = unsafe { face_write(text.as_ptr(), text.len(), from, rows.as_ptr(), rows.len(), out.as_mut_ptr(), room) };
    (answer, out)
}

fn decoded(text: &[u8], rows: &[u64], from: &[u64; 64]) -> Record {
    let mut r = Record::default();
    for k in 0..12 {
        if from[3 * k] == 1 {
            r.values[k] = Some(bytes(text, from[3 * k + 1], from[3 * k + 2]));
        }
    }
    r.unknown = rows_items(text, &rows[..3 * from[36] as usize]);
    r
}

fn old(words: &[u64]) -> bool {
    words.iter().all(|&w| w == OLD)
}

#[derive(Default, Debug)]
struct Counts {
    texts: u64,
    absent: u64,
    items: u64,
    repeated: u64,
    unknown: u64,
    refused: u64,
    rewritten: u64,
    changed: u64,
}

/// Err names what differs.
fn check(text: &[u8], n: &mut Counts) -> Result<(), String> {
    let expect = |holds: bool, what: &str| if holds { Ok(()) } else { Err(what.to_string()) };
    n.texts += 1;
    let Ok(valid) = std::str::from_utf8(text) else {
        n.absent += 1;
        let (p, d) = (parse(text, 0), decode(text, 0));
        return expect(p.0 >= 1000 && d.0 == p.0, "not UTF-8");
    };
    let (items, kind) = rust_items(valid);
    n.items += items.len() as u64;
    let room = 3 * items.len();
    let (answer, buffer, out) = parse(text, room + 1);
    expect(answer == 0 && out[0] as usize == items.len(), "count")?;
    expect(rows_items(text, &buffer[..room]) == items && old(&buffer[room..]), "items")?;
    expect(bytes(text, out[1], out[2]) == kind, "type")?;

    let record = record_of(&items);
    let room = 3 * record.unknown.len();
    n.unknown += record.unknown.len() as u64;
    n.repeated += u64::from(items.len() > record.unknown.len() + record.values.iter().flatten().count());
    let (answer, rows, from) = decode(text, room + 4);
    expect(answer == 0 && decoded(text, &rows, &from) == record && old(&rows[room..]), "property")?;
    if room > 0 {
        n.refused += 1;
        let (answer, rows, _) = decode(text, room - 1);
        expect(answer == 12 && old(&rows), "12 of unknown letters")?;
    }

    let expected = text_of(&record);
    let (len, out) = write(text, &from, &rows, expected.len() + 1);
    expect(len as usize == expected.len() && out[..expected.len()] == expected && out[expected.len()] == 0xAB, "text")?;
    if !expected.is_empty() {
        let (len, out) = write(text, &from, &rows, expected.len() - 1);
        expect(len == REFUSED && out.iter().all(|&b| b == 0xAB), "12 of the text")?;
    }
    if !writable(&record) {
        n.changed += u64::from(std::str::from_utf8(&expected).map_or(true, |t| record_of(&rust_items(t).0) != record));
        return Ok(());
    }
    n.rewritten += 1;
    let again = std::str::from_utf8(&expected).map_err(|_| "written text is not UTF-8")?;
    expect(record_of(&rust_items(again).0) == record, "round trip by the Rust's items")?;
    let (answer, rows, from) = decode(&expected, room);
    expect(answer == 0 && decoded(&expected, &rows, &from) == record, "round trip")
}

/// xorshift64*
struct Random(u64);
impl Random {
    fn below(&mut self, n: usize) -> usize {
        self.0 ^= self.0 >> 12;
        self.0 ^= self.0 << 25;
        self.0 ^= self.0 >> 27;
        (self.0.wrapping_mul(0x2545_F491_4F6C_DD1D) >> 33) as usize % n
    }
    fn pick<'a>(&mut self, from: &[&'a str]) -> &'a str {
        from[self.below(from.len())]
    }
}

const KEYS: [&str; 24] = [
    "T", "R", "C", "&", "N", "D", "W", "P", "G", "S", "t", "V", "T", "V", "x", "?", "i", ",", "\"", "é", "名", "🎉", "z", " ",
];
const VALUES: [&str; 24] = [
    "", "", "", "i", "@\"NSString\"", "_name", "setName:", "isOn", "@\"A,B\"", "{pair<int,int>=ii}", "@\"pair<A,B>\"", "{CGRect={CGPoint=dd}}",
    "\"", "\"\"", ",", "@\"A\",\"B\"", "é", "名前", "\"é,é\"", "🎉", "x,\"", "^{__CFString=}", "@?", "x\u{0}y",
];

/// The text of a number: all of up to two bytes; all of up to five of eight bytes that matter; then random ones, some of them damaged.
fn text(number: u64) -> Vec<u8> {
    const FEW: &[u8; 8] = b"TVx,\"R\xC3\xA9";
    let mut n = number;
    for size in 0..=2u32 {
        let count = 256u64.pow(size);
        if n < count {
            return (0..size).map(|k| (n >> (8 * k)) as u8).collect();
        }
        n -= count;
    }
    for size in 3..=5u32 {
        let count = 8u64.pow(size);
        if n < count {
            return (0..size).map(|k| FEW[(n >> (3 * k)) as usize & 7]).collect();
        }
        n -= count;
    }
    let mut r = Random(number.wrapping_mul(0x9E37_79B9_7F4A_7C15) | 1);
    r.below(2);
    let items = 1 + r.below(9);
    let made = (0..items).map(|_| format!("{}{}", r.pick(&KEYS), r.pick(&VALUES))).collect::<Vec<_>>().join(",");
    let mut made = made.into_bytes();
    if r.below(8) == 0 {
        let at = r.below(made.len());
        made[at] = r.below(256) as u8;
    }
    made
}

fn main() -> ExitCode {
    let mut args = std::env::args().skip(1).map(|a| a.parse::<u64>().expect("compare [COUNT [FIRST]]"));
    let count = args.next().unwrap_or(300_000);
    let first = args.next().unwrap_or(0);
    let (mut n, mut differ) = (Counts::default(), 0u64);
    for number in first..first + count {
        let text = text(number);
        if let Err(what) = check(&text, &mut n) {
            differ += 1;
            println!("text {number}, {}: {what}", text.escape_ascii());
        }
    }
    println!("{} items, {} of unknown letters; {} texts repeat a letter; {} are not UTF-8", n.items, n.unknown, n.repeated, n.absent);
    println!("{} decoded with a word too little; {} written and decoded again; of the others {} change", n.refused, n.rewritten, n.changed);
    println!("{} agree, {differ} differ", n.texts - differ);
    if differ == 0 { ExitCode::SUCCESS } else { ExitCode::FAILURE }
}
