//! Lists a bundle as objclist does, through the Rust's own iterators over an `ObjcRuntime` built from the same tables:
//! under the old reading of texts, which is the Rust's, or, built with the cfg `ended`, under the new one.
//!
//!     oracle [--whole] [--apart] [--bare] <BUNDLE
//!
//! --whole walks every list to its end by the Rust, which takes seconds or minutes for a long list; --apart says on
//! standard error how many rows were computed apart. Status 70: something computed apart is not what the Rust gives.
//! --bare, for timing, does as --whole and computes nothing apart but whether an offset is aligned and the marks: line E then counts
//! rows, and no skipped entry; an alignment is the low byte of its word, as the Rust gives it.

// The Rust offers more than the listing uses.
#![allow(dead_code, unused_imports)]

// class.rs takes its macro from a crate `bitflags`; here that is this crate.
extern crate self as bitflags;
#[path = "bitflags.rs"]
mod macros;

mod apart;
mod binary;
mod bundle;
#[cfg(ended)]
mod ended;
mod line;
mod marks;
mod objc;
mod ptrauth;
mod util;

use std::io::{Read, Write};
use std::process::ExitCode;

use apart::{Apart, Kind, aligned};
use line::Line;
use marks::Marks;
use objc::{ClassRo, Ivar, Method, MethodKind, ObjcCategory, ObjcClass, ObjcProtocol, ObjcRuntime, Property};

/// Rows below this index are the Rust's; it tries each index in turn, some nanoseconds each. Rows from here on come
/// from `Apart`, which jumps; so does the end of a longer list.
const REACH: u64 = 1 << 20;

/// Without its mark, which comes last (`marked`).
fn method_line(number: u64, m: Method<'_>) -> Vec<u8> {
    let kind = match m.kind() {
        MethodKind::Legacy => 0u64,
        MethodKind::SmallIndirect => 1,
        MethodKind::SmallDirect => 2,
    };
    let line = Line::new('m').hex(number).text(m.selector()).text(m.types());
    line.hex_or_none(m.implementation()).hex(kind).end()
}

/// The alignment is the Rust's if its word can be one (`there`), which the Rust, keeping the low byte, does not say.
/// Computed apart too: whether the offset is aligned.
fn ivar_line(number: u64, v: Ivar<'_>, there: bool) -> Vec<u8> {
    let log2 = there.then(|| u32::from(v.log2_alignment()));
    let line = Line::new('v').hex(number).text(v.name()).text(v.type_encoding());
    line.hex_or_none(v.offset()).hex(v.size()).hex_or_none(log2).hex_or_none(aligned(v.offset(), log2)).end()
}

fn property_line(number: u64, p: Property<'_>) -> Vec<u8> {
    Line::new('p').hex(number).text(p.name()).text(p.attributes()).end()
}

struct Listing<'a> {
    out: Vec<u8>,
    apart: Apart<'a>,
    whole: bool,
    bare: bool,
    records: u64,
    settled: u64,
    rows_apart: u64,
    /// Where each m row ends in `out`, and its imp.
    methods: Vec<(usize, Option<u64>)>,
    faults: Vec<&'static str>,
}

impl<'a> Listing<'a> {
    fn print(&mut self, line: Line) {
        self.out.extend(line.end());
    }

    fn check(&mut self, holds: bool, what: &'static str) {
        if !holds {
            self.faults.push(what);
        }
    }

    /// Adds a row. Of an m row imp and kind are the last fields.
    fn row(&mut self, row: Vec<u8>) {
        let method = row[0] == b'm';
        self.out.extend(&row);
        if method {
            let imp = row.trim_ascii_end().rsplit(|&b| b == b' ').nth(1).unwrap();
            let imp = (imp != b"-").then(|| u64::from_str_radix(std::str::from_utf8(imp).unwrap(), 16).unwrap());
            self.methods.push((self.out.len(), imp));
        }
    }

    /// The listing with a mark at the end of each m row, computed apart over the starts of all of them.
    fn marked(&mut self, ends: [u64; 4]) -> Vec<u8> {
        let starts: Vec<u64> = self.methods.iter().filter_map(|m| m.1).collect();
        let marks = Marks::new(ends, &starts);
        let (mut out, mut from) = (Vec::new(), 0);
        for (end, imp) in std::mem::take(&mut self.methods) {
            let mark = imp.map_or(0, |start| marks.mark(start));
            let pairs = imp.and_then(|start| marks.by_pairs(start));
            self.check(pairs.is_none_or(|by| by == mark), "a mark");
            out.extend(&self.out[from..end - 1]);
            out.extend(format!(" {mark:x}\n").bytes());
            from = end;
        }
        out.extend(&self.out[from..]);
        out
    }

    /// The rows of the list at `va`, `rust` being the Rust's iterator over it. Its readable entries, skipped ones too,
    /// are counted apart for line E.
    fn rows(&mut self, number: u64, va: u64, kind: Kind, mut rust: impl Iterator<Item = Vec<u8>>) {
        if self.bare {
            for row in rust {
                self.settled += 1;
                self.row(row);
            }
            return;
        }
        let Some(list) = self.apart.list(va, kind) else {
            let given: Vec<Vec<u8>> = rust.collect();
            self.check(given.is_empty(), "an absent list");
            given.into_iter().for_each(|row| self.row(row));
            return;
        };
        let readables = self.apart.readables(&list);
        if list.count <= REACH / 16 {
            self.check(readables == self.apart.readables_by_trying(&list), "the readable entries");
        }
        // Computed apart: the Rust tells a skipped entry from an unreadable one nowhere.
        self.settled += readables.len() as u64;
        let rows: Vec<(u64, Vec<u8>)> =
            readables.iter().filter_map(|&i| Some((i, self.apart.row(&list, i, number)?))).collect();
        if self.whole || list.count <= REACH {
            let given: Vec<Vec<u8>> = rust.collect();
            self.check(given.iter().eq(rows.iter().map(|(_, row)| row)), "the rows of a list");
            given.into_iter().for_each(|row| self.row(row));
            return;
        }
        for (index, row) in rows {
            if index < REACH {
                let given = rust.next();
                self.check(given.as_ref() == Some(&row), "a row of a list");
                given.into_iter().for_each(|row| self.row(row));
            } else {
                // Computed apart: the Rust would come to this index too late.
                self.rows_apart += 1;
                self.row(row);
            }
        }
    }

    fn methods(&mut self, number: u64, va: u64, rust: impl Iterator<Item = Method<'a>>) {
        self.rows(number, va, Kind::Method, rust.map(|m| method_line(number, m)));
    }

    fn ivars(&mut self, number: u64, va: u64, rust: impl Iterator<Item = Ivar<'a>>) {
        let mut there = self.apart.alignments(va).into_iter();
        self.rows(number, va, Kind::Ivar, rust.map(|v| ivar_line(number, v, there.next().unwrap_or(true))));
    }

    fn properties(&mut self, number: u64, va: u64, rust: impl Iterator<Item = Property<'a>>) {
        self.rows(number, va, Kind::Property, rust.map(|p| property_line(number, p)));
    }

    fn names(&mut self, number: u64, rust: impl Iterator<Item = &'a str>) {
        for name in rust {
            self.print(Line::new('q').hex(number).text(name));
        }
    }

    fn class(&mut self, c: &ObjcClass<'a, '_>) {
        self.records += 1;
        let line = Line::new(if c.is_meta() { 'M' } else { 'C' }).hex(c.address()).hex(c.isa());
        self.print(line.hex(c.superclass_address()).hex(c.bits()).text_or_none(c.superclass_name()));
        if let Some(ro) = c.ro() {
            self.class_ro(&ro);
        }
    }

    fn class_ro(&mut self, ro: &ClassRo<'a, '_>) {
        let a = ro.address();
        let line = Line::new('R').hex(a).hex(ro.flags().bits()).hex(ro.instance_start());
        self.print(line.hex(ro.instance_size()).text(ro.name()));
        self.methods(0, self.apart.field(a, 32), ro.methods());
        self.ivars(1, self.apart.field(a, 48), ro.ivars());
        self.properties(2, self.apart.field(a, 64), ro.properties());
        self.names(3, ro.protocols());
    }

    fn protocol(&mut self, p: &ObjcProtocol<'a, '_>) {
        self.records += 1;
        let a = p.address();
        self.print(Line::new('P').hex(a).hex(p.size()).hex(p.flags()).text(p.name()));
        self.methods(0, self.apart.field(a, 24), p.instance_methods());
        self.methods(1, self.apart.field(a, 32), p.class_methods());
        self.methods(2, self.apart.field(a, 40), p.optional_instance_methods());
        self.methods(3, self.apart.field(a, 48), p.optional_class_methods());
        self.properties(4, self.apart.field(a, 56), p.instance_properties());
        let class_properties = if p.size() >= 96 { self.apart.field(a, 88) } else { 0 };
        self.properties(5, class_properties, p.class_properties());
        self.names(6, p.protocols());
    }

    fn category(&mut self, k: &ObjcCategory<'a, '_>, has_class_properties: bool) {
        self.records += 1;
        let a = k.address();
        let line = Line::new('K').hex(a).hex(k.class_address()).text(k.name());
        self.print(line.text_or_none(k.class_name()));
        self.methods(0, self.apart.field(a, 16), k.instance_methods());
        self.methods(1, self.apart.field(a, 24), k.class_methods());
        self.names(2, k.protocols());
        self.properties(3, self.apart.field(a, 40), k.instance_properties());
        let class_properties = if has_class_properties { self.apart.field(a, 48) } else { 0 };
        self.properties(4, class_properties, k.class_properties());
    }
}

fn main() -> ExitCode {
    let options: Vec<String> = std::env::args().skip(1).collect();
    if let Some(unknown) = options.iter().find(|o| !["--whole", "--apart", "--bare"].contains(&o.as_str())) {
        eprintln!("oracle: no option {unknown}; a bundle comes on standard input");
        return ExitCode::from(2);
    }
    let mut input = Vec::new();
    std::io::stdin().read_to_end(&mut input).expect("standard input");
    let (bin, ends) = match bundle::open(&input) {
        Ok(opened) => opened,
        Err(bundle::Unlisted::Refused(number)) => {
            println!("refused {number}");
            return ExitCode::SUCCESS;
        }
        Err(bundle::Unlisted::Spans) => {
            eprintln!("oracle: the bundle spans files, and the Rust has one image");
            return ExitCode::from(3);
        }
    };
    let rt = ObjcRuntime::build(&bin).expect("build gives None only for 32 bits or without image info");
    let bare = options.iter().any(|o| o == "--bare");
    let mut listing = Listing {
        out: Vec::new(),
        apart: if bare { Apart::default() } else { Apart::new(&bin) },
        whole: options.iter().any(|o| o == "--whole"),
        bare,
        records: 0,
        settled: 0,
        rows_apart: 0,
        methods: Vec::new(),
        faults: Vec::new(),
    };
    let info = rt.image_info();
    // The reading: 0 old, 1 new.
    listing.print(Line::new('I').hex(info.version).hex(info.flags).hex(u64::from(cfg!(ended))));
    for class in rt.classes() {
        listing.class(&class);
    }
    for protocol in rt.protocols() {
        listing.protocol(&protocol);
    }
    for category in rt.categories() {
        listing.category(&category, info.has_category_class_properties());
    }
    listing.print(Line::new('E').hex(listing.records).hex(listing.settled));
    let out = listing.marked(ends);
    std::io::stdout().write_all(&out).expect("standard output");
    if options.iter().any(|o| o == "--apart") {
        eprintln!("{} rows apart", listing.rows_apart);
    }
    for fault in &listing.faults {
        eprintln!("oracle: computed apart, not as the Rust gives it: {fault}");
    }
    if listing.faults.is_empty() { ExitCode::SUCCESS } else { ExitCode::from(70) }
}
