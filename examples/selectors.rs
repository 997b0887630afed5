//! selectors FILE: as selectors.c, in Rust. An error is the number of the question that refused (docs/QUESTIONS.md).
use std::io::Write;
use std::process::exit;

// What of include/objclist.h and include/objclist_file.h is used here.
#[repr(C)]
#[derive(Clone, Copy)]
struct Bytes {
    bytes: *const u8,
    len: usize,
}

#[repr(C)]
#[derive(Clone, Copy, Default)]
struct Status {
    kind: u64,
    code: u64,
    at: u64,
}

#[repr(C)]
#[derive(Clone, Copy, Default)]
struct Text {
    file: u64,
    offset: u64,
    len: u64,
}

#[repr(C)]
struct Part {
    status: u64,
    number: u64,
    cputype: u64,
    cpusubtype: u64,
    offset: u64,
    size: u64,
}

#[repr(C)]
struct Sizes {
    segments: u64,
    sections: u64,
    rebases: u64,
    binds: u64,
    index: u64,
    ledger: u64,
}

#[repr(C)]
struct Counts {
    status: u64,
    number: u64,
    rebases: u64,
    binds: u64,
}

#[repr(C)]
struct Opened {
    status: Status,
    segments: u64,
    version: u64,
    flags: u64,
    info_at: u64,
    info_len: u64,
}

#[repr(C)]
#[derive(Clone, Copy, Default)]
struct Class {
    address: u64,
    isa: u64,
    superclass_address: u64,
    bits: u64,
    is_meta: u64,
}

#[repr(C)]
#[derive(Clone, Copy, Default)]
struct Ro {
    status: Status,
    address: u64,
    flags: u64,
    instance_start: u64,
    instance_size: u64,
    name: Text,
    ivar_layout_address: u64,
    methods: u64,
    protocols: u64,
    ivars: u64,
    weak_ivar_layout_address: u64,
    properties: u64,
}

#[repr(C)]
#[derive(Clone, Copy, Default)]
struct Protocol {
    address: u64,
    name: Text,
    protocols: u64,
    methods: [u64; 4],
    properties: [u64; 2],
    size: u64,
    flags: u64,
}

#[repr(C)]
#[derive(Clone, Copy, Default)]
struct Category {
    address: u64,
    name: Text,
    class_address: u64,
    methods: [u64; 2],
    protocols: u64,
    properties: [u64; 2],
}

#[repr(C)]
#[derive(Clone, Copy, Default)]
struct Walk {
    slot: u64,
    used: u64,
    highest: u64,
    waiting: u64,
    old_reading: u64,
}

#[repr(C)]
#[derive(Clone, Copy, Default)]
struct Step<R> {
    status: Status,
    record: R,
    walk: Walk,
}

#[repr(C)]
#[derive(Clone, Copy, Default)]
struct RowWalk {
    list: u64,
    kind: u64,
    cursor: u64,
    old_reading: u64,
}

#[repr(C)]
struct Rows {
    status: Status,
    rows: u64,
    walk: RowWalk,
}

#[repr(C)]
#[derive(Clone, Copy, Default)]
struct Row {
    kind: u64,
    code: u64,
    at: u64,
    name: Text,
    types: Text,
    has_number: u64,
    number: u64,
    form: u64,
    has_alignment: u64,
    log2_alignment: u64,
    aligned: u64,
}

const FOUND: u64 = 0;
const REFUSED: u64 = 1;
const ABSENT: u64 = 2;
const FINISHED: u64 = 5;
const MORE: u64 = 6;
const METHOD: u64 = 0;
const ROW_WORDS: usize = 15;
const SEGMENT_WORDS: usize = 5;
const REBASE_WORDS: usize = 2;
const BIND_WORDS: usize = 4;
const INDEX_HEADS: usize = 8192;

#[link(name = "face", kind = "static")]
extern "C" {
    fn objclist_part(file: *const u8, file_len: usize) -> Part;
    fn objclist_sizes(n: u64) -> Sizes;
    fn objclist_tables(
        file: *const u8, file_len: usize, rebases: *mut u64, rebases_len: usize, binds: *mut u64, binds_len: usize,
    ) -> Counts;
    fn objclist_open_file(
        file: *const u8, file_len: usize, segments: *mut u64, segments_len: usize, sections: *mut u64, sections_len: usize,
        rebases: *const u64, rebases_len: usize, binds: *const u64, binds_len: usize, index: *mut u32, index_len: usize,
    ) -> Opened;
}

macro_rules! lent_to {
    ($($name:ident($($p:ident: $t:ty),*) -> $r:ty;)*) => {
        extern "C" {
            $(fn $name(
                files: *const Bytes, files_len: usize, segments: *const u64, segments_len: usize, sections: *const u64,
                sections_len: usize, info: *const u8, info_len: usize, rebases: *const u64, rebases_len: usize,
                binds: *const u64, binds_len: usize, index: *const u32, index_len: usize $(, $p: $t)*
            ) -> $r;)*
        }
    };
}

lent_to! {
    objclist_next_class(walk: Walk, ledger: *mut u64, ledger_len: usize) -> Step<Class>;
    objclist_next_protocol(walk: Walk) -> Step<Protocol>;
    objclist_next_category(walk: Walk, ledger: *mut u64, ledger_len: usize) -> Step<Category>;
    objclist_class_ro(old_reading: u64, class: Class) -> Ro;
    objclist_rows(walk: RowWalk, rows: *mut u64, rows_len: usize) -> Rows;
}

// What every call is lent, once the image is open.
struct Image<'a> {
    file: &'a [u8],
    segments: Vec<u64>,
    sections: Vec<u64>,
    info: &'a [u8],
    rebases: Vec<u64>,
    binds: Vec<u64>,
    index: Vec<u32>,
}

// Safe: every slice is lent with its own length, and none that is written is lent twice.
macro_rules! call {
    ($name:ident, $image:expr $(, $arg:expr)*) => {{
        let i = $image;
        let file = Bytes { bytes: i.file.as_ptr(), len: i.file.len() };
        unsafe {
            $name(
                &file, 1, i.segments.as_ptr(), i.segments.len(), i.sections.as_ptr(), i.sections.len(), i.info.as_ptr(),
                i.info.len(), i.rebases.as_ptr(), i.rebases.len(), i.binds.as_ptr(), i.binds.len(), i.index.as_ptr(),
                i.index.len() $(, $arg)*
            )
        }
    }};
}

fn unrefused(status: Status) -> Result<u64, u64> {
    if status.kind == REFUSED { Err(status.code) } else { Ok(status.kind) }
}

// Opens an image, which is a thin file or a part of a universal one. The tables are lent as long as any image may need, then cut to what it has;
// zeroed memory that is never touched costs nothing.
fn open(file: &[u8]) -> Result<Image<'_>, u64> {
    let most = unsafe { objclist_sizes(file.len() as u64) };
    let mut rebases = vec![0u64; most.rebases as usize];
    let mut binds = vec![0u64; most.binds as usize];
    let counts = unsafe {
        objclist_tables(file.as_ptr(), file.len(), rebases.as_mut_ptr(), rebases.len(), binds.as_mut_ptr(), binds.len())
    };
    if counts.status != FOUND {
        return Err(counts.number);
    }
    rebases.truncate(REBASE_WORDS * counts.rebases as usize);
    binds.truncate(BIND_WORDS * counts.binds as usize);
    let mut index = vec![0u32; INDEX_HEADS + counts.rebases as usize + counts.binds as usize];
    let mut segments = vec![0u64; most.segments as usize];
    let mut sections = vec![0u64; most.sections as usize];
    let opened = unsafe {
        objclist_open_file(
            file.as_ptr(), file.len(), segments.as_mut_ptr(), segments.len(), sections.as_mut_ptr(), sections.len(),
            rebases.as_ptr(), rebases.len(), binds.as_ptr(), binds.len(), index.as_mut_ptr(), index.len(),
        )
    };
    if opened.status.kind != FOUND {
        return Err(opened.status.code);
    }
    segments.truncate(SEGMENT_WORDS * opened.segments as usize);
    let info = &file[opened.info_at as usize..][..opened.info_len as usize];
    Ok(Image { file, segments, sections, info, rebases, binds, index })
}

// The selectors of a list, some rows a call. An entry that has no selector is a row too, of another kind.
fn selectors(image: &Image, list: u64, out: &mut Vec<u8>) -> Result<(), u64> {
    let mut rows = [Row::default(); 16];
    let mut walk = RowWalk { list, ..RowWalk::default() };
    loop {
        let told = call!(objclist_rows, image, walk, rows.as_mut_ptr().cast(), rows.len() * ROW_WORDS);
        for row in rows[..told.rows as usize].iter().filter(|row| row.kind == METHOD) {
            out.extend_from_slice(&image.file[row.name.offset as usize..][..row.name.len as usize]);
            out.push(b'\n');
        }
        if unrefused(told.status)? != MORE {
            return Ok(());
        }
        walk = told.walk;
    }
}

// The records of a walk, which ends: each step takes a slot, or the metaclass that waited. A slot without a record that can be read has no line
// in the listing.
fn records<R>(mut next: impl FnMut(Walk) -> Step<R>, mut each: impl FnMut(R) -> Result<(), u64>) -> Result<(), u64> {
    let mut walk = Walk::default();
    loop {
        let step = next(walk);
        match unrefused(step.status)? {
            FINISHED => return Ok(()),
            FOUND => each(step.record)?,
            _ => {}
        }
        walk = step.walk;
    }
}

fn all_selectors(file: &[u8]) -> Result<Vec<u8>, u64> {
    let image = &open(file)?;
    let mut ledger = vec![0u64; unsafe { objclist_sizes(file.len() as u64) }.ledger as usize];
    let mut out = Vec::new();
    records(
        |walk| call!(objclist_next_class, image, walk, ledger.as_mut_ptr(), ledger.len()),
        |class: Class| {
            let data = call!(objclist_class_ro, image, 0, class);
            if unrefused(data.status)? != FOUND {
                return Ok(());
            }
            selectors(image, data.methods, &mut out)
        },
    )?;
    records(
        |walk| call!(objclist_next_protocol, image, walk),
        |protocol: Protocol| protocol.methods.iter().try_for_each(|&list| selectors(image, list, &mut out)),
    )?;
    records(
        |walk| call!(objclist_next_category, image, walk, ledger.as_mut_ptr(), ledger.len()),
        |category: Category| category.methods.iter().try_for_each(|&list| selectors(image, list, &mut out)),
    )?;
    Ok(out)
}

fn fail(status: i32, why: &str) -> ! {
    eprintln!("{why}");
    exit(status)
}

fn main() {
    let Some(path) = std::env::args().nth(1) else { fail(2, "usage: selectors FILE") };
    let file = std::fs::read(&path).unwrap_or_else(|e| fail(2, &format!("{path}: {e}")));
    let part = unsafe { objclist_part(file.as_ptr(), file.len()) };
    if part.status == REFUSED {
        fail(1, &format!("{path}: refused {}", part.number));
    }
    if part.status == ABSENT {
        fail(1, &format!("{path}: no 64-bit part"));
    }
    let image = &file[part.offset as usize..][..part.size as usize];
    let out = all_selectors(image).unwrap_or_else(|number| fail(1, &format!("{path}: refused {number}")));
    std::io::stdout().write_all(&out).unwrap_or_else(|e| fail(2, &format!("standard output: {e}")));
}
