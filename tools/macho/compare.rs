//! Files through the crate `macho`, through a second reader, and their section search through the Rust's, in one process.
//!
//!     compare [COUNT [FIRST]]
//!
//! Each number decides a file and what is lent. Of each: the answer, what was handed out, and every word of the lent buffers are the second
//! reader's; and of files whose commands fit, each of the six sections is the one that the Rust's `find_section` finds.

mod files;
mod reader;
#[allow(dead_code)]
mod section;

/// Stand-in for the Rust's binary.rs and segment.rs, which need files that are not there: the second reader's sections.
mod binary {
    pub struct Section<'a> {
        pub name: &'a str,
        pub body: &'a [u8],
        pub addr: u64,
    }
    impl<'a> Section<'a> {
        pub fn sectname(&self) -> &'a str {
            self.name
        }
        pub fn body(&self) -> &'a [u8] {
            self.body
        }
        pub fn addr(&self) -> u64 {
            self.addr
        }
    }
    pub struct MachoBinary<'a>(pub Vec<Section<'a>>);
    impl<'a> MachoBinary<'a> {
        pub fn sections(&self) -> &[Section<'a>] {
            &self.0
        }
    }
}

use reader::{Lent, NAMES, Segment};
use std::collections::BTreeMap;
use std::process::ExitCode;

// A slice is passed as its pointer and its length.
unsafe extern "C" {
    fn face_open(
        file: *const u8, n: usize, segments: *mut u64, a: usize, sections: *mut u64, b: usize, rebases: *const u64, c: usize,
        binds: *const u64, d: usize, index: *mut u32, e: usize, out: *mut [u64; 5],
    ) -> u64;
}

fn ours(file: &[u8], lent: &mut Lent) -> Result<[u64; 5], u64> {
    let mut out = [0; 5];
    let l = lent;
    let k = unsafe {
        face_open(
            file.as_ptr(), file.len(), l.segments.as_mut_ptr(), l.segments.len(), l.sections.as_mut_ptr(), l.sections.len(), l.rebases.as_ptr(),
            l.rebases.len(), l.binds.as_ptr(), l.binds.len(), l.index.as_mut_ptr(), l.index.len(), &mut out,
        )
    };
    if k == 0 { Ok(out) } else { Err(k) }
}

/// The Rust's search over the file's sections: which section it finds (its address), by a name up to its first zero byte.
fn rust_finds(file: &[u8], segments: &[Segment], name: &str) -> Option<u64> {
    let n = file.len() as u64;
    let all = segments.iter().flat_map(|s| &s.sections).map(|s| {
        let end = s.sectname.iter().position(|b| *b == 0).unwrap_or(16);
        let from = (s.offset as u64).min(n);
        binary::Section {
            name: std::str::from_utf8(&s.sectname[..end]).unwrap_or(""),
            body: &file[from as usize..(from + s.size.min(n - from)) as usize],
            addr: s.addr,
        }
    });
    section::find_section(&binary::MachoBinary(all.collect()), name).map(|s| s.vmaddr)
}

fn main() -> ExitCode {
    let number = |k: usize, other: u64| std::env::args().nth(k).and_then(|s| s.parse().ok()).unwrap_or(other);
    let (count, first) = (number(1, 200_000), number(2, 0));
    let (mut agree, mut differ, mut searches, mut elsewhere) = (0u64, 0u64, 0u64, 0u64);
    let mut answers = BTreeMap::<u64, u64>::new();
    for i in first..first + count {
        let (file, lent) = files::made(i);
        let (mut left, mut wanted) = (lent.clone(), lent.clone());
        let answer = ours(&file, &mut left);
        let right = reader::open(&file, &mut wanted);
        *answers.entry(answer.err().unwrap_or(0)).or_default() += 1;
        if answer == right && left == wanted {
            agree += 1;
        } else {
            differ += 1;
            if differ < 6 {
                println!("file {i}: {answer:?}, the second reader {right:?}");
            }
        }
        if let Ok(segments) = reader::segments(&file) {
            for name in NAMES.iter().chain(&["__objc_imageinfo"]) {
                searches += 1;
                if reader::first(&segments, name).map(|s| s.addr) != rust_finds(&file, &segments, name) {
                    elsewhere += 1;
                }
            }
        }
    }
    println!("answers (0: opened): {answers:?}");
    println!("{searches} section searches; {elsewhere} in which the Rust takes a name with bytes after its zero");
    println!("{agree} agree, {differ} differ");
    if differ == 0 { ExitCode::SUCCESS } else { ExitCode::FAILURE }
}
