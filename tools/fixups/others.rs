//! Stand-ins for the Rust's other files, which are not there: the names that binary.rs calls. Only `import` does anything here.
use std::marker::PhantomData;

macro_rules! iterators {
    ($($name:ident)*) => { $(
        pub struct $name<'a, 'p>(std::marker::PhantomData<(&'a (), &'p ())>);
        impl<'a, 'p> Iterator for $name<'a, 'p> {
            type Item = super::Item<'a>;
            fn next(&mut self) -> Option<super::Item<'a>> {
                None
            }
        }
    )* };
}
use iterators;

pub mod error {
    pub enum Error {
        NoMatchingArchSlice,
        Structural(String),
    }
    impl From<u64> for Error {
        fn from(k: u64) -> Self {
            Error::Structural(k.to_string())
        }
    }
    pub type Result<T> = std::result::Result<T, Error>;
}

pub mod dylib {
    use crate::mach::load_command::LoadCommand;
    super::iterators! { DylibIter LoadCommandIter }
    impl<'a, 'p> DylibIter<'a, 'p> {
        pub fn new(_: &'a [u8], _: &'p [LoadCommand]) -> Self {
            Self(super::PhantomData)
        }
    }
    impl<'a, 'p> LoadCommandIter<'a, 'p> {
        pub fn new(_: &'a [u8], _: &'p [LoadCommand]) -> Self {
            Self(super::PhantomData)
        }
    }
    pub fn dylib_ordinals<'a>(_: &'a [u8], _: &[LoadCommand]) -> Vec<&'a str> {
        Vec::new()
    }
}

pub mod segment {
    use crate::mach::Segment;
    super::iterators! { SegmentIter SectionIter }
    impl<'a, 'p> SegmentIter<'a, 'p> {
        pub fn new(_: &'p [Segment]) -> Self {
            Self(super::PhantomData)
        }
    }
    impl<'a, 'p> SectionIter<'a, 'p> {
        pub fn new(_: &'p [Segment]) -> Self {
            Self(super::PhantomData)
        }
    }
}

pub mod symbol {
    super::iterators! { SymbolIter }
    impl<'a, 'p> SymbolIter<'a, 'p> {
        pub fn new<T>(_: T) -> Self {
            Self(super::PhantomData)
        }
    }
}

pub mod dataincode {
    super::iterators! { DataInCodeIter }
    impl<'a, 'p> DataInCodeIter<'a, 'p> {
        pub fn new(_: &'a [u8], _: bool, _: Vec<(u64, u64, u64, u64)>) -> Self {
            Self(super::PhantomData)
        }
        pub fn empty() -> Self {
            Self(super::PhantomData)
        }
    }
}

pub mod export {
    pub struct ExportIter<'a>(super::PhantomData<&'a ()>);
    impl<'a> ExportIter<'a> {
        pub fn new(_: &'a [u8], _: Option<std::ops::Range<usize>>, _: &[&'a str]) -> Self {
            Self(super::PhantomData)
        }
    }
}

pub mod unwind {
    pub struct UnwindInfo<'a>(super::PhantomData<&'a ()>);
    impl<'a> UnwindInfo<'a> {
        pub fn parse(_: &'a [u8], _: u64) -> Option<Self> {
            None
        }
    }
}

pub mod codesign {
    pub struct Signature<'a>(super::PhantomData<&'a ()>);
    impl<'a> Signature<'a> {
        pub fn parse(_: &'a [u8], _: usize) -> Option<Self> {
            None
        }
    }
}

/// One bind, as the Rust's import.rs declares it. The streams of bind opcodes are kept as binary.rs hands them over; nothing reads them here.
pub mod import {
    use std::{ops::Range, sync::Arc};
    pub struct BindSegment {
        pub vmaddr: u64,
        pub vmsize: u64,
        pub fileoff: u64,
        pub filesize: u64,
    }
    pub struct BindImage<'a> {
        pub data: &'a [u8],
        pub segments: Vec<BindSegment>,
        pub dylibs: Vec<&'a str>,
        pub pointer_size: u8,
    }
    pub struct BindStream<'a> {
        pub image: Arc<BindImage<'a>>,
        pub range: Range<usize>,
        pub is_lazy: bool,
    }
    impl<'a> BindStream<'a> {
        pub fn new(image: Arc<BindImage<'a>>, range: Range<usize>, is_lazy: bool) -> Self {
            Self { image, range, is_lazy }
        }
    }
    pub struct Import<'a> {
        pub name: &'a str,
        pub dylib: &'a str,
        pub is_lazy: bool,
        pub is_weak: bool,
        pub offset: u64,
        pub size: usize,
        pub address: u64,
        pub addend: i64,
        pub bind_offset: u64,
    }
    pub struct ImportIter<'a> {
        pub legacy: Vec<BindStream<'a>>,
        chained: std::vec::IntoIter<Import<'a>>,
    }
    impl<'a> ImportIter<'a> {
        pub fn new(legacy: Vec<BindStream<'a>>, chained: Vec<Import<'a>>) -> Self {
            Self { legacy, chained: chained.into_iter() }
        }
    }
    impl<'a> Iterator for ImportIter<'a> {
        type Item = Import<'a>;
        fn next(&mut self) -> Option<Import<'a>> {
            self.chained.next()
        }
    }
}

macro_rules! runtimes {
    ($($module:ident $name:ident)*) => { $(pub mod $module {
        pub struct $name<'a>(std::marker::PhantomData<&'a ()>);
        impl<'a> $name<'a> {
            pub fn build(_: &crate::binary::MachoBinary<'a>) -> Option<Self> {
                None
            }
        }
    })* };
}
runtimes! { objc ObjcRuntime cfstring CFStringRuntime block BlockRuntime swift SwiftRuntime }

/// What the iterators that are never asked would give.
pub struct Item<'a>(PhantomData<&'a ()>);

impl<'a> Item<'a> {
    pub fn name(&self) -> &'a str {
        ""
    }
    pub fn segname(&self) -> &'a str {
        ""
    }
    pub fn sectname(&self) -> &'a str {
        ""
    }
    pub fn body(&self) -> &'a [u8] {
        &[]
    }
    pub fn vmaddr(&self) -> u64 {
        0
    }
}
