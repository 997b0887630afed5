//! Stand-in: mod.rs names this file, which is not there; the listing does not use it.
use crate::objc::ObjcRuntime;

pub struct ConformanceEdge;

pub struct ConformanceIter<'a, 'p>(&'p ObjcRuntime<'a>);

impl<'a, 'p> ConformanceIter<'a, 'p> {
    pub fn new(rt: &'p ObjcRuntime<'a>) -> Self {
        Self(rt)
    }
}
