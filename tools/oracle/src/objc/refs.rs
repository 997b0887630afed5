//! Stand-in: mod.rs names this file, which is not there; the listing has no reference sections.
use crate::objc::ObjcRuntime;

pub struct RefTarget;
pub struct SelRef;

macro_rules! walkers {
    ($($name:ident)*) => {$(
        pub struct $name<'a, 'p>(&'p ObjcRuntime<'a>);
        impl<'a, 'p> $name<'a, 'p> {
            pub fn new(rt: &'p ObjcRuntime<'a>) -> Self {
                Self(rt)
            }
        }
    )*};
}

walkers! { ClassRefIter ProtoRefIter SelRefIter SuperRefIter }
