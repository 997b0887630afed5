//! The oracle's own test of the ends (document 02, note 12), for the new reading, which the Rust does not have: a string
//! that no zero byte ends is absent, the others are the Rust's. `build.sh` puts it in place of the Rust's function.

pub fn read_cstr_at(data: &[u8], off: usize) -> Option<&str> {
    if !data.get(off..)?.contains(&0) {
        return None;
    }
    crate::util::read_cstr_at(data, off)
}
