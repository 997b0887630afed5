//! What the Rust does not give, computed apart from document 01 alone ("Reading rules", "Lists", "Rows") and, of ivars,
//! note 8 (and, under the new reading, note 12): the addresses of a record's lists, which are private there; the readable entries, which line E counts; the
//! rows at indices that the Rust, which tries each index in turn, would reach too late; which alignment words are none,
//! and whether an offset is aligned.

use std::collections::HashMap;

use crate::binary::MachoBinary;
use crate::line::Line;

#[derive(Clone, Copy, PartialEq)]
pub enum Kind {
    Method,
    Ivar,
    Property,
}

#[derive(Clone, Copy, PartialEq)]
enum Form {
    Legacy,
    Indirect,
    Direct,
    Ivar,
    Property,
}

pub struct List {
    first: u64,
    size: u64,
    pub count: u64,
    form: Form,
    least: u64,
}

#[derive(Default)]
pub struct Apart<'a> {
    image: &'a [u8],
    segments: Vec<[u64; 4]>,
    rebases: HashMap<u64, u64>,
}

const LOW_48: u64 = 0x0000_FFFF_FFFF_FFFF;

fn u32_in(bytes: &[u8], at: usize) -> u32 {
    u32::from_le_bytes(bytes[at..at + 4].try_into().unwrap())
}

/// An alignment word's log2, unless it is none.
fn alignment(word: u32) -> Option<u32> {
    match word {
        0xFFFF_FFFF => Some(3),
        0..=63 => Some(word),
        _ => None,
    }
}

/// 1 or 0: whether the offset is a multiple of 2 to the alignment.
pub fn aligned(offset: Option<u32>, log2: Option<u32>) -> Option<u64> {
    Some((u64::from(offset?) % 1u64.checked_shl(log2?)? == 0).into())
}

impl<'a> Apart<'a> {
    pub fn new(bin: &MachoBinary<'a>) -> Self {
        Apart {
            image: bin.image,
            segments: bin.segments.iter().map(|s| s.0).collect(),
            rebases: bin.rebases.iter().map(|r| (r.0[0], r.0[1])).collect(),
        }
    }

    fn lookup(&self, a: u64) -> Option<u64> {
        for &[vmaddr, vmsize, fileoff, filesize] in &self.segments {
            let end = vmaddr.checked_add(vmsize)?;
            if filesize > 0 && vmaddr <= a && a < end {
                let distance = a - vmaddr;
                return if distance < filesize { fileoff.checked_add(distance) } else { None };
            }
        }
        None
    }

    fn read(&self, a: u64, k: u64) -> Option<&'a [u8]> {
        let off = self.lookup(a)?;
        let end = off.checked_add(k)?;
        if end > self.image.len() as u64 {
            return None;
        }
        Some(&self.image[off as usize..end as usize])
    }

    fn text(&self, a: u64) -> Option<&'a str> {
        if a == 0 {
            return None;
        }
        let off = self.lookup(a)?;
        if off > self.image.len() as u64 {
            return None;
        }
        let tail = &self.image[off as usize..];
        if cfg!(ended) && !tail.contains(&0) {
            return None;
        }
        core::str::from_utf8(tail.split(|&b| b == 0).next().unwrap()).ok()
    }

    fn slot(&self, a: u64) -> Option<u64> {
        if let Some(&target) = self.rebases.get(&a) {
            return Some(target);
        }
        let bytes = self.read(a, 8)?;
        Some(u64::from_le_bytes(bytes.try_into().unwrap()) & LOW_48)
    }

    /// The pointer slot `off` bytes into the record at `a`, or 0.
    pub fn field(&self, a: u64, off: u64) -> u64 {
        a.checked_add(off).and_then(|s| self.slot(s)).unwrap_or(0)
    }

    /// The list at `a`, unless it is absent.
    pub fn list(&self, a: u64, kind: Kind) -> Option<List> {
        if a == 0 || (kind != Kind::Ivar && a % 2 == 1) {
            return None;
        }
        let head = self.read(a, 8)?;
        let first = a.checked_add(8)?;
        let word = u32_in(head, 0);
        let (size, form, least) = match kind {
            Kind::Ivar => (word, Form::Ivar, 32),
            Kind::Property => (word, Form::Property, 16),
            Kind::Method if word & 0x8000_0000 == 0 => (word & 0xFFFC, Form::Legacy, 24),
            Kind::Method if word & 0x4000_0000 == 0 => (word & 0xFFFC, Form::Indirect, 12),
            Kind::Method => (word & 0xFFFC, Form::Direct, 12),
        };
        if size < least {
            return None;
        }
        Some(List { first, size: size.into(), count: u32_in(head, 4).into(), form, least: least.into() })
    }

    fn entry(&self, list: &List, index: u64) -> Option<u64> {
        // Both factors are below 2^32.
        list.first.checked_add(index * list.size)
    }

    fn readable(&self, list: &List, entry: u64) -> bool {
        self.read(entry, list.least).is_some()
    }

    /// Indices of the list's readable entries, ascending.
    ///
    /// Between two neighbours among the segments' first addresses and ends, one segment decides, and an entry that
    /// cannot be read there has none behind it that can: the distance only grows. So the next to try is the first
    /// entry at or past the least such address above.
    pub fn readables(&self, list: &List) -> Vec<u64> {
        let mut found = Vec::new();
        let mut index = 0;
        while index < list.count {
            let Some(entry) = self.entry(list, index) else { break };
            if self.readable(list, entry) {
                found.push(index);
                index += 1;
                continue;
            }
            let ends = self.segments.iter().flat_map(|s| [Some(s[0]), s[0].checked_add(s[1])]).flatten();
            let Some(next) = ends.filter(|&b| b > entry).min() else { break };
            index = (next - list.first).div_ceil(list.size);
        }
        found
    }

    /// The same by trying each index, for lists that are short enough.
    pub fn readables_by_trying(&self, list: &List) -> Vec<u64> {
        (0..list.count).filter(|&i| self.entry(list, i).is_some_and(|e| self.readable(list, e))).collect()
    }

    /// Of each row of the ivar list at `a`, in order: whether its alignment word is an alignment.
    pub fn alignments(&self, a: u64) -> Vec<bool> {
        let Some(list) = self.list(a, Kind::Ivar) else { return Vec::new() };
        let rows = self.readables(&list).into_iter().filter(|&i| self.row(&list, i, 0).is_some());
        let words = rows.filter_map(|i| Some(u32_in(self.read(self.entry(&list, i)?, list.least)?, 24)));
        words.map(|word| alignment(word).is_some()).collect()
    }

    /// The line of a readable entry in list number `number`, or None if the entry is skipped.
    pub fn row(&self, list: &List, index: u64, number: u64) -> Option<Vec<u8>> {
        let e = self.entry(list, index)?;
        let bytes = self.read(e, list.least)?;
        let line = match list.form {
            Form::Legacy => {
                let (selector, types) = (self.slot(e)?, self.slot(e.checked_add(8)?)?);
                let imp = self.slot(e.checked_add(16)?).filter(|&imp| imp != 0);
                let types = self.text(types).unwrap_or("");
                Line::new('m').hex(number).text(self.text(selector)?).text(types).hex_or_none(imp).hex(0u64)
            }
            Form::Indirect | Form::Direct => {
                let offset = |at: usize| u32_in(bytes, at) as i32;
                let target = |at: u64, off: i32| at.wrapping_add_signed(off.into());
                let (types_at, imp_at) = (e.checked_add(4)?, e.checked_add(8)?);
                let direct = list.form == Form::Direct;
                let mut selector = target(e, offset(0));
                if !direct {
                    selector = self.slot(selector)?;
                }
                let types = self.text(target(types_at, offset(4))).unwrap_or("");
                let imp = (offset(8) != 0).then(|| target(imp_at, offset(8)) & LOW_48);
                let kind = if direct { 2u64 } else { 1 };
                Line::new('m').hex(number).text(self.text(selector)?).text(types).hex_or_none(imp).hex(kind)
            }
            Form::Ivar => {
                let place = self.slot(e).filter(|&place| place != 0);
                let name = self.slot(e.checked_add(8)?)?;
                let kind = self.slot(e.checked_add(16)?).and_then(|a| self.text(a)).unwrap_or("");
                let offset = place.and_then(|a| self.read(a, 4)).map(|b| u32_in(b, 0));
                let log2 = alignment(u32_in(bytes, 24));
                let line = Line::new('v').hex(number).text(self.text(name)?).text(kind);
                line.hex_or_none(offset).hex(u32_in(bytes, 28)).hex_or_none(log2).hex_or_none(aligned(offset, log2))
            }
            Form::Property => {
                let name = self.slot(e)?;
                let attributes = self.slot(e.checked_add(8)?).and_then(|a| self.text(a)).unwrap_or("");
                Line::new('p').hex(number).text(self.text(name)?).text(attributes)
            }
        };
        Some(line.end())
    }
}
