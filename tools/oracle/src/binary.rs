//! Stand-in for binary.rs, which needs many files that are not there: the tables of a bundle under the names that
//! `ObjcRuntime::build` and section.rs call.

pub struct Header;

impl Header {
    pub fn is_64(&self) -> bool {
        true
    }
}

pub struct Import<'a> {
    pub address: u64,
    pub name: &'a str,
    pub dylib: &'a str,
}

/// vmaddr, vmsize, fileoff, filesize.
pub struct Segment(pub [u64; 4]);

impl Segment {
    pub fn vmaddr(&self) -> u64 {
        self.0[0]
    }
    pub fn vmsize(&self) -> u64 {
        self.0[1]
    }
    pub fn fileoff(&self) -> u64 {
        self.0[2]
    }
    pub fn filesize(&self) -> u64 {
        self.0[3]
    }
}

/// slot, target.
pub struct Rebase(pub [u64; 2]);

impl Rebase {
    pub fn vm_address(&self) -> u64 {
        self.0[0]
    }
    pub fn target_vmaddr(&self) -> u64 {
        self.0[1]
    }
}

pub struct Section<'a> {
    pub name: &'static str,
    pub body: &'a [u8],
    pub addr: u64,
}

impl<'a> Section<'a> {
    pub fn sectname(&self) -> &str {
        self.name
    }
    pub fn body(&self) -> &'a [u8] {
        self.body
    }
    pub fn addr(&self) -> u64 {
        self.addr
    }
}

pub struct MachoBinary<'a> {
    pub image: &'a [u8],
    pub segments: Vec<Segment>,
    pub sections: Vec<Section<'a>>,
    pub rebases: Vec<Rebase>,
    pub imports: Vec<Import<'a>>,
}

impl<'a> MachoBinary<'a> {
    pub fn header(&self) -> Header {
        Header
    }
    pub fn raw(&self) -> &'a [u8] {
        self.image
    }
    pub fn imports(&self) -> &[Import<'a>] {
        &self.imports
    }
    pub fn segments(&self) -> &[Segment] {
        &self.segments
    }
    pub fn sections(&self) -> &[Section<'a>] {
        &self.sections
    }
    pub fn chained_rebases(&self) -> &[Rebase] {
        &self.rebases
    }
}
