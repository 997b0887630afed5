//! Stand-in for `goblin::mach`, which the Rust's binary.rs reads its header and commands with and which is not there: the second reader's commands.

#[derive(Debug)]
pub struct Segment {
    pub segname: [u8; 16],
    pub vmaddr: u64,
    pub vmsize: u64,
    pub fileoff: u64,
    pub filesize: u64,
}

#[derive(Debug)]
pub struct MachO<'a> {
    pub header: header::Header,
    pub is_64: bool,
    pub little_endian: bool,
    pub segments: Vec<Segment>,
    pub load_commands: Vec<load_command::LoadCommand>,
    pub symbols: Option<Vec<&'a ()>>,
}

impl<'a> MachO<'a> {
    pub fn parse(file: &'a [u8], _: usize) -> Result<Self, u64> {
        let commands = crate::reader::commands(file)?;
        let segments = crate::reader::segments(file, &commands);
        let load_commands = commands.iter().map(|c| load_command::of(file, c)).collect();
        Ok(MachO { header: header::Header::default(), is_64: true, little_endian: true, segments, load_commands, symbols: None })
    }
}

pub struct Arch;

impl Arch {
    pub fn slice<'a>(&self, data: &'a [u8]) -> &'a [u8] {
        data
    }
}

pub struct MultiArch {
    pub narches: usize,
}

impl MultiArch {
    pub fn iter_arches(&self) -> std::vec::IntoIter<Result<Arch, u64>> {
        Vec::new().into_iter()
    }
}

pub enum Mach<'a> {
    Fat(MultiArch),
    Binary(MachO<'a>),
}

impl<'a> Mach<'a> {
    pub fn parse(file: &'a [u8]) -> Result<Self, u64> {
        MachO::parse(file, 0).map(Mach::Binary)
    }
}

pub mod header {
    #[derive(Debug, Default)]
    pub struct Header {
        pub magic: u32,
        pub cputype: u32,
        pub cpusubtype: u32,
        pub filetype: u32,
        pub ncmds: usize,
        pub sizeofcmds: u32,
        pub flags: u32,
        pub reserved: u32,
    }
}

pub mod load_command {
    pub const LC_VERSION_MIN_MACOSX: u32 = 0x24;
    pub const LC_VERSION_MIN_IPHONEOS: u32 = 0x25;
    pub const LC_VERSION_MIN_TVOS: u32 = 0x2F;
    pub const LC_VERSION_MIN_WATCHOS: u32 = 0x30;
    pub const PLATFORM_MACOS: u32 = 1;
    pub const PLATFORM_IOS: u32 = 2;
    pub const PLATFORM_TVOS: u32 = 3;
    pub const PLATFORM_WATCHOS: u32 = 4;

    macro_rules! command {
        ($($name:ident { $($field:ident: $ty:ty),* })*) => { $(
            #[derive(Debug, Clone, Copy)]
            pub struct $name { $(pub $field: $ty),* }
        )* };
    }
    command! {
        LinkeditDataCommand { dataoff: u32, datasize: u32 }
        DyldInfoCommand { bind_off: u32, bind_size: u32, lazy_bind_off: u32, lazy_bind_size: u32, export_off: u32, export_size: u32 }
        UuidCommand { uuid: [u8; 16] }
        BuildVersionCommand { platform: u32, minos: u32, sdk: u32, ntools: u32 }
        VersionMinCommand { cmd: u32, version: u32, sdk: u32 }
        SourceVersionCommand { version: u64 }
        DylinkerCommand { name: u32 }
    }

    #[derive(Debug)]
    pub enum CommandVariant {
        Uuid(UuidCommand),
        BuildVersion(BuildVersionCommand),
        VersionMinMacosx(VersionMinCommand),
        VersionMinIphoneos(VersionMinCommand),
        VersionMinTvos(VersionMinCommand),
        VersionMinWatchos(VersionMinCommand),
        SourceVersion(SourceVersionCommand),
        LoadDylinker(DylinkerCommand),
        FunctionStarts(LinkeditDataCommand),
        DataInCode(LinkeditDataCommand),
        DyldChainedFixups(LinkeditDataCommand),
        CodeSignature(LinkeditDataCommand),
        DyldInfo(DyldInfoCommand),
        DyldInfoOnly(DyldInfoCommand),
        DyldExportsTrie(LinkeditDataCommand),
        Other(usize),
    }

    impl CommandVariant {
        pub fn cmdsize(&self) -> usize {
            if let CommandVariant::Other(n) = self { *n } else { 16 }
        }
    }

    #[derive(Debug)]
    pub struct LoadCommand {
        pub offset: usize,
        pub command: CommandVariant,
    }

    /// Chained fixups of 16 bytes or more and bind opcodes of 48 or more; every other command is no matter here.
    pub fn of(file: &[u8], c: &crate::reader::Command) -> LoadCommand {
        let word = |i: usize| u32::from_le_bytes(file[c.at + i..c.at + i + 4].try_into().unwrap());
        let command = if c.cmd == 0x8000_0034 && c.cmdsize >= 16 {
            CommandVariant::DyldChainedFixups(LinkeditDataCommand { dataoff: word(8), datasize: word(12) })
        } else if (c.cmd == 0x22 || c.cmd == 0x8000_0022) && c.cmdsize >= 48 {
            let (bind_off, bind_size, lazy_bind_off, lazy_bind_size) = (word(16), word(20), word(32), word(36));
            CommandVariant::DyldInfo(DyldInfoCommand { bind_off, bind_size, lazy_bind_off, lazy_bind_size, export_off: 0, export_size: 0 })
        } else {
            CommandVariant::Other(c.cmdsize)
        };
        LoadCommand { offset: c.at, command }
    }
}
