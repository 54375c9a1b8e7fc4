//! The 32-byte record of document 01's replay program.

/// Document 01's page flags.
pub mod flag {
    pub const LOADED: u8 = 1;
    pub const LOCKED: u8 = 2;
    pub const DIRTY: u8 = 4;
    pub const SPILLED: u8 = 8;
    pub const WAL_TAG: u8 = 16;
    /// Flags above this one are a bad page record.
    pub const ALL: u8 = 31;
}

/// The replay program's calls, by the names of docs/calls.tsv; each one's number is
/// its place here.
#[derive(Clone, Copy, Debug, PartialEq, Eq, PartialOrd, Ord)]
pub enum Operation {
    Create,
    Insert,
    ForceInsert,
    ForceUpsert,
    Get,
    Peek,
    Delete,
    Resize,
    Truncate,
    RemoveFrames,
    Clear,
    NotifyDirty,
    NotifySpilled,
    WriteRecord,
    CheckSpill,
    EvictOne,
    SetSpill,
    Release,
}

impl Operation {
    pub const ALL: [Operation; 18] = [
        Operation::Create,
        Operation::Insert,
        Operation::ForceInsert,
        Operation::ForceUpsert,
        Operation::Get,
        Operation::Peek,
        Operation::Delete,
        Operation::Resize,
        Operation::Truncate,
        Operation::RemoveFrames,
        Operation::Clear,
        Operation::NotifyDirty,
        Operation::NotifySpilled,
        Operation::WriteRecord,
        Operation::CheckSpill,
        Operation::EvictOne,
        Operation::SetSpill,
        Operation::Release,
    ];

    pub fn from_number(number: u8) -> Option<Self> {
        Self::ALL.get(usize::from(number)).copied()
    }

    pub fn number(self) -> u8 {
        self as u8
    }

    pub fn is_insertion(self) -> bool {
        matches!(self, Self::Insert | Self::ForceInsert | Self::ForceUpsert)
    }

    pub fn takes_page_record(self) -> bool {
        self.is_insertion() || self == Self::WriteRecord
    }

    /// The number is a capacity.
    pub fn takes_capacity(self) -> bool {
        matches!(self, Self::Create | Self::Resize)
    }

    /// The Rust walks its map and removes what it meets.
    pub fn removes_in_a_walk(self) -> bool {
        matches!(self, Self::Truncate | Self::RemoveFrames | Self::Clear)
    }
}

/// What document 01 stores of a page beside its key and handle.
#[derive(Clone, Copy, Debug, Default, PartialEq, Eq)]
pub struct PageRecord {
    pub flags: u8,
    pub pins: u16,
    /// The Rust's strong count less the cache's own.
    pub holders: u16,
    pub overflow_cells: u8,
    pub frame: u64,
}

impl PageRecord {
    /// Neither loaded nor locked: a lookup or an insertion deletes such a page.
    pub fn is_stale(&self) -> bool {
        self.flags & (flag::LOADED | flag::LOCKED) == 0
    }
}

/// One record, good or bad, field by field.
#[derive(Clone, Copy, Debug, Default, PartialEq, Eq)]
pub struct Record {
    pub operation: u8,
    pub flags: u8,
    pub pins: u16,
    pub key: u32,
    pub handle: u32,
    pub holders: u16,
    pub overflow_cells: u8,
    pub option: u8,
    /// A capacity, a limit, the most to select, or a page's frame.
    pub number: u64,
    /// Bytes 24 to 31, zero in a good record.
    pub tail: u64,
}

impl Record {
    pub const LENGTH: usize = 32;

    pub fn new(operation: Operation) -> Self {
        Self {
            operation: operation.number(),
            ..Self::default()
        }
    }

    pub fn from_bytes(bytes: &[u8; Self::LENGTH]) -> Self {
        Self {
            operation: bytes[0],
            flags: bytes[1],
            pins: u16::from_le_bytes(bytes_from(bytes, 2)),
            key: u32::from_le_bytes(bytes_from(bytes, 4)),
            handle: u32::from_le_bytes(bytes_from(bytes, 8)),
            holders: u16::from_le_bytes(bytes_from(bytes, 12)),
            overflow_cells: bytes[14],
            option: bytes[15],
            number: u64::from_le_bytes(bytes_from(bytes, 16)),
            tail: u64::from_le_bytes(bytes_from(bytes, 24)),
        }
    }

    pub fn to_bytes(&self) -> [u8; Self::LENGTH] {
        let mut bytes = [0; Self::LENGTH];
        bytes[0] = self.operation;
        bytes[1] = self.flags;
        bytes[2..4].copy_from_slice(&self.pins.to_le_bytes());
        bytes[4..8].copy_from_slice(&self.key.to_le_bytes());
        bytes[8..12].copy_from_slice(&self.handle.to_le_bytes());
        bytes[12..14].copy_from_slice(&self.holders.to_le_bytes());
        bytes[14] = self.overflow_cells;
        bytes[15] = self.option;
        bytes[16..24].copy_from_slice(&self.number.to_le_bytes());
        bytes[24..32].copy_from_slice(&self.tail.to_le_bytes());
        bytes
    }

    /// The operation, or nothing if document 01 answers 17 to this record.
    pub fn good_operation(&self) -> Option<Operation> {
        if self.option > 1 || self.tail != 0 {
            return None;
        }
        Operation::from_number(self.operation)
    }

    /// The page record in it, for the operations that take one.
    pub fn page(&self) -> PageRecord {
        PageRecord {
            flags: self.flags,
            pins: self.pins,
            holders: self.holders,
            overflow_cells: self.overflow_cells,
            frame: self.number,
        }
    }

    pub fn with_page(self, page: &PageRecord) -> Self {
        Self {
            flags: page.flags,
            pins: page.pins,
            holders: page.holders,
            overflow_cells: page.overflow_cells,
            number: page.frame,
            ..self
        }
    }
}

fn bytes_from<const N: usize>(bytes: &[u8; Record::LENGTH], first: usize) -> [u8; N] {
    std::array::from_fn(|at| bytes[first + at])
}
