//! One record of a table: 40 bytes, little endian.

/// Bytes of a record.
pub const RECORD_BYTES: usize = 40;
/// The most records a table holds.
pub const MOST_RECORDS: usize = 1600;
/// Bytes that no part of a record uses.
const SPARE_BYTES: [usize; 10] = [26, 27, 30, 31, 34, 35, 36, 37, 38, 39];

/// The kinds of record, by document 01's numbers.
pub mod kind {
    pub const CHECKSUM: u8 = 1;
    pub const CUSTOM: u8 = 2;
    pub const ENUM: u8 = 3;
    pub const PACKET: u8 = 4;
    pub const STRUCT: u8 = 5;
    pub const GROUP: u8 = 6;
    pub const TEST: u8 = 7;
    pub const CONSTRAINT: u8 = 10;
    pub const CONDITION: u8 = 11;
    pub const FLAG_ENTRY: u8 = 12;
    pub const CHECKSUM_FIELD: u8 = 20;
    pub const PADDING: u8 = 21;
    pub const SIZE: u8 = 22;
    pub const COUNT: u8 = 23;
    pub const ELEMENT_SIZE: u8 = 24;
    pub const BODY: u8 = 25;
    pub const PAYLOAD: u8 = 26;
    pub const FIXED_SCALAR: u8 = 27;
    pub const FIXED_ENUM: u8 = 28;
    pub const RESERVED: u8 = 29;
    pub const ARRAY: u8 = 30;
    pub const SCALAR: u8 = 31;
    pub const FLAG: u8 = 32;
    pub const TYPEDEF: u8 = 33;
    pub const GROUP_FIELD: u8 = 34;
    pub const TAG_VALUE: u8 = 40;
    pub const TAG_RANGE: u8 = 41;
    pub const INNER_VALUE: u8 = 42;
    pub const DEFAULT_TAG: u8 = 43;
}

/// A record, without its spare bytes.
#[derive(Clone, Copy, Debug, Default, PartialEq, Eq)]
pub struct Record {
    pub kind: u8,
    pub marks: u8,
    pub name: u16,
    pub second: u16,
    pub third: u16,
    pub one: u64,
    pub two: u64,
    pub key: u16,
    pub start: u16,
    pub end: u16,
}

impl Record {
    /// A record of a kind, all else zero.
    pub fn of(kind: u8) -> Record {
        Record { kind, ..Record::default() }
    }

    /// Reads a record from its 40 bytes.
    pub fn decode(bytes: &[u8]) -> Record {
        let short = |at: usize| u16::from_le_bytes([bytes[at], bytes[at + 1]]);
        let long = |at: usize| u64::from_le_bytes(bytes[at..at + 8].try_into().expect("8 bytes"));
        Record {
            kind: bytes[0],
            marks: bytes[1],
            name: short(2),
            second: short(4),
            third: short(6),
            one: long(8),
            two: long(16),
            key: short(24),
            start: short(28),
            end: short(32),
        }
    }

    /// Writes a record as its 40 bytes.
    pub fn encode(&self) -> [u8; RECORD_BYTES] {
        let mut bytes = [0; RECORD_BYTES];
        bytes[0] = self.kind;
        bytes[1] = self.marks;
        bytes[2..4].copy_from_slice(&self.name.to_le_bytes());
        bytes[4..6].copy_from_slice(&self.second.to_le_bytes());
        bytes[6..8].copy_from_slice(&self.third.to_le_bytes());
        bytes[8..16].copy_from_slice(&self.one.to_le_bytes());
        bytes[16..24].copy_from_slice(&self.two.to_le_bytes());
        bytes[24..26].copy_from_slice(&self.key.to_le_bytes());
        bytes[28..30].copy_from_slice(&self.start.to_le_bytes());
        bytes[32..34].copy_from_slice(&self.end.to_le_bytes());
        bytes
    }

    /// Whether mark bit `bit` is set.
    pub fn has_mark(&self, bit: u8) -> bool {
        self.marks >> bit & 1 == 1
    }

    /// Whether this record opens a declaration.
    pub fn is_declaration(&self) -> bool {
        (kind::CHECKSUM..=kind::TEST).contains(&self.kind)
    }

    /// Whether this record is a field.
    pub fn is_field(&self) -> bool {
        (kind::CHECKSUM_FIELD..=kind::GROUP_FIELD).contains(&self.kind)
    }
}

/// Whether the spare bytes of a record's 40 bytes are all zero.
pub fn spare_bytes_are_zero(bytes: &[u8]) -> bool {
    SPARE_BYTES.iter().all(|&at| bytes[at] == 0)
}

/// Writes a table as bytes.
pub fn encode_table(table: &[Record]) -> Vec<u8> {
    table.iter().flat_map(Record::encode).collect()
}
