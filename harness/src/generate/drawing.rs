//! Drawings as loose records, and the bytes they make.

/// The type bytes in the format's own names.
pub const LIBRARY: u8 = 0;
pub const STRUCT: u8 = 1;
pub const CPRPTY: u8 = 2;
pub const PROPERTY: u8 = 3;
pub const LAYER: u8 = 4;
pub const BOX: u8 = 5;
pub const POLY: u8 = 6;
pub const WIRE: u8 = 7;
pub const TEXT: u8 = 8;
pub const SREF: u8 = 9;
pub const ENDLIB: u8 = 10;
/// The first of the unknown types.
pub const UNKNOWN: u8 = 11;

/// The longest body an even record size leaves.
pub const LONGEST_BODY: usize = 65_530;

/// One record, good or bad; its size is that of its body and header.
#[derive(Clone, Debug, PartialEq, Eq)]
pub struct Loose {
    pub type_byte: u8,
    pub flags: u8,
    pub body: Vec<u8>,
}

impl Loose {
    pub fn new(type_byte: u8, flags: u8, body: Body) -> Loose {
        Loose {
            type_byte,
            flags,
            body: body.0,
        }
    }

    pub fn size(&self) -> usize {
        4 + self.body.len()
    }

    pub fn is_unknown(&self) -> bool {
        self.type_byte >= UNKNOWN
    }

    pub fn push_to(&self, bytes: &mut Vec<u8>) {
        let size = u16::try_from(self.size()).expect("the body fits a record");
        bytes.extend(size.to_be_bytes());
        bytes.extend([self.type_byte, self.flags]);
        bytes.extend(&self.body);
    }
}

/// A record body in the making.
#[derive(Clone, Debug, Default)]
pub struct Body(pub Vec<u8>);

impl Body {
    pub fn new() -> Body {
        Body::default()
    }

    pub fn bytes(mut self, bytes: &[u8]) -> Body {
        self.0.extend(bytes);
        self
    }

    pub fn shorts(mut self, shorts: &[i16]) -> Body {
        self.0.extend(shorts.iter().flat_map(|n| n.to_be_bytes()));
        self
    }

    pub fn longs(mut self, longs: &[i32]) -> Body {
        self.0.extend(longs.iter().flat_map(|n| n.to_be_bytes()));
        self
    }

    /// A text and its one or two zero bytes.
    pub fn string(mut self, text: &[u8]) -> Body {
        self.0.extend(text);
        self.0.push(0);
        if text.len().is_multiple_of(2) {
            self.0.push(0);
        }
        self
    }
}

/// The records of a file in their order.
#[derive(Clone, Debug, Default, PartialEq, Eq)]
pub struct Drawing {
    pub records: Vec<Loose>,
}

impl Drawing {
    pub fn of(records: Vec<Loose>) -> Drawing {
        Drawing { records }
    }

    pub fn push(&mut self, record: Loose) {
        self.records.push(record);
    }

    pub fn bytes(&self) -> Vec<u8> {
        let mut bytes = b"cgx\0".to_vec();
        for record in &self.records {
            record.push_to(&mut bytes);
        }
        bytes
    }

    /// Where record `i` begins; with `i` one past the last, where the file ends.
    pub fn offset_of(&self, i: usize) -> usize {
        4 + self.records[..i].iter().map(Loose::size).sum::<usize>()
    }

    /// Where each record begins.
    pub fn offsets(&self) -> Vec<usize> {
        (0..self.records.len()).map(|i| self.offset_of(i)).collect()
    }
}

/// The real 1.
pub const ONE: [u8; 8] = [0x41, 0x10, 0, 0, 0, 0, 0, 0];
/// The real 0.001 of paper 004.
pub const THOUSANDTH: [u8; 8] = [0x3e, 0x41, 0x89, 0x37, 0x4b, 0xc6, 0xa7, 0xf0];
/// 6 February 2025, 14:09:45.
pub const SOME_DATE: [u8; 8] = [0x07, 0xe9, 2, 6, 14, 9, 45, 0];

/// A small good record of a known type.
pub fn plain(type_byte: u8) -> Loose {
    let body = Body::new();
    let body = match type_byte {
        LIBRARY => body
            .bytes(&THOUSANDTH)
            .bytes(&ONE)
            .bytes(&SOME_DATE)
            .bytes(&SOME_DATE)
            .string(b"m"),
        STRUCT => body.bytes(&SOME_DATE).bytes(&SOME_DATE).string(b"a"),
        CPRPTY | PROPERTY => body.longs(&[7]).string(b"p"),
        LAYER => body.shorts(&[1, 0]),
        BOX => body.longs(&[-80, -57, 82, 58]),
        POLY => body.longs(&[-80, -57, 82, -57, 82, 58, -80, 58, -80, -57]),
        WIRE => body.longs(&[2, 0, 0, 10, 0]),
        TEXT => body.longs(&[1, 2, 3]).string(b"label"),
        SREF => body.longs(&[1, 2]).string(b"a"),
        ENDLIB => body,
        _ => body.bytes(b"odd "),
    };
    Loose::new(type_byte, 0, body)
}

/// Whether a type is one of those that take a property run.
pub fn is_object(type_byte: u8) -> bool {
    (BOX..=SREF).contains(&type_byte)
}
