//! The eleven known kinds of record and their limits.

/// A known record kind. Its number is the type byte of the record.
#[derive(Clone, Copy, Debug, PartialEq, Eq, Hash)]
#[repr(u8)]
pub enum Kind {
    Library = 0,
    Struct = 1,
    Cprpty = 2,
    Property = 3,
    Layer = 4,
    Box = 5,
    Poly = 6,
    Wire = 7,
    Text = 8,
    Sref = 9,
    Endlib = 10,
}

impl Kind {
    /// All kinds, in the order of their type bytes.
    pub const ALL: [Kind; 11] = [
        Kind::Library,
        Kind::Struct,
        Kind::Cprpty,
        Kind::Property,
        Kind::Layer,
        Kind::Box,
        Kind::Poly,
        Kind::Wire,
        Kind::Text,
        Kind::Sref,
        Kind::Endlib,
    ];

    /// The kind of a type byte; none for the unknown types 11 to 255.
    #[inline]
    pub fn of(type_byte: u8) -> Option<Kind> {
        Kind::ALL.get(usize::from(type_byte)).copied()
    }

    pub fn name(self) -> &'static str {
        match self {
            Kind::Library => "LIBRARY",
            Kind::Struct => "STRUCT",
            Kind::Cprpty => "CPRPTY",
            Kind::Property => "PROPERTY",
            Kind::Layer => "LAYER",
            Kind::Box => "BOX",
            Kind::Poly => "POLY",
            Kind::Wire => "WIRE",
            Kind::Text => "TEXT",
            Kind::Sref => "SREF",
            Kind::Endlib => "ENDLIB",
        }
    }

    /// The objects are the kinds that take a property run.
    #[inline]
    pub fn is_object(self) -> bool {
        matches!(
            self,
            Kind::Box | Kind::Poly | Kind::Wire | Kind::Text | Kind::Sref
        )
    }

    /// The flags that mean something, in their one normal way of saying it.
    #[inline]
    pub fn meaningful_flags(self, flags: u8) -> u8 {
        match self {
            Kind::Library | Kind::Wire | Kind::Sref => flags,
            Kind::Text => zero_place(zero_place(flags, 0x30), 0xc0),
            _ => 0,
        }
    }
}

/// A TEXT place with both its bits set means the same as one with none.
#[inline]
fn zero_place(flags: u8, place: u8) -> u8 {
    if flags & place == place {
        flags & !place
    } else {
        flags
    }
}

/// Sizes and repeat counts, in bytes and in items.
pub mod limits {
    /// The four bytes a file begins with.
    pub const FILE_HEADER: usize = 4;
    /// Size, type and flags of a record.
    pub const RECORD_HEADER: usize = 4;
    /// The largest even number the size field can hold.
    pub const LARGEST_RECORD: usize = 65_534;
    /// The shortest string field: two zero bytes.
    pub const SHORTEST_STRING: usize = 2;

    /// Body bytes before the string: two reals and two dates.
    pub const LIBRARY_FIXED: usize = 32;
    /// Body bytes before the string: two dates.
    pub const STRUCT_FIXED: usize = 16;
    /// Body bytes before the string of PROPERTY and CPRPTY: the number.
    pub const PROPERTY_FIXED: usize = 4;
    /// Body bytes before the optional string: number and data type.
    pub const LAYER_FIXED: usize = 4;
    /// Body bytes before the string: x, y, width.
    pub const TEXT_FIXED: usize = 12;
    /// Body bytes before the optional fields: x, y.
    pub const SREF_FIXED: usize = 8;
    /// Cols, rows and two points.
    pub const ARRAY: usize = 24;
    pub const REAL: usize = 8;

    /// Bytes of one box: left, bottom, right, top.
    pub const BOX: usize = 16;
    pub const MOST_BOXES: usize = 4_095;
    /// Bytes of one coordinate pair.
    pub const PAIR: usize = 8;
    pub const FEWEST_POLY_PAIRS: usize = 4;
    pub const MOST_POLY_PAIRS: usize = 8_191;
    pub const WIRE_FIXED: usize = 4;
    pub const FEWEST_WIRE_PAIRS: usize = 1;
    pub const MOST_WIRE_PAIRS: usize = 8_190;

    pub const HIGHEST_WIRE_STYLE: u8 = 2;
    /// Square ends, for a wire written without an end style.
    pub const DEFAULT_WIRE_STYLE: u8 = 2;
    pub const HIGHEST_SREF_FLAGS: u8 = 15;
    pub const SREF_ANGLE: u8 = 1;
    pub const SREF_MAGNIF: u8 = 2;
    pub const SREF_REFLECT: u8 = 4;
    pub const SREF_ARRAY: u8 = 8;
}
