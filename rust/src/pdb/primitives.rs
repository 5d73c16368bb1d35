use super::TypeIndex;

macro_rules! kinds {
    ($($(#[$about:meta])* $kind:ident = $number:literal)*) => {
        /// The kinds of primitive types.
        #[derive(Debug, Clone, Copy, PartialEq, Eq, Hash)]
        #[non_exhaustive]
        #[allow(clippy::upper_case_acronyms)] // the names in that crate
        pub enum PrimitiveKind { $($(#[$about])* $kind,)* }

        impl PrimitiveKind {
            fn of(number: u32) -> Option<PrimitiveKind> {
                match number {
                    $($number => Some(PrimitiveKind::$kind),)*
                    _ => None,
                }
            }
        }
    };
}

kinds! {
    /// No type is stated.
    NoType = 0x00
    /// `void`.
    Void = 0x03
    /// The result of an OLE call.
    HRESULT = 0x08
    /// A signed character of 8 bits.
    Char = 0x10
    /// A signed `short`, of 16 bits.
    Short = 0x11
    /// A signed `long`, of 32 bits.
    Long = 0x12
    /// A signed quadword, of 64 bits.
    Quad = 0x13
    /// A signed octaword, of 128 bits.
    Octa = 0x14
    /// An unsigned character of 8 bits.
    UChar = 0x20
    /// An unsigned `short`, of 16 bits.
    UShort = 0x21
    /// An unsigned `long`, of 32 bits.
    ULong = 0x22
    /// An unsigned quadword, of 64 bits.
    UQuad = 0x23
    /// An unsigned octaword, of 128 bits.
    UOcta = 0x24
    /// A truth value of 8 bits.
    Bool8 = 0x30
    /// A truth value of 16 bits.
    Bool16 = 0x31
    /// A truth value of 32 bits.
    Bool32 = 0x32
    /// A truth value of 64 bits.
    Bool64 = 0x33
    /// A floating-point number of 32 bits.
    F32 = 0x40
    /// A floating-point number of 64 bits.
    F64 = 0x41
    /// A floating-point number of 80 bits.
    F80 = 0x42
    /// A floating-point number of 128 bits.
    F128 = 0x43
    /// A floating-point number of 48 bits.
    F48 = 0x44
    /// A floating-point number of 32 bits with partial precision.
    F32PP = 0x45
    /// A floating-point number of 16 bits.
    F16 = 0x46
    /// A complex number of 32 bits each.
    Complex32 = 0x50
    /// A complex number of 64 bits each.
    Complex64 = 0x51
    /// A complex number of 80 bits each.
    Complex80 = 0x52
    /// A complex number of 128 bits each.
    Complex128 = 0x53
    /// A signed number of 8 bits.
    I8 = 0x68
    /// An unsigned number of 8 bits.
    U8 = 0x69
    /// A character of 8 bits.
    RChar = 0x70
    /// A wide character.
    WChar = 0x71
    /// A signed number of 16 bits.
    I16 = 0x72
    /// An unsigned number of 16 bits.
    U16 = 0x73
    /// A signed number of 32 bits.
    I32 = 0x74
    /// An unsigned number of 32 bits.
    U32 = 0x75
    /// A signed number of 64 bits.
    I64 = 0x76
    /// An unsigned number of 64 bits.
    U64 = 0x77
    /// A signed number of 128 bits.
    I128 = 0x78
    /// An unsigned number of 128 bits.
    U128 = 0x79
    /// A character of 16 bits.
    RChar16 = 0x7a
    /// A character of 32 bits.
    RChar32 = 0x7b
}

/// How a primitive type is pointed at.
#[derive(Debug, Clone, Copy, PartialEq, Eq, Hash)]
pub enum Indirection {
    /// By 16 bits, within a segment.
    Near16,
    /// By a segment and 16 bits.
    Far16,
    /// By a segment and 16 bits, where sums carry into the segment.
    Huge16,
    /// By 32 bits.
    Near32,
    /// By a segment and 32 bits.
    Far32,
    /// By 64 bits.
    Near64,
    /// By 128 bits.
    Near128,
}

/// A primitive type, or a pointer to one.
#[derive(Debug, Clone, Copy, PartialEq, Eq, Hash)]
pub struct PrimitiveType {
    /// Which one it is.
    pub kind: PrimitiveKind,
    /// How it is pointed at, None for the type itself.
    pub indirection: Option<Indirection>,
}

impl PrimitiveType {
    /// The primitive type of an index, if one has it.
    pub(super) fn of(index: TypeIndex) -> Option<PrimitiveType> {
        use Indirection::*;
        let modes =
            [None, Some(Near16), Some(Far16), Some(Huge16), Some(Near32), Some(Far32), Some(Near64), Some(Near128)];
        let indirection = *modes.get(index.0 as usize >> 8)?;
        Some(PrimitiveType { kind: PrimitiveKind::of(index.0 & 0xff)?, indirection })
    }
}
