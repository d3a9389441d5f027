//! The columns of a message body, as the engine has them. `tools/columns` writes this file by the engine's own constants.

/// A column by the engine's name of it, its first byte and its width.
#[derive(Clone, Copy, Debug, PartialEq, Eq)]
#[non_exhaustive]
pub struct Column {
    pub name: &'static str,
    pub at: usize,
    pub width: usize,
}

/// Columns, each with its first byte and its width, and the list of them.
macro_rules! columns {
    ($about:literal $list:ident $($name:ident $at:literal $width:literal)*) => {
        $(pub const $name: Column = Column { name: stringify!($name), at: $at, width: $width };)*
        #[doc = $about]
        pub const $list: &[Column] = &[$($name),*];
    };
}

pub const HEADER_WIDTH: usize = 187;

columns! {
    "The columns of the header, in order."
    HEADER
    MESSAGE_TYPE 0 2
    SEQUENCE 2 6
    VERSION 8 3
    SUBSCRIBER 11 4
    CONNECTION 15 4
    SUBMITTER 19 4
    CONTRA 23 4
    CUSIP 27 9
    FILLER_ONE 36 1
    PAR 37 11
    FILLER_TWO 48 10
    PRICE 58 12
    GDMM 70 4
    TRADE_DATE 74 8
    SETTLEMENT 82 8
    DELIVERY 90 8
    INTERNAL_ID 98 16
    SUBACCOUNT 114 4
    REASON 118 4
    TARGET 122 11
    CROSS_REFERENCE 133 15
    FILLER_THREE 148 4
    POS_DUP 152 1
    SPECIAL 153 30
    NUMBER_OF_POOLS 183 4
}

pub const DETAIL_WIDTH: usize = 199;

columns! {
    "The columns of a pool detail that the engine reads, counted from the detail's first byte."
    DETAIL
    LOT_ID 0 6
    POOL_NUMBER 8 7
    ORIGINAL_FACE 15 9
    CURRENT_FACE 79 11
    TERMINATOR 122 4
}

/// The most pools of a message.
pub const POOLS_MAX: usize = 250;
