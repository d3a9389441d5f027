//! Columns: where each field of a body lies; no other module knows a place or a width (01 Columns, 000).

/// A field of a record: its first byte and its width.
#[derive(Clone, Copy, Debug, PartialEq, Eq)]
pub struct Column {
    pub name: &'static str,
    pub first: usize,
    pub width: usize,
}

impl Column {
    const fn new(name: &'static str, first: usize, width: usize) -> Column {
        Column { name, first, width }
    }

    /// A column that begins where another one ends.
    const fn after(self, name: &'static str, width: usize) -> Column {
        Column::new(name, self.first + self.width, width)
    }

    /// The field's bytes in a record that is long enough.
    pub fn of(self, record: &[u8]) -> &[u8] {
        &record[self.first..self.first + self.width]
    }

    /// The field's bytes as an array of the column's own width.
    pub fn array<const WIDTH: usize>(self, record: &[u8]) -> [u8; WIDTH] {
        self.of(record).try_into().expect("the array has the column's width")
    }
}

// The header, with the places that 01 gives.
pub const HEADER_WIDTH: usize = 187;
pub const TYPE: Column = Column::new("type", 0, 2);
pub const SEQUENCE: Column = Column::new("sequence", 2, 6);
pub const VERSION: Column = Column::new("version", 8, 3);
pub const SUBSCRIBER: Column = Column::new("subscriber", 11, 4);
pub const CONNECTION: Column = Column::new("connection", 15, 4);
pub const SUBMITTER: Column = Column::new("submitter", 19, 4);
pub const CONTRA: Column = Column::new("contra", 23, 4);
pub const CUSIP: Column = Column::new("CUSIP", 27, 9);
pub const FILLER_AFTER_CUSIP: Column = Column::new("filler", 36, 1);
pub const PAR: Column = Column::new("par", 37, 11);
pub const FILLER_AFTER_PAR: Column = Column::new("filler", 48, 10);
pub const PRICE: Column = Column::new("price", 58, 12);
pub const GDMM: Column = Column::new("GDMM", 70, 4);
pub const TRADE_DATE: Column = Column::new("trade date", 74, 8);
pub const SETTLEMENT: Column = Column::new("settlement", 82, 8);
pub const DELIVERY: Column = Column::new("delivery", 90, 8);
pub const INTERNAL_ID: Column = Column::new("internal ID", 98, 16);
pub const SUBACCOUNT: Column = Column::new("subaccount", 114, 4);
pub const REASON: Column = Column::new("reason", 118, 4);
pub const TARGET: Column = Column::new("target message ID", 122, 11);
pub const XREF: Column = Column::new("XREF", 133, 15);
pub const FILLER_AFTER_XREF: Column = Column::new("filler", 148, 4);
pub const POS_DUP: Column = Column::new("Pos Dup", 152, 1);
pub const SPECIAL_INSTRUCTIONS: Column = Column::new("special instructions", 153, 30);
pub const NUMBER_OF_POOLS: Column = Column::new("number of pools", 183, 4);

/// The header's fillers, which check 15 wants blank.
pub const HEADER_FILLERS: [Column; 3] = [FILLER_AFTER_CUSIP, FILLER_AFTER_PAR, FILLER_AFTER_XREF];

/// Every column of the header, in order.
pub const HEADER: [Column; 25] = [
    TYPE,
    SEQUENCE,
    VERSION,
    SUBSCRIBER,
    CONNECTION,
    SUBMITTER,
    CONTRA,
    CUSIP,
    FILLER_AFTER_CUSIP,
    PAR,
    FILLER_AFTER_PAR,
    PRICE,
    GDMM,
    TRADE_DATE,
    SETTLEMENT,
    DELIVERY,
    INTERNAL_ID,
    SUBACCOUNT,
    REASON,
    TARGET,
    XREF,
    FILLER_AFTER_XREF,
    POS_DUP,
    SPECIAL_INSTRUCTIONS,
    NUMBER_OF_POOLS,
];

// A pool detail, in the order and widths of the table "CTCI Pool Detail", without the end byte.
pub const LOT_ID: Column = Column::new("Lot-ID", 0, 6);
const FILLER_AFTER_LOT_ID: Column = LOT_ID.after("filler", 2);
pub const POOL_NUMBER: Column = FILLER_AFTER_LOT_ID.after("pool number", 7);
pub const ORIGINAL_FACE: Column = POOL_NUMBER.after("original face", 9);
const COUPON: Column = ORIGINAL_FACE.after("coupon", 6);
const MATURITY_DATE: Column = COUPON.after("maturity date", 8);
const NEW_ISSUE: Column = MATURITY_DATE.after("new issue", 1);
const TRADE_NUMBER: Column = NEW_ISSUE.after("trade number", 10);
const CONTROL_NUMBER: Column = TRADE_NUMBER.after("control number", 15);
const FILLER_AFTER_CONTROL: Column = CONTROL_NUMBER.after("filler", 15);
pub const CURRENT_FACE: Column = FILLER_AFTER_CONTROL.after("current face", 11);
const FACTOR: Column = CURRENT_FACE.after("factor", 10);
const POOL_CUSIP: Column = FACTOR.after("CUSIP number", 9);
const FILLER_AFTER_CUSIP_NUMBER: Column = POOL_CUSIP.after("filler", 5);
const ISSUE_DATE: Column = FILLER_AFTER_CUSIP_NUMBER.after("issue date", 8);
pub const TERMINATOR: Column = ISSUE_DATE.after("terminator", 4);
const PRINCIPAL: Column = TERMINATOR.after("principal", 11);
const INTEREST: Column = PRINCIPAL.after("interest", 11);
const NET_MONEY: Column = INTEREST.after("net money", 11);
const POOL_INSTRUCTIONS: Column = NET_MONEY.after("special instructions", 30);
const LAST_FILLER: Column = POOL_INSTRUCTIONS.after("filler", 10);

/// D, the total width of a pool detail.
pub const DETAIL_WIDTH: usize = LAST_FILLER.first + LAST_FILLER.width;

/// The most pool details a body holds.
pub const POOLS_MAX: usize = 250;

#[cfg(test)]
mod tests {
    use super::*;

    #[test]
    fn header_columns_follow_each_other_without_a_gap() {
        let mut place = 0;
        for column in HEADER {
            assert_eq!(column.first, place, "{}", column.name);
            place += column.width;
        }
        assert_eq!(place, HEADER_WIDTH);
    }

    #[test]
    fn detail_places_are_those_of_the_layout() {
        assert_eq!((LOT_ID.first, LOT_ID.width), (0, 6));
        assert_eq!((POOL_NUMBER.first, POOL_NUMBER.width), (8, 7));
        assert_eq!((ORIGINAL_FACE.first, ORIGINAL_FACE.width), (15, 9));
        assert_eq!((CURRENT_FACE.first, CURRENT_FACE.width), (79, 11));
        assert_eq!((TERMINATOR.first, TERMINATOR.width), (122, 4));
        assert_eq!(DETAIL_WIDTH, 199);
    }
}
