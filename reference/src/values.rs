//! Values: what an operator lends to open a book (01 The book).

use crate::terms::Trade;

/// The limits that opening sets.
#[derive(Clone, Copy, Debug, PartialEq, Eq)]
pub struct Limits {
    pub gdmm_ceiling: u64,
    pub variance_cents_a_million: u64,
    pub pools_a_million: u64,
    pub least_face_dollars: u64,
}

/// Opening's values. Within a book the two last numbers move, and nothing else does.
#[derive(Clone, Debug, PartialEq, Eq)]
pub struct OpeningValues {
    pub trades: Vec<Trade>,
    pub holidays: Vec<[u8; 8]>,
    pub subscriber: [u8; 4],
    pub connection: [u8; 4],
    pub last_message_id: u64,
    pub last_outbound: u32,
    pub limits: Limits,
}
