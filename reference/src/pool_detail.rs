//! Pool details: the five fields of a detail that the engine reads (01 Columns, 000).

use crate::columns::{self, DETAIL_WIDTH, HEADER_WIDTH};
use crate::digits::number;

/// The three fields by which a listed pool is matched with a live one, as bytes.
#[derive(Clone, Copy, Debug, Default, PartialEq, Eq, PartialOrd, Ord)]
pub struct MatchedFields {
    pub lot_id: [u8; 6],
    pub pool_number: [u8; 7],
    pub original_face: [u8; 9],
}

/// One pool of a message.
#[derive(Clone, Copy, Debug, Default, PartialEq, Eq)]
pub struct PoolDetail {
    pub matched: MatchedFields,
    pub terminator: [u8; 4],
    pub current_face: [u8; 11],
}

impl PoolDetail {
    /// Reads the detail that a record of width D holds.
    pub fn read(record: &[u8]) -> PoolDetail {
        PoolDetail {
            matched: MatchedFields {
                lot_id: columns::LOT_ID.array(record),
                pool_number: columns::POOL_NUMBER.array(record),
                original_face: columns::ORIGINAL_FACE.array(record),
            },
            terminator: columns::TERMINATOR.array(record),
            current_face: columns::CURRENT_FACE.array(record),
        }
    }

    pub fn original_face_dollars(&self) -> Option<u64> {
        number(&self.matched.original_face)
    }

    pub fn current_face_cents(&self) -> Option<u64> {
        number(&self.current_face)
    }
}

/// Goes through a body record by record.
pub struct DetailReader<'a> {
    body: &'a [u8],
    place: usize,
}

impl<'a> DetailReader<'a> {
    pub fn new(body: &'a [u8]) -> DetailReader<'a> {
        DetailReader { body, place: HEADER_WIDTH }
    }
}

impl Iterator for DetailReader<'_> {
    type Item = PoolDetail;

    fn next(&mut self) -> Option<PoolDetail> {
        let record = self.body.get(self.place..self.place + DETAIL_WIDTH)?;
        self.place += DETAIL_WIDTH;
        Some(PoolDetail::read(record))
    }
}
