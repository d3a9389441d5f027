//! Draft: a message being written, column by column, until it is a body.

use crate::acknowledgment::EPN_VERSION;
use crate::columns::*;
use crate::digits::digits;
use crate::lots::Kind;
use crate::pool_detail::MatchedFields;

/// A pool as a sender thinks of it.
#[derive(Clone, Copy, Debug, PartialEq, Eq)]
pub struct DraftPool {
    pub matched: MatchedFields,
    pub current_face_cents: u64,
}

/// A lot as a sender thinks of it.
#[derive(Clone, Debug, PartialEq, Eq)]
pub struct DraftLot {
    pub kind: Kind,
    pub millions: u64,
    pub pools: Vec<DraftPool>,
}

impl DraftLot {
    /// The terminators of the lot's pools under a position one.
    pub fn terminators(&self, position_one: u8) -> Vec<[u8; 4]> {
        let (middle, end) = match self.kind {
            Kind::Good => (*b"000", digits::<3>(self.millions)),
            Kind::Odd => (*b"000", *b"999"),
            Kind::Bad => (*b"888", *b"889"),
        };
        let last = self.pools.len() - 1;
        let code = |at| if at == last { end } else { middle };
        (0..=last).map(|at| [&[position_one][..], &code(at)].concat().try_into().unwrap()).collect()
    }
}

/// A header and details, blank where nothing was put.
#[derive(Clone, Debug)]
pub struct Draft {
    pub header: [u8; HEADER_WIDTH],
    pub details: Vec<[u8; DETAIL_WIDTH]>,
}

impl Draft {
    /// A draft that the checks of the header's form let pass, but for the parties.
    pub fn new(message_type: &[u8; 2]) -> Draft {
        let mut draft = Draft { header: [b' '; HEADER_WIDTH], details: Vec::new() };
        draft.put(TYPE, message_type);
        draft.put(VERSION, EPN_VERSION);
        draft.put_number(SEQUENCE, 1);
        draft.put_number(PAR, 1);
        draft.put_number(GDMM, 0);
        draft.put_number(REASON, 102);
        draft
    }

    /// Puts bytes into a header field, with blanks after; what is too long falls off.
    pub fn put(&mut self, column: Column, bytes: &[u8]) {
        put(&mut self.header, column, bytes);
    }

    /// Puts a number into a header field, in as many digits as the field is wide.
    pub fn put_number(&mut self, column: Column, number: u64) {
        let all = digits::<20>(number);
        self.put(column, &all[all.len() - column.width..]);
    }

    /// Puts bytes into a field of one detail.
    pub fn put_detail(&mut self, detail: usize, column: Column, bytes: &[u8]) {
        put(&mut self.details[detail], column, bytes);
    }

    /// Adds a pool with its terminator.
    pub fn add_pool(&mut self, pool: &DraftPool, terminator: &[u8; 4]) {
        let mut record = [b' '; DETAIL_WIDTH];
        put(&mut record, LOT_ID, &pool.matched.lot_id);
        put(&mut record, POOL_NUMBER, &pool.matched.pool_number);
        put(&mut record, ORIGINAL_FACE, &pool.matched.original_face);
        put(&mut record, CURRENT_FACE, &digits::<11>(pool.current_face_cents));
        put(&mut record, TERMINATOR, terminator);
        self.details.push(record);
    }

    /// Adds a lot's pools under a position one.
    pub fn add_lot(&mut self, lot: &DraftLot, position_one: u8) {
        for (pool, terminator) in lot.pools.iter().zip(lot.terminators(position_one)) {
            self.add_pool(pool, &terminator);
        }
    }

    pub fn body(&self) -> Vec<u8> {
        let mut body = self.header.to_vec();
        body.extend(self.details.iter().flatten());
        body
    }
}

fn put(record: &mut [u8], column: Column, bytes: &[u8]) {
    let field = &mut record[column.first..column.first + column.width];
    field.fill(b' ');
    for (place, byte) in field.iter_mut().zip(bytes) {
        *place = *byte;
    }
}
