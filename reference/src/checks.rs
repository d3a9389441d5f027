//! Checks: every reason to refuse a frame, as one ordered list (01 Who causes which number).

use std::collections::BTreeSet;

use crate::acknowledgment::{EPN_VERSION, OUTPUT_MIN};
use crate::answer::Number;
use crate::book::{Book, PoolRecord};
use crate::calendar::business_date;
use crate::columns::*;
use crate::faces::{lot_passes_35, pool_passes_34};
use crate::groups::{replacement_count, sums_agree};
use crate::lots::{good_millions, weight_cents, Lot};
use crate::message::{Message, Type};
use crate::opening::MESSAGE_ID_MAX;
use crate::pool_detail::PoolDetail;
use crate::sequence::{sequence_number, Judgement, SEQUENCE_MAX};
use crate::soundness::is_sound;
use crate::target::Target;
use crate::terms::{agree, named, trade_of_on, FSTI, FTBA};
use crate::trade_id::TradeId;

/// All that the checks of one frame call look at.
#[derive(Clone, Copy)]
pub struct Case<'a> {
    pub book: &'a Book,
    pub table: &'a [PoolRecord],
    pub output_length: usize,
    pub body: &'a [u8],
}

/// The types that a check is for.
#[derive(Clone, Copy, Debug)]
pub enum For {
    Every,
    Only(&'static [Type]),
}

/// A check: its number, its types, and the test that fails. A test is asked only where all
/// tests before it passed.
type Check = (Number, For, fn(&Case) -> bool);

use For::{Every, Only};
use Type::{Cc, Cx, Dk, On};

/// The checks in the paper's order.
pub const CHECKS: [Check; 29] = [
    // The operator.
    (42, Every, |case| !is_sound(case.book, case.table)),
    (43, Every, no_number_left),
    (44, Every, |case| case.output_length < OUTPUT_MIN),
    // The line.
    (10, Every, |case| Message::read(case.body).is_none()),
    (11, Every, |case| sequence_number(&case.message().sequence()).is_none()),
    (12, Every, duplicate_sequence),
    // The sender's system.
    (13, Every, |case| case.message().message_type().is_none()),
    (14, Every, |case| case.message().field(VERSION) != EPN_VERSION),
    (15, Every, filler_or_pos_dup),
    (16, Every, par_price_or_gdmm),
    (17, Every, unknown_party),
    (18, Only(&[Cx]), |_| true),
    (19, Only(&[On, Cc]), |case| case.message().lots().is_none()),
    (20, Only(&[Cc]), |case| case.message().groups().is_none()),
    (21, Only(&[Cc]), |case| !case.message().groups().is_some_and(|groups| sums_agree(&groups))),
    (22, Only(&[Cc]), number_of_pools),
    (23, Only(&[Cc]), |case| {
        !business_date(&case.message().settlement(), &case.book.values.holidays)
    }),
    (24, Only(&[Dk]), |case| matches!(case.message().number(REASON), None | Some(0))),
    (25, Only(&[Dk]), |case| case.against_fsti() && case.message().trade_name().is_none()),
    // The trader.
    (30, Only(&[Cc, Dk]), |case| case.target().is_none()),
    (31, Only(&[On, Cc, Dk]), trade_id),
    (32, Only(&[On, Cc, Dk]), no_agreeing_trade),
    (33, Only(&[On]), gdmm_is_not_the_sum),
    (34, Only(&[On, Cc]), |case| {
        !case.new_pools().iter().all(|pool| pool_passes_34(pool, &case.book.values.limits))
    }),
    (35, Only(&[On, Cc]), |case| {
        let details = case.message().details();
        let limits = &case.book.values.limits;
        !case.new_lots().iter().all(|lot| lot_passes_35(lot, &details, limits))
    }),
    (36, Only(&[On, Cc]), matched_fields_twice),
    (37, Only(&[Cc, Dk]), |case| case.taken_off().is_none()),
    (38, Only(&[On, Cc]), |case| case.trade().is_none()),
    // The operator again, last.
    (40, Only(&[On, Cc]), table_exceeded),
];

/// The first failing check's number; none where the message is accepted.
pub fn first_failing(case: &Case) -> Option<Number> {
    let message_type = Message::read(case.body).and_then(|message| message.message_type());
    let applies = |types: &For| match types {
        For::Every => true,
        For::Only(types) => message_type.is_some_and(|of_message| types.contains(&of_message)),
    };
    let failing = CHECKS.iter().find(|(_, types, fails)| applies(types) && fails(case));
    failing.map(|(number, _, _)| *number)
}

/// What the checks read from the call. Each is asked for only after the checks that it rests on.
impl<'a> Case<'a> {
    /// The message (after 10).
    pub fn message(&self) -> Message<'a> {
        Message::read(self.body).expect("check 10 passed")
    }

    fn against_fsti(&self) -> bool {
        self.message().field(CONTRA) == FSTI
    }

    /// The lots that the message brings (after 19); a DK brings none.
    pub fn new_lots(&self) -> Vec<Lot> {
        self.message().new_lots().unwrap_or_default()
    }

    /// The pools that the message brings (after 19).
    pub fn new_pools(&self) -> Vec<PoolDetail> {
        let details = self.message().details();
        let lots = self.new_lots();
        lots.iter().flat_map(|lot| lot.of(&details).to_vec()).collect()
    }

    /// The weight that the message brings (after 34).
    pub fn weight_brought_cents(&self) -> u64 {
        weight_cents(&self.new_lots(), &self.message().details()).unwrap_or_default()
    }

    /// The live pools under the target of a CC or DK.
    pub fn target(&self) -> Option<Target<'a>> {
        match self.message().message_type() {
            Some(Cc | Dk) => Target::find(&self.message(), self.book, self.table),
            _ => None,
        }
    }

    /// The live positions that the message takes off; none where check 37 fails. An ON takes
    /// nothing off.
    pub fn taken_off(&self) -> Option<Vec<usize>> {
        match self.message().message_type() {
            Some(Cc | Dk) => self.target()?.taken_off(&self.message()),
            _ => Some(Vec::new()),
        }
    }

    /// The weight that the message takes off (after 37), as the book holds it.
    pub fn weight_off_cents(&self) -> u128 {
        match (self.target(), self.taken_off()) {
            (Some(target), Some(positions)) => target.weight_cents(&positions),
            _ => 0,
        }
    }

    /// The trade that the message moves (after 37); none where check 38 fails.
    pub fn trade(&self) -> Option<usize> {
        let trades = &self.book.values.trades;
        let brought = self.weight_brought_cents();
        let trade = match self.target() {
            Some(target) => target.trade(),
            None => trade_of_on(&self.message(), trades, &self.book.open_pars(), brought)?,
        };
        let open = u128::from(*self.book.open_par_cents.get(trade)?);
        (open + self.weight_off_cents() >= u128::from(brought)).then_some(trade)
    }
}

fn no_number_left(case: &Case) -> bool {
    // An answer may need a TX and an AA.
    const LAST_OUTBOUND_MAX: u32 = SEQUENCE_MAX - 2;
    case.book.values.last_message_id == MESSAGE_ID_MAX
        || case.book.values.last_outbound > LAST_OUTBOUND_MAX
}

fn duplicate_sequence(case: &Case) -> bool {
    sequence_number(&case.message().sequence())
        .is_some_and(|sequence| case.book.inbound.judge(sequence) == Judgement::Duplicate)
}

fn filler_or_pos_dup(case: &Case) -> bool {
    let message = case.message();
    let blank = |column| message.field(column).iter().all(|byte| *byte == b' ');
    !HEADER_FILLERS.into_iter().all(blank) || !matches!(message.field(POS_DUP), b"X" | b" ")
}

fn par_price_or_gdmm(case: &Case) -> bool {
    let message = case.message();
    let ceiling = case.book.values.limits.gdmm_ceiling;
    matches!(message.number(PAR), None | Some(0))
        || matches!(message.number(PRICE), None | Some(0))
        || message.number(GDMM).is_none_or(|gdmm| gdmm > ceiling)
}

fn unknown_party(case: &Case) -> bool {
    let message = case.message();
    let values = &case.book.values;
    let submitter = message.field(SUBMITTER);
    let contra = message.field(CONTRA);
    let in_a_trade = |account: &[u8]| {
        let mut trades = values.trades.iter();
        trades.any(|trade| trade.seller == account || trade.buyer == account)
    };
    message.field(SUBSCRIBER) != values.subscriber
        || message.field(CONNECTION) != values.connection
        || !in_a_trade(submitter)
        || !(contra == FTBA || contra == FSTI)
}

fn number_of_pools(case: &Case) -> bool {
    let message = case.message();
    message.number(NUMBER_OF_POOLS) != Some(replacement_count(&message.details()) as u64)
}

/// 31: begun but not whole, naming no trade with agreeing terms or another than the target's;
/// on FSTI, absent.
fn trade_id(case: &Case) -> bool {
    let message = case.message();
    match message.trade_id() {
        TradeId::Absent => case.against_fsti(),
        TradeId::Broken => true,
        TradeId::Whole { .. } => {
            let trades = &case.book.values.trades;
            let Some(trade) = named(&message, trades) else {
                return true;
            };
            let another = case.target().is_some_and(|target| target.trade() != trade);
            another || !agree(&message, &trades[trade])
        }
    }
}

/// 32: no trade, or not the target's trade, agrees. A trade ID was judged by 31.
fn no_agreeing_trade(case: &Case) -> bool {
    let message = case.message();
    let trades = &case.book.values.trades;
    if message.trade_name().is_some() {
        return false;
    }
    match case.target() {
        Some(target) => !agree(&message, &trades[target.trade()]),
        None => !trades.iter().any(|trade| agree(&message, trade)),
    }
}

fn gdmm_is_not_the_sum(case: &Case) -> bool {
    case.message().number(GDMM) != Some(good_millions(&case.new_lots()))
}

/// 36: among the new pools of this message, and with nothing else.
fn matched_fields_twice(case: &Case) -> bool {
    let mut seen = BTreeSet::new();
    !case.new_pools().iter().all(|pool| seen.insert(pool.matched))
}

/// 40: live less listed plus new; freed records are no longer used.
fn table_exceeded(case: &Case) -> bool {
    let freed = case.message().listed().len();
    case.book.live_count - freed + case.new_pools().len() > case.table.len()
}
