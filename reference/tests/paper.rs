//! The worked examples of the source documents, the paper's proof table, and each number by hand.

use reference::acknowledgment::{aa, tx, Sender};
use reference::answer::Answer::{self, Accepted, DKed, Rejected};
use reference::columns::*;
use reference::day;
use reference::desk::{pool, Desk};
use reference::draft::{Draft, DraftPool};
use reference::groups::{groups, sums_agree};
use reference::lots::{lots_of_cc, lots_of_on, Kind, Lot};
use reference::message::Message;
use reference::pool_detail::PoolDetail;
use reference::terms::{Trade, FSTI, FTBA};
use reference::values::OpeningValues;

const MILLION: u64 = 100_000_000;

fn details(terminators: &[&[u8; 4]]) -> Vec<PoolDetail> {
    let detail = |terminator: &&[u8; 4]| PoolDetail {
        terminator: **terminator,
        current_face: *b"00000000001",
        ..PoolDetail::default()
    };
    terminators.iter().map(detail).collect()
}

/// The lots of an ON, each by kind, millions and number of pools.
fn on_lots(terminators: &[&[u8; 4]]) -> Option<Vec<(Kind, u64, usize)>> {
    let short = |lot: &Lot| (lot.kind, lot.millions, lot.pools);
    lots_of_on(&details(terminators)).map(|lots| lots.iter().map(short).collect())
}

/// The number that checks 19 to 21 give a CC of these terminators, 0 where all pass.
fn cc_number(terminators: &[&[u8; 4]]) -> u16 {
    let Some(lots) = lots_of_cc(&details(terminators)) else { return 19 };
    let Some(groups) = groups(&lots) else { return 20 };
    if sums_agree(&groups) {
        0
    } else {
        21
    }
}

#[test]
fn section_3_of_001_on_messages() {
    use Kind::{Bad, Good, Odd};
    // 4MM of three lots.
    let four = [b"0000", b"0000", b"0001", b"0002", b"0001"];
    assert_eq!(on_lots(&four), Some(vec![(Good, 1, 3), (Good, 2, 1), (Good, 1, 1)]));
    // 5MM of one pool.
    assert_eq!(on_lots(&[b"0005"]), Some(vec![(Good, 5, 1)]));
    // 3.25MM with an odd lot: 01 is narrower, position one is 0.
    assert_eq!(on_lots(&[b"0002", b"9999"]), None);
    assert_eq!(on_lots(&[b"0002", b"0999"]), Some(vec![(Good, 2, 1), (Odd, 0, 1)]));
    // 750K of one pool.
    assert_eq!(on_lots(&[b"9999"]), None);
    assert_eq!(on_lots(&[b"0999"]), Some(vec![(Odd, 0, 1)]));
    // An odd lot of two pools, in both forms: the first form is two odd lots here.
    assert_eq!(on_lots(&[b"0999", b"0999"]), Some(vec![(Odd, 0, 1), (Odd, 0, 1)]));
    assert_eq!(on_lots(&[b"0000", b"0999"]), Some(vec![(Odd, 0, 2)]));
    // A bid list.
    assert_eq!(on_lots(&[b"8888", b"8888", b"8888", b"8889"]), None);
    assert_eq!(on_lots(&[b"0888", b"0888", b"0888", b"0889"]), Some(vec![(Bad, 0, 4)]));
}

#[test]
fn section_3_of_001_on_substitutions() {
    // The odd lot of two pools, and its refused alternative.
    assert_eq!(cc_number(&[b"6000", b"6999", b"7000", b"7999"]), 0);
    assert_eq!(cc_number(&[b"6999", b"6999", b"7999", b"7999"]), 20);
    // Bad delivery, with other numbers of pools.
    assert_eq!(cc_number(&[b"6888", b"6889", b"7889"]), 0);
    assert_eq!(cc_number(&[b"6889", b"7888", b"7888", b"7889"]), 0);
    // Good delivery: one for many, many for one, sums alike.
    assert_eq!(cc_number(&[b"6003", b"7001", b"7002"]), 0);
    assert_eq!(cc_number(&[b"6000", b"6001", b"6002", b"7003"]), 0);
    assert_eq!(cc_number(&[b"6003", b"7001", b"7001"]), 21);
    // No corresponding replacement, or no canceled pool.
    assert_eq!(cc_number(&[b"6001"]), 20);
    assert_eq!(cc_number(&[b"7001"]), 20);
    assert_eq!(cc_number(&[b"7001", b"6001"]), 20);
    assert_eq!(cc_number(&[b"6001", b"7001", b"6001"]), 20);
    // Another list type within a group; kinds may differ between groups.
    assert_eq!(cc_number(&[b"6889", b"7999"]), 20);
    assert_eq!(cc_number(&[b"6889", b"7001"]), 20);
    assert_eq!(cc_number(&[b"6001", b"6999", b"7001", b"7999"]), 20);
    assert_eq!(cc_number(&[b"6001", b"7001", b"6999", b"7999", b"6889", b"7889"]), 0);
    // Odd and bad groups hold just one lot of each side.
    assert_eq!(cc_number(&[b"6999", b"7999", b"7999"]), 20);
    assert_eq!(cc_number(&[b"6889", b"6889", b"7889"]), 20);
    // Sums are judged group by group.
    assert_eq!(cc_number(&[b"6001", b"7002", b"6002", b"7001"]), 21);
    // Middles of another kind or another side, an unfinished lot, a wrong position one.
    assert_eq!(cc_number(&[b"6888", b"6999", b"7999"]), 19);
    assert_eq!(cc_number(&[b"6000", b"6889", b"7889"]), 19);
    assert_eq!(cc_number(&[b"6000", b"7001"]), 19);
    assert_eq!(cc_number(&[b"6001", b"7000"]), 19);
    assert_eq!(cc_number(&[b"0001", b"7001"]), 19);
    assert_eq!(cc_number(&[b"6001", b"7100"]), 19);
}

fn two_trades() -> OpeningValues {
    let mut values = day::opening_values();
    let first = Trade { par_cents: 10 * MILLION, ..values.trades[0].clone() };
    let second = Trade { id: b"T2".to_vec(), par_cents: 20 * MILLION, ..first.clone() };
    let stipulated = Trade { id: b"S1".to_vec(), contra: FSTI, ..first.clone() };
    values.trades = vec![first, second, stipulated];
    values
}

fn desk() -> Desk {
    Desk::open(&two_trades(), 40)
}

fn good(number: u64, millions: u64) -> DraftPool {
    pool(number, millions * MILLION)
}

#[test]
fn the_proof_table() {
    assert!(on_lots(&[b"0099"]).is_some());
    assert!(on_lots(&[b"0100"]).is_none());
    assert!(on_lots(&[b"0888", b"0999"]).is_none());

    // 6001, 6002, 7003 passes; 6001, 7002 gives 21.
    let mut desk = desk();
    let on = desk.on(0, 3, &[(good(1, 1), b"0001"), (good(2, 2), b"0002")]);
    assert_eq!(desk.send(&on), Accepted);
    let sums = [(good(1, 1), b"6001"), (good(3, 2), b"7002")];
    assert_eq!(desk.send(&desk.cc(0, 1, &sums)), Rejected(21));
    let passes = [(good(1, 1), b"6001"), (good(2, 2), b"6002"), (good(3, 3), b"7003")];
    assert_eq!(desk.send(&desk.cc(0, 1, &passes)), Accepted);

    // 6000, 6999, 7000, 7999 passes; 6999, 6999, 7999, 7999 gives 20.
    let on = desk.on(0, 0, &[(pool(4, 10), b"0000"), (pool(5, 20), b"0999")]);
    assert_eq!(desk.send(&on), Accepted);
    let pools = [pool(4, 10), pool(5, 20), pool(6, 1), pool(7, 2)];
    let with = |codes: [&'static [u8; 4]; 4]| pools.into_iter().zip(codes).collect::<Vec<_>>();
    let refused = desk.cc(0, 3, &with([b"6999", b"6999", b"7999", b"7999"]));
    assert_eq!(desk.send(&refused), Rejected(20));
    let passes = desk.cc(0, 3, &with([b"6000", b"6999", b"7000", b"7999"]));
    assert_eq!(desk.send(&passes), Accepted);
    assert_eq!(desk.book.open_par_cents[0], 7 * MILLION - 3);
}

#[test]
fn the_proof_table_on_sequences() {
    let mut desk = desk();
    let mut answers = Vec::new();
    for (number, sequence) in [2, 3, 2, 3, 5, 5].into_iter().enumerate() {
        let mut on = desk.on(0, 0, &[(pool(number as u64, 1), b"0999")]);
        on.put_number(SEQUENCE, sequence);
        answers.push(desk.send(&on));
    }
    assert_eq!(answers, [Accepted, Accepted, Accepted, Accepted, Accepted, Rejected(12)]);
    assert_eq!(desk.wrote.len(), 64, "12 writes an AA and no TX");
    assert_eq!(desk.book.values.last_outbound, 6 + 3, "an AA each, and a TX for each gap");
    assert_eq!(desk.tally[0], [5, 1, 0]);
}

#[test]
fn the_proof_table_on_faces() {
    let mut desk = desk();
    let on = |desk: &Desk, cents| desk.on(0, 2, &[(pool(1, cents), b"0002")]);
    assert_eq!(desk.send(&on(&desk, 200_020_001)), DKed(35));
    assert_eq!(desk.send(&on(&desk, 200_020_000)), Accepted);
    assert_eq!(desk.send(&on(&desk, 199_979_999)), DKed(35));
    assert_eq!(desk.send(&on(&desk, 199_980_000)), Accepted);
    assert_eq!(desk.book.open_par_cents[0], 6 * MILLION, "a good lot weighs its millions");
}

#[test]
fn the_sample_on_of_004() {
    // The sample's printed fields, with the blanks that print lost put back.
    let printed = [
        "ON00000300201231234ABCDAAAA01F123456 90000000000          ",
        "1000000000000001030120190312201904282019I123456756          0000           ",
        "671                 TRID=1234567890=              0001",
        "2       0BM381000152587705000006012031           6714832               ",
        "        0009999998306553607103140          ",
        "040120180001000999999830000015277800100152761",
    ];
    let mut body = printed.concat().into_bytes();
    body.resize(HEADER_WIDTH + DETAIL_WIDTH, b' ');
    let message = Message::read(&body).unwrap();
    let field = |column| std::str::from_utf8(message.field(column)).unwrap();
    assert_eq!((field(TYPE), field(SEQUENCE), field(VERSION)), ("ON", "000003", "002"));
    assert_eq!((field(SUBSCRIBER), field(CONNECTION)), ("0123", "1234"));
    assert_eq!((field(SUBMITTER), field(CONTRA)), ("ABCD", "AAAA"));
    assert_eq!((field(CUSIP), field(PAR)), ("01F123456", "90000000000"));
    assert_eq!((field(PRICE), field(GDMM)), ("100000000000", "0001"));
    assert_eq!((field(TRADE_DATE), field(SETTLEMENT)), ("03012019", "03122019"));
    assert_eq!((field(DELIVERY), field(INTERNAL_ID)), ("04282019", "I123456756      "));
    assert_eq!((field(REASON), field(TARGET).trim()), ("0000", ""));
    assert_eq!((field(XREF).trim(), field(NUMBER_OF_POOLS)), ("671", "0001"));
    assert_eq!(message.trade_name(), Some(&b"1234567890"[..]));
    let detail = message.details()[0];
    assert_eq!(&detail.matched.lot_id, b"2     ");
    assert_eq!(&detail.matched.pool_number, b"0BM3810");
    assert_eq!(detail.original_face_dollars(), Some(1_525_877));
    assert_eq!(detail.current_face_cents(), Some(99_999_983));
    assert_eq!(&detail.terminator, b"0001");
    // The printed factor times the original face is the current face.
    assert_eq!(1_525_877 * 655_360_710 / 10_000_000, 99_999_983_u64);

    // Against AAAA it is none of ours; against FTBA a fitting book accepts it.
    let mut values = day::opening_values();
    values.connection = *b"1234";
    values.trades[0] = Trade {
        id: b"1234567890".to_vec(),
        seller: *b"ABCD",
        buyer: *b"WXYZ",
        contra: FTBA,
        cusip: *b"01F123456",
        settlement: *b"03122019",
        price: 100_000_000_000,
        par_cents: 2 * MILLION,
    };
    let mut desk = Desk::open(&values, 5);
    assert_eq!(desk.put(&body), Rejected(17));
    body[CONTRA.first..CONTRA.first + CONTRA.width].copy_from_slice(&FTBA);
    assert_eq!(desk.put(&body), Rejected(12), "the refused message used its number");
    body[SEQUENCE.first + SEQUENCE.width - 1] = b'4';
    assert_eq!(desk.put(&body), Accepted);
    assert_eq!(desk.book.open_par_cents, [MILLION]);
}

#[test]
fn the_sample_aa_and_tx_of_004() {
    let sender = |outbound, subscriber: &[u8; 4], connection: &[u8; 4]| Sender {
        outbound,
        subscriber: *subscriber,
        connection: *connection,
    };
    let sent = sender(378, b"0435", b"1435");
    for (code, printed) in [
        (200, b"AA00037800204351435020100008       201902220000200020010211800"),
        (250, b"AA00037800204351435020100008       201902220000250020010211800"),
        (251, b"AA00037800204351435020100008       201902220000251020010211800"),
    ] {
        let made = aa(sent, b"020100008       ", Some(20_190_222_000), code, b"020010", b"211800");
        assert_eq!(&made[1..63], printed);
        assert_eq!((made[0], made[63]), (2, 3));
    }
    // The sample TX has another type and text, at the same places.
    let made = tx(sender(1, b"0384", b"1384"), 1, 1);
    let printed = b"TX0000010020384138422START OF BUSINESS DAY 02032020";
    assert_eq!(made[1..20], printed[..19]);
    assert_eq!(&made[20..22], b"GD");
    assert!(made[22..].starts_with(b"EXPECTED SEQ # "));
}

#[test]
fn a_gap_is_told_and_lets_the_message_pass() {
    let mut desk = desk();
    let mut on = desk.on(0, 0, &[(pool(1, 1), b"0999")]);
    on.put_number(SEQUENCE, 5);
    assert_eq!(desk.send(&on), Accepted);
    let text = String::from_utf8(desk.wrote.clone()).unwrap();
    assert!(
        text.starts_with("\u{2}TX00000100201231200GDEXPECTED SEQ # 000001, RECEIVED SEQ # 000005 ")
    );
    assert!(text[153..].starts_with("\u{2}AA00000200201231200"));
    assert_eq!(desk.wrote.len(), 217);
    // A refused message tells its gap too.
    let mut on = desk.on(0, 9, &[(pool(1, 1), b"0999")]);
    on.put_number(SEQUENCE, 9);
    assert_eq!(desk.send(&on), DKed(33));
    assert_eq!(desk.wrote.len(), 217);
    assert_eq!(desk.book.inbound.expected, 10);
}

#[test]
fn an_on_goes_to_the_first_agreeing_trade_that_holds_it() {
    let mut desk = desk();
    let six = |n| [(good(n, 6), b"0006")];
    assert_eq!(desk.send(&desk.on(0, 6, &six(1))), Accepted);
    assert_eq!(desk.send(&desk.on(0, 6, &six(2))), Accepted);
    assert_eq!(desk.book.open_par_cents, [4 * MILLION, 14 * MILLION, 10 * MILLION]);
    // With a trade ID only that trade is looked at.
    let mut named = desk.on(0, 6, &six(3));
    named.put(SPECIAL_INSTRUCTIONS, b"TRID=T1=");
    assert_eq!(desk.send(&named), DKed(38));
    assert_eq!(desk.send(&desk.on(0, 15, &[(good(4, 15), b"0015")])), DKed(38));
    // A lot of weight 0 goes to the first agreeing trade, full or not.
    assert_eq!(desk.send(&desk.on(0, 4, &[(good(5, 4), b"0004")])), Accepted);
    assert_eq!(desk.send(&desk.on(0, 0, &[(pool(6, 0), b"0999")])), Accepted);
    assert_eq!(desk.table[3].trade, 0);
}

/// A desk with one message of three lots on the first trade.
fn desk_with_pools() -> Desk {
    let mut desk = desk();
    let pools = [
        (pool(1, MILLION), b"0000"),
        (pool(2, MILLION), b"0002"),
        (good(3, 1), b"0001"),
        (pool(4, 30), b"0000"),
        (pool(5, 12), b"0999"),
    ];
    assert_eq!(desk.send(&desk.on(0, 3, &pools)), Accepted);
    desk
}

#[test]
fn a_dk_takes_whole_lots_off_in_any_order() {
    let mut desk = desk_with_pools();
    for pools in [
        vec![pool(1, 0)],
        vec![pool(1, 0), pool(2, 0), pool(2, 0)],
        vec![pool(1, 0), pool(2, 0), pool(9, 0)],
        vec![pool(1, 0), pool(4, 0), pool(3, 0), pool(5, 0)],
    ] {
        assert_eq!(desk.send(&desk.dk(0, 1, &pools)), Rejected(37));
    }
    let mixed = [pool(5, 0), pool(2, 0), pool(4, 0), pool(1, 0)];
    assert_eq!(desk.send(&desk.dk(0, 1, &mixed)), Accepted);
    assert_eq!(desk.book.open_par_cents[0], 9 * MILLION);
    assert_eq!(desk.book.standing_millions(&desk.table, 0), 1);
    assert_eq!(desk.send(&desk.dk(0, 1, &mixed)), Rejected(37), "no lot twice");
    assert_eq!(desk.send(&desk.dk(0, 1, &[pool(3, 0)])), Accepted);
    assert_eq!(desk.send(&desk.dk(0, 1, &[pool(3, 0)])), Rejected(30), "no live pool left");
}

#[test]
fn a_cc_takes_lots_off_lot_by_lot() {
    let mut desk = desk_with_pools();
    let new = good(7, 3);
    for canceled in [
        // Pools of two live lots in one lot; a pool missing; another kind; other millions; a lot twice.
        vec![(pool(1, 0), b"6000"), (pool(2, 0), b"6000"), (pool(3, 0), b"6003")],
        vec![(pool(1, 0), b"6002"), (pool(3, 0), b"6001")],
        vec![(pool(4, 0), b"6000"), (pool(5, 0), b"6003")],
        vec![(pool(1, 0), b"6000"), (pool(2, 0), b"6003")],
        vec![(pool(3, 0), b"6001"), (pool(3, 0), b"6002")],
    ] {
        let pools = [canceled, vec![(new, b"7003")]].concat();
        assert_eq!(desk.send(&desk.cc(0, 1, &pools)), DKed(37));
    }
    // Within a lot any order will do, and a new pool may equal a canceled one.
    let pools = [
        (pool(3, 0), b"6001"),
        (pool(2, 0), b"6000"),
        (pool(1, 0), b"6002"),
        (pool(1, 3 * MILLION), b"7003"),
        (pool(5, 0), b"6000"),
        (pool(4, 0), b"6999"),
        (pool(4, 50), b"7999"),
    ];
    assert_eq!(desk.send(&desk.cc(0, 1, &pools)), Accepted);
    assert_eq!(desk.book.open_par_cents[0], 7 * MILLION - 50);
    assert_eq!(desk.book.standing_millions(&desk.table, 0), 3);
    assert_eq!((desk.table[0].message_id, desk.table[0].ordinal), (2, 1));
    assert_eq!((desk.table[1].message_id, desk.table[1].ordinal), (2, 2));
    // A CC on the CC, then a DK of what it brought.
    let pools = [(pool(1, 0), b"6003"), (good(8, 1), b"7001"), (good(9, 2), b"7002")];
    assert_eq!(desk.send(&desk.cc(0, 2, &pools)), Accepted);
    assert_eq!(desk.send(&desk.dk(0, 3, &[pool(9, 0)])), Accepted);
    assert_eq!(desk.book.standing_millions(&desk.table, 0), 1);
}

#[test]
fn what_a_cc_takes_off_makes_room() {
    // In open par: the trade is full, and the freed weight bears the new one.
    let mut desk = desk();
    let mut all = desk.on(0, 0, &[(pool(1, 10 * MILLION), b"0999")]);
    all.put(SPECIAL_INSTRUCTIONS, b"TRID=T1=");
    assert_eq!(desk.send(&all), Accepted);
    let with = |cents| [(pool(1, 0), b"6999"), (pool(2, cents), b"7999")];
    assert_eq!(desk.send(&desk.cc(0, 1, &with(10 * MILLION + 1))), DKed(38));
    assert_eq!(desk.send(&desk.cc(0, 1, &with(10 * MILLION))), Accepted);
    // In the table: the freed records are no longer used.
    let mut desk = Desk::open(&two_trades(), 2);
    let pools = [(pool(1, 1), b"0000"), (pool(2, 1), b"0999")];
    assert_eq!(desk.send(&desk.on(0, 0, &pools)), Accepted);
    assert_eq!(desk.send(&desk.on(0, 0, &[(pool(3, 1), b"0999")])), Rejected(40));
    let canceled = [(pool(1, 0), b"6000"), (pool(2, 0), b"6999")];
    let two = [(pool(3, 1), b"7000"), (pool(4, 1), b"7999")];
    let three = [(pool(3, 1), b"7000"), (pool(4, 1), b"7000"), (pool(5, 1), b"7999")];
    assert_eq!(desk.send(&desk.cc(0, 1, &[&canceled[..], &three].concat())), Rejected(40));
    assert_eq!(desk.send(&desk.cc(0, 1, &[&canceled[..], &two].concat())), Accepted);
    assert_eq!(desk.book.live_count, 2);
}

#[test]
fn trade_ids_and_terms() {
    let mut desk = desk_with_pools();
    let answer = |desk: &mut Desk, special: &[u8], change: &dyn Fn(&mut Draft), dk: bool| {
        let mut draft = match dk {
            true => desk.dk(0, 1, &[pool(3, 0)]),
            false => desk.cc(0, 1, &[(pool(9, 0), b"6001"), (good(8, 1), b"7001")]),
        };
        draft.put(SPECIAL_INSTRUCTIONS, special);
        change(&mut draft);
        desk.send(&draft)
    };
    let nothing = |_: &mut Draft| {};
    let fsti = |draft: &mut Draft| draft.put(CONTRA, &FSTI);
    let cusip = |draft: &mut Draft| draft.put(CUSIP, b"01F082631");
    // Broken, unknown, another's, or the right one with other terms: 31.
    for special in [&b"TRID="[..], b"TRID=T1", b"TRID=NONE=", b"TRID=T2=", b"TRID=T1 ="] {
        assert_eq!(answer(&mut desk, special, &nothing, false), DKed(31));
        assert_eq!(answer(&mut desk, special, &nothing, true), Rejected(31));
    }
    assert_eq!(answer(&mut desk, b"TRID=T1=", &cusip, false), DKed(31));
    assert_eq!(answer(&mut desk, b"TRID=T1=", &cusip, true), Rejected(31));
    // Without an ID: 32. On FSTI, absent: 31, or 25 on a DK.
    assert_eq!(answer(&mut desk, b"TRID T1", &cusip, false), DKed(32));
    assert_eq!(answer(&mut desk, b"", &cusip, true), Rejected(32));
    assert_eq!(answer(&mut desk, b"", &fsti, false), DKed(31));
    assert_eq!(answer(&mut desk, b"TRID==", &fsti, true), Rejected(25));
    assert_eq!(answer(&mut desk, b"", &fsti, true), Rejected(25));
    assert_eq!(answer(&mut desk, b"TRID=S1=", &fsti, true), Rejected(31));
    // Then the rest of the CC is judged: pool 9 is not there.
    assert_eq!(answer(&mut desk, b"TRID=T1=", &nothing, false), DKed(37));
    assert_eq!(answer(&mut desk, b"TRID=T1=", &nothing, true), Accepted);
}

#[test]
fn targets_in_another_form_have_no_live_pool() {
    let mut desk = desk_with_pools();
    for target in [&b"1          "[..], b"          1", b"0000000001 ", b"00000000000", b""] {
        let mut dk = desk.dk(0, 1, &[pool(3, 0)]);
        dk.put(TARGET, target);
        assert_eq!(desk.send(&dk), Rejected(30));
        let mut cc = desk.cc(0, 1, &[(pool(3, 0), b"6001"), (good(8, 1), b"7001")]);
        cc.put(TARGET, target);
        assert_eq!(desk.send(&cc), DKed(30));
    }
}

#[test]
fn header_checks_in_order() {
    let mut desk = desk_with_pools();
    // Each entry spoils one more field, from the last check to the first.
    type Spoil = (Answer, fn(&mut Draft));
    let spoil: [Spoil; 10] = [
        (Rejected(24), |draft| draft.put(REASON, b"0000")),
        (Rejected(17), |draft| draft.put(CONTRA, b"FICC")),
        (Rejected(16), |draft| draft.put_number(GDMM, 2_501)),
        (Rejected(15), |draft| draft.put(POS_DUP, b"Y")),
        (Rejected(14), |draft| draft.put(VERSION, b"001")),
        (Rejected(13), |draft| draft.put(TYPE, b"RR")),
        (Rejected(12), |draft| draft.put_number(SEQUENCE, 1)),
        (Rejected(11), |draft| draft.put_number(SEQUENCE, 999_999)),
        (Rejected(10), |draft| draft.details.clear()),
        (Rejected(10), |draft| draft.details.resize(251, [b' '; DETAIL_WIDTH])),
    ];
    let mut spoiled: Vec<fn(&mut Draft)> = Vec::new();
    for (answer, change) in spoil {
        spoiled.push(change);
        let mut draft = desk.dk(0, 1, &[pool(3, 0)]);
        spoiled.iter().for_each(|change| change(&mut draft));
        // Only the last two spoil the sequence number on purpose.
        if spoiled.len() == 7 {
            draft.put_number(SEQUENCE, u64::from(desk.book.inbound.received.unwrap()));
        }
        assert_eq!(desk.send(&draft), answer);
    }
    let mut cx = desk.dk(0, 1, &[pool(3, 0)]);
    cx.put(TYPE, b"CX");
    assert_eq!(desk.send(&cx), Rejected(18));
    assert_eq!(desk.tally[3], [0, 1, 0]);
    cx.put_number(SEQUENCE, u64::from(desk.book.inbound.expected));
    cx.put(SUBMITTER, b"MBZZ");
    assert_eq!(desk.send(&cx), Rejected(17), "17 comes before 18");
}

#[test]
fn the_number_of_pools_counts_replacement_pools() {
    let mut desk = desk_with_pools();
    let pools = [(pool(3, 0), b"6001"), (pool(7, MILLION), b"7000"), (pool(8, 0), b"7001")];
    for (written, answer) in [
        (&b"0003"[..], Rejected(22)),
        (b"0001", Rejected(22)),
        (b"   2", Rejected(22)),
        (b"2   ", Rejected(22)),
        (b"0002", Accepted),
    ] {
        let mut cc = desk.cc(0, 1, &pools);
        cc.put(NUMBER_OF_POOLS, written);
        assert_eq!(desk.send(&cc), answer);
    }
}

#[test]
fn gdmm_is_compared_on_an_on_alone() {
    let mut desk = desk_with_pools();
    let mut cc = desk.cc(0, 1, &[(pool(3, 0), b"6001"), (good(8, 1), b"7001")]);
    cc.put_number(GDMM, 77);
    assert_eq!(desk.send(&cc), Accepted);
    let mut dk = desk.dk(0, 2, &[pool(8, 0)]);
    dk.put_number(GDMM, 77);
    assert_eq!(desk.send(&dk), Accepted);
    assert_eq!(desk.send(&desk.on(0, 16, &[(pool(9, 1), b"0999")])), DKed(33));
}

#[test]
fn new_pools_are_compared_with_each_other_alone() {
    let mut desk = desk_with_pools();
    let twice = [(good(8, 1), b"0001"), (good(8, 1), b"0001")];
    assert_eq!(desk.send(&desk.on(0, 2, &twice)), DKed(36));
    assert_eq!(desk.send(&desk.on(0, 1, &[(good(3, 1), b"0001")])), Accepted);
}

#[test]
fn the_highest_numbers_end_the_day() {
    let mut values = two_trades();
    values.last_message_id = 99_999_999_998;
    let mut desk = Desk::open(&values, 5);
    let on = |desk: &Desk, number| desk.on(0, 0, &[(pool(number, 1), b"0999")]);
    assert_eq!(desk.send(&on(&desk, 1)), Accepted);
    assert_eq!(desk.send(&on(&desk, 2)), Rejected(43));

    values.last_message_id = 0;
    values.last_outbound = 999_997;
    let mut desk = Desk::open(&values, 5);
    assert_eq!(desk.send(&on(&desk, 1)), Accepted);
    assert_eq!(desk.book.values.last_outbound, 999_998);
    assert_eq!(desk.send(&on(&desk, 2)), Rejected(43));
    assert_eq!(desk.wrote.len(), 0);
}
