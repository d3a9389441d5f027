//! Bodies: their pools, lots, groups, sums, counts, millions, weights and faces.

use compare::bodies::body;
use compare::cases::Cases;
use compare::proved::{self, Forms};
use reference::faces::{lot_passes_35, pool_passes_34};
use reference::generator::{day, Random};
use reference::groups::{groups, replacement_count, sums_agree};
use reference::lots::{good_millions, lots_of_cc, lots_of_on, weight_cents, Lot};
use reference::message::Message;
use reference::pool_detail::PoolDetail;
use reference::terminator::PositionOne;
use reference::values::Limits;

/// How often each way through the comparison was taken, so that none is idle.
#[derive(Debug, Default)]
struct Met {
    wrong_length: u32,
    on_formed: u32,
    cc_formed: u32,
    unformed: u32,
    grouped: u32,
    ungrouped: u32,
    balanced: u32,
    unbalanced: u32,
    weighed: u32,
    not_digits: u32,
    passed_34: u32,
    failed_34: u32,
    passed_35: u32,
    failed_35: u32,
}

fn limits(random: &mut Random) -> Limits {
    Limits {
        gdmm_ceiling: 2_500,
        variance_cents_a_million: random.pick(&[0, 10_000, 10_001, 1_000_000]),
        pools_a_million: random.pick(&[1, 3, 5, 250]),
        least_face_dollars: random.pick(&[1, 1_000, 1_000, 1_000, 1_001, 25_000, 50_000_000]),
    }
}

/// All that both say of one body.
fn compare(body: &[u8], limits: &Limits, met: &mut Met) {
    let sums = proved::sums(body);
    let Some(message) = Message::read(body) else {
        met.wrong_length += 1;
        assert_eq!(sums.pools, 0);
        assert_eq!(sums.replacements, 0);
        return;
    };
    let details = message.details();
    assert_eq!(sums.pools, details.len());
    assert_eq!(sums.replacements, replacement_count(&details));

    let (on, cc) = (lots_of_on(&details), lots_of_cc(&details));
    let forms = proved::forms(body);
    assert_eq!(forms.on, on.is_some());
    assert_eq!(forms.cc, cc.is_some());
    met.on_formed += u32::from(on.is_some());
    met.cc_formed += u32::from(cc.is_some());
    met.unformed += u32::from(on.is_none() && cc.is_none());

    if let Some(lots) = &on {
        assert_eq!(sums.good_millions, good_millions(lots));
        each_lot(body, &details, lots_of_on, met);
        new_lots(body, &details, lots, limits, met);
    }
    if let Some(lots) = &cc {
        assert_eq!(sums.good_millions, good_millions(lots));
        each_lot(body, &details, lots_of_cc, met);
        new_lots(body, &details, lots, limits, met);
        each_group(forms, lots, met);
    }
}

/// The lot that begins at each pool: the first lot of what is left from there.
fn each_lot(
    body: &[u8],
    details: &[PoolDetail],
    lots: fn(&[PoolDetail]) -> Option<Vec<Lot>>,
    met: &mut Met,
) {
    for first in 0..details.len() {
        let left = lots(&details[first..]).expect("what is left of lots in form is in form");
        let lot = Lot { first, ..left[0] };
        let (found, weight_cents) = proved::lot_at(body, first).expect("an end follows");
        assert_eq!(found, lot);
        match lot.weight_cents(details) {
            Some(cents) => {
                met.weighed += 1;
                assert_eq!(weight_cents, cents);
            }
            None => met.not_digits += 1,
        }
    }
    for past in [details.len(), details.len() + 1, usize::MAX] {
        assert_eq!(proved::lot_at(body, past), None);
    }
}

/// Checks 34 and 35 and the weight of the lots that a message brings. The paper asks 35 and the
/// weight only where 34 passes.
fn new_lots(body: &[u8], details: &[PoolDetail], lots: &[Lot], limits: &Limits, met: &mut Met) {
    let mut new = lots.to_vec();
    new.retain(|lot| lot.position_one != PositionOne::Canceled);
    let pools = new.iter().flat_map(|lot| lot.of(details));
    let passed_34 = pools.into_iter().all(|pool| pool_passes_34(pool, limits));
    let (faces_fail, lots_fail) = proved::faces_and_lots_fail(body, limits);
    assert_eq!(faces_fail, !passed_34);
    met.passed_34 += u32::from(passed_34);
    met.failed_34 += u32::from(!passed_34);
    let Some(weight_cents) = weight_cents(&new, details) else {
        return;
    };
    assert_eq!(proved::sums(body).new_weight_cents, weight_cents);
    if !passed_34 {
        return;
    }
    let passed_35 = new.iter().all(|lot| lot_passes_35(lot, details, limits));
    assert_eq!(lots_fail, !passed_35);
    met.passed_35 += u32::from(passed_35);
    met.failed_35 += u32::from(!passed_35);
}

fn each_group(forms: Forms, lots: &[Lot], met: &mut Met) {
    let groups = groups(lots);
    assert_eq!(forms.groups, groups.is_some());
    let Some(groups) = groups else {
        met.ungrouped += 1;
        return;
    };
    met.grouped += 1;
    let balanced = sums_agree(&groups);
    assert_eq!(forms.balanced, balanced);
    met.balanced += u32::from(balanced);
    met.unbalanced += u32::from(!balanced);
}

#[test]
fn random_bodies() {
    let mut cases = Cases::of("random bodies");
    let mut met = Met::default();
    for _ in 0..40_000 {
        let body = body(&mut cases.random);
        let limits = limits(&mut cases.random);
        compare(&body, &limits, &mut met);
        cases.count();
    }
    println!("{met:?}");
    let ways = [
        met.wrong_length,
        met.on_formed,
        met.cc_formed,
        met.unformed,
        met.grouped,
        met.ungrouped,
        met.balanced,
        met.unbalanced,
        met.weighed,
        met.not_digits,
        met.passed_34,
        met.failed_34,
        met.passed_35,
        met.failed_35,
    ];
    assert!(ways.iter().all(|count| *count >= 100), "a way was met too seldom");
}

#[test]
fn bodies_of_days() {
    let mut cases = Cases::of("bodies of days");
    let mut met = Met::default();
    for _ in 0..100 {
        let seed = cases.random.number();
        let day = day(seed);
        for call in day.calls {
            compare(&call.body, &day.opening.limits, &mut met);
            cases.count();
        }
    }
}

#[test]
fn a_lot_is_written_where_six_numbers_fit() {
    let mut cases = Cases::of("numbers of a lot");
    for length in (0..20).filter(|length| *length != 6) {
        let body = body(&mut cases.random);
        let mut six = [0; 6];
        proved::put_lot(&body, 0, &mut six);
        let mut numbers = vec![7; length];
        proved::put_lot(&body, 0, &mut numbers);
        let mut after = vec![7; length];
        if length > 6 {
            after[..6].copy_from_slice(&six);
        }
        assert_eq!(numbers, after);
        cases.count();
    }
}
