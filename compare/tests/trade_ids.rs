//! Trade IDs in special instructions rich in "TRID" and "=", and prices.

use compare::cases::Cases;
use compare::proved;
use reference::generator::Random;
use reference::terms::prices_agree;
use reference::trade_id::find;

fn special_instructions(random: &mut Random) -> [u8; 30] {
    let mut field = Vec::new();
    while field.len() < 30 {
        match random.below(10) {
            0..=2 => field.extend(b"TRID="),
            3 => field.extend(b"TRID"),
            4 => field.extend(&b"TRID="[..random.below(5) as usize]),
            5 => field.push(b'='),
            6 => field.push(random.number() as u8),
            _ => {
                let length = random.pick(&[1, 1, 2, 5, 15, 16, 17]);
                field.extend(&random.text::<17>()[..length]);
                field.extend(random.pick(&[&b"="[..], b"=", b"", b"=="]));
            }
        }
    }
    field.truncate(30);
    field.try_into().unwrap()
}

#[test]
fn special_instructions_alike() {
    let mut cases = Cases::of("special instructions");
    for _ in 0..40_000 {
        let field = special_instructions(&mut cases.random);
        let text = String::from_utf8_lossy(&field).into_owned();
        assert_eq!(proved::trade_id(&field), find(&field), "{text:?}");
        cases.count();
    }
}

#[test]
fn prices() {
    let mut cases = Cases::of("prices");
    for _ in 0..20_000 {
        let random = &mut cases.random;
        let highest = random.pick(&[2_000, 999_999_999_999, u64::MAX - 5_000]);
        let one = random.below(highest);
        let other = match random.below(4) {
            0 => one + random.below(1_001),
            1 => one.saturating_sub(random.below(1_001)),
            2 => one / 1_000 * 1_000 + random.below(2_000),
            _ => random.number(),
        };
        assert_eq!(proved::prices_agree(one, other), prices_agree(one, other), "{one} {other}");
        cases.count();
    }
}
