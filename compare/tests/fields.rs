//! The header's columns, and fields of digits at any place and width that the paper has.

use compare::cases::Cases;
use compare::proved;
use reference::columns::HEADER;
use reference::digits::number;

#[test]
fn header_columns() {
    let mut cases = Cases::of("header columns");
    for (place, column) in HEADER.iter().enumerate() {
        assert_eq!(proved::column(place), (column.first, column.width), "{}", column.name);
        cases.count();
    }
    for past in [HEADER.len(), HEADER.len() + 1, usize::MAX] {
        assert_eq!(proved::column(past), (0, 0));
        cases.count();
    }
}

#[test]
fn fields_of_digits() {
    let mut cases = Cases::of("fields of digits");
    for _ in 0..20_000 {
        let random = &mut cases.random;
        let length = random.below(30) as usize;
        let mut bytes: Vec<u8> = (0..length).map(|_| random.between(48, 57) as u8).collect();
        if length > 0 && random.percent(30) {
            bytes[random.below(length as u64) as usize] = random.number() as u8;
        }
        let at = random.below(32) as usize;
        let width = random.between(1, 19) as usize;
        let field = bytes.get(at..).and_then(|rest| rest.get(..width));
        assert_eq!(
            proved::number(&bytes, at, width),
            field.and_then(number),
            "{bytes:?} {at} {width}"
        );
        cases.count();
    }
    assert_eq!(proved::number(b"1", usize::MAX, 1), None);
}
