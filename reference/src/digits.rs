//! Digits: reads and writes decimal fields of any width (01, first paragraph).

/// The number that a field of digits gives; none where a byte is no digit, or there is none.
/// A number too wide for 64 bits is none; no field of the paper is.
pub fn number(field: &[u8]) -> Option<u64> {
    if field.is_empty() {
        return None;
    }
    field.iter().try_fold(0u64, |number, byte| {
        let digit = byte.is_ascii_digit().then(|| u64::from(byte - b'0'))?;
        number.checked_mul(10)?.checked_add(digit)
    })
}

/// A number in `WIDTH` digits, with zeros before; digits beyond the width fall off.
pub fn digits<const WIDTH: usize>(mut number: u64) -> [u8; WIDTH] {
    let mut field = [b'0'; WIDTH];
    for place in field.iter_mut().rev() {
        *place = b'0' + (number % 10) as u8;
        number /= 10;
    }
    field
}

#[cfg(test)]
mod tests {
    use super::*;

    #[test]
    fn only_digits_are_a_number() {
        assert_eq!(number(b"000042"), Some(42));
        assert_eq!(number(b"99999999999"), Some(99_999_999_999));
        for field in [&b""[..], b" 1", b"1 ", b"-1", b"+1", b"1.0", b"\xb1"] {
            assert_eq!(number(field), None);
        }
        assert_eq!(number(&[b'9'; 20]), None);
    }

    #[test]
    fn every_byte_value_but_ten_is_no_digit() {
        let taken = (0..=255u8).filter(|byte| number(&[b'0', *byte]).is_some());
        assert_eq!(taken.collect::<Vec<u8>>(), b"0123456789");
    }

    #[test]
    fn written_digits_read_back() {
        for value in [0, 1, 42, 99_999_999_999] {
            assert_eq!(number(&digits::<11>(value)), Some(value));
        }
    }
}
