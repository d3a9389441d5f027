//! Acknowledgment: the bytes of an AA and of a gap's TX (01 What goes out, 000).

use crate::answer::Number;
use crate::digits::digits;
use crate::frame::{END_OF_FRAME, START_OF_FRAME};

pub const AA_WIDTH: usize = 64;
pub const TX_WIDTH: usize = 153;
/// The room that check 44 asks for: a TX and an AA.
pub const OUTPUT_MIN: usize = TX_WIDTH + AA_WIDTH;
/// The version that check 14 wants and that goes out again.
pub const EPN_VERSION: &[u8; 3] = b"002";
const TEXT_WIDTH: usize = 130;

/// What stands at the beginning of every message that goes out.
#[derive(Clone, Copy, Debug)]
pub struct Sender {
    pub outbound: u32,
    pub subscriber: [u8; 4],
    pub connection: [u8; 4],
}

impl Sender {
    fn start(&self, message_type: &[u8; 2]) -> Vec<u8> {
        let number = digits::<6>(u64::from(self.outbound));
        let mut bytes = vec![START_OF_FRAME];
        bytes.extend_from_slice(message_type);
        bytes.extend_from_slice(&number);
        bytes.extend_from_slice(EPN_VERSION);
        bytes.extend_from_slice(&self.subscriber);
        bytes.extend_from_slice(&self.connection);
        bytes
    }
}

/// The acknowledgment; the message ID is blank if the message was refused.
pub fn aa(
    sender: Sender,
    internal_id: &[u8; 16],
    message_id: Option<u64>,
    code: Number,
    time: &[u8; 6],
    original_sequence: &[u8; 6],
) -> [u8; AA_WIDTH] {
    let mut bytes = sender.start(b"AA");
    bytes.extend_from_slice(internal_id);
    bytes.extend_from_slice(&message_id.map_or([b' '; 11], digits));
    bytes.extend_from_slice(&digits::<4>(u64::from(code)));
    bytes.extend_from_slice(time);
    bytes.extend_from_slice(original_sequence);
    bytes.push(END_OF_FRAME);
    bytes.try_into().expect("an AA has 64 bytes")
}

/// The notice of a gap in the inbound numbers.
pub fn tx(sender: Sender, expected: u32, received: u32) -> [u8; TX_WIDTH] {
    let mut text = b"EXPECTED SEQ # ".to_vec();
    text.extend_from_slice(&digits::<6>(u64::from(expected)));
    text.extend_from_slice(b", RECEIVED SEQ # ");
    text.extend_from_slice(&digits::<6>(u64::from(received)));
    text.resize(TEXT_WIDTH, b' ');

    let mut bytes = sender.start(b"TX");
    bytes.extend_from_slice(b"GD");
    bytes.extend_from_slice(&text);
    bytes.push(END_OF_FRAME);
    bytes.try_into().expect("a TX has 153 bytes")
}

#[cfg(test)]
mod tests {
    use super::*;

    const SENDER: Sender = Sender { outbound: 7, subscriber: *b"0123", connection: *b"1200" };

    #[test]
    fn the_bytes_of_an_aa() {
        let accepted = aa(SENDER, b"INTERNAL ID 0001", Some(42), 0, b"123456", b"000005");
        assert_eq!(
            &accepted[..],
            b"\x02AA00000700201231200INTERNAL ID 0001000000000420000123456000005\x03"
        );
        let refused = aa(SENDER, &[b' '; 16], None, 37, b"      ", b"000006");
        assert_eq!(
            &refused[..],
            b"\x02AA00000700201231200                           0037      000006\x03"
        );
    }

    #[test]
    fn the_bytes_of_a_tx() {
        let notice = tx(SENDER, 2, 5);
        assert!(notice.starts_with(
            b"\x02TX00000700201231200GDEXPECTED SEQ # 000002, RECEIVED SEQ # 000005  "
        ));
        assert!(notice[66..152].iter().all(|byte| *byte == b' '));
        assert_eq!(notice[152], END_OF_FRAME);
        assert_eq!(OUTPUT_MIN, 217);
    }
}
