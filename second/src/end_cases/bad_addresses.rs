//! Addresses that no table holds, as they are coded in a list.

use crate::elements::{element, TAG_NUMERIC_STRING, TAG_OCTET_STRING, TAG_SEQUENCE};
use crate::random::Random;

#[derive(Clone, Copy, Debug, PartialEq, Eq)]
pub enum AddressFault {
    NoDigits,
    TooManyDigits,
    /// A character that is none.
    NoDigit,
    /// A public number's.
    NoType,
    OtherKind,
    UserSpecified,
    NoSubaddress,
    LongSubaddress,
    Private,
    Missing,
}

/// Unknown or public.
fn number(random: &mut Random, digits: &[u8]) -> Vec<u8> {
    if random.once_in(2) {
        element(0x80, digits)
    } else {
        public(random.one_of(&[0, 1, 2, 3, 4, 6]), digits)
    }
}

fn public(number_type: u8, digits: &[u8]) -> Vec<u8> {
    let digits = element(TAG_NUMERIC_STRING, digits);
    element(0xA1, &[&[0x0A, 0x01, number_type][..], &digits].concat())
}

pub fn with(random: &mut Random, fault: AddressFault) -> Vec<u8> {
    let good = number(random, b"24680");
    let contents = match fault {
        AddressFault::NoDigits => number(random, b""),
        AddressFault::TooManyDigits => number(random, &[b'7'; 21]),
        AddressFault::NoDigit => {
            let bad = random.one_of(b" */:a\x00\xFF");
            number(random, &[b'2', bad])
        }
        AddressFault::NoType => public(random.one_of(&[5, 7, 255]), b"24680"),
        AddressFault::OtherKind => {
            let tag = random.one_of(&[0x82, 0x83, 0x84, 0xA5, 0x88]);
            element(tag, b"24680")
        }
        AddressFault::UserSpecified => {
            let inside = random.one_of(&[&[][..], &[0x04, 0x01, 0x07], &[0xFF]]);
            [good, element(TAG_SEQUENCE, inside)].concat()
        }
        AddressFault::NoSubaddress => [good, element(TAG_OCTET_STRING, &[])].concat(),
        AddressFault::LongSubaddress => [good, element(TAG_OCTET_STRING, &[7; 21])].concat(),
        AddressFault::Private => [good, vec![0xC0, 0x00]].concat(),
        AddressFault::Missing => Vec::new(),
    };
    element(TAG_SEQUENCE, &contents)
}
