//! Numbers and addresses: reading, writing, and what makes one good for a record.

use crate::codes::PUBLIC_TYPES;
use crate::elements::{
    element, enumerated, Reader, TAG_NUMERIC_STRING, TAG_OCTET_STRING, TAG_SEQUENCE,
};

pub const UNKNOWN: i32 = 0;
pub const PUBLIC: i32 = 1;
/// Tags 82, 83, 84, A5 and 88: heard, but held by no record.
pub const OTHER_KIND: i32 = 2;

const TAG_UNKNOWN: u8 = 0x80;
const TAG_PUBLIC: u8 = 0xA1;

const MOST_DIGITS: usize = 20;
const MOST_SUBADDRESS_OCTETS: usize = 20;

/// Two numbers are the same if form, type and digits agree: equality of this record, since a
/// good unknown number always has type 0 (A7).
#[derive(Clone, Debug, PartialEq, Eq, PartialOrd, Ord)]
pub struct Number {
    pub form: i32,
    pub number_type: i32,
    /// Characters, `b'0'` to `b'9'` in a good number.
    pub digits: Vec<u8>,
}

#[derive(Clone, Debug, PartialEq, Eq, PartialOrd, Ord)]
pub enum Subaddress {
    Absent,
    Octets(Vec<u8>),
    /// Heard with tag 30, contents not read; held by no record.
    UserSpecified,
}

#[derive(Clone, Debug, PartialEq, Eq, PartialOrd, Ord)]
pub struct Address {
    pub number: Number,
    pub subaddress: Subaddress,
}

impl Number {
    pub fn unknown(digits: &str) -> Self {
        Number {
            form: UNKNOWN,
            number_type: 0,
            digits: digits.as_bytes().to_vec(),
        }
    }

    pub fn public(number_type: i32, digits: &str) -> Self {
        Number {
            form: PUBLIC,
            number_type,
            digits: digits.as_bytes().to_vec(),
        }
    }

    pub fn other_kind() -> Self {
        Number {
            form: OTHER_KIND,
            number_type: 0,
            digits: Vec::new(),
        }
    }

    /// A number a record may hold: unknown or public form, a type of that form, 1 to 20 digits.
    pub fn good(&self) -> bool {
        let type_fits = match self.form {
            UNKNOWN => self.number_type == 0,
            PUBLIC => PUBLIC_TYPES.contains(&self.number_type),
            _ => false,
        };
        type_fits && good_digits(&self.digits)
    }
}

impl Subaddress {
    pub fn good(&self) -> bool {
        match self {
            Subaddress::Absent => true,
            Subaddress::Octets(octets) => good_subaddress(octets),
            Subaddress::UserSpecified => false,
        }
    }

    /// The octets a table holds; none if absent.
    pub fn octets(&self) -> &[u8] {
        match self {
            Subaddress::Octets(octets) => octets,
            Subaddress::Absent | Subaddress::UserSpecified => &[],
        }
    }
}

impl Address {
    pub fn good(&self) -> bool {
        self.number.good() && self.subaddress.good()
    }
}

/// 1 to 20 characters, only 0 to 9 (house: no space).
pub fn good_digits(digits: &[u8]) -> bool {
    (1..=MOST_DIGITS).contains(&digits.len()) && only_digits(digits)
}

/// As `good_digits`, but may be empty: an absent original number.
pub fn good_or_no_digits(digits: &[u8]) -> bool {
    digits.is_empty() || good_digits(digits)
}

fn only_digits(digits: &[u8]) -> bool {
    digits.iter().all(u8::is_ascii_digit)
}

fn good_subaddress(octets: &[u8]) -> bool {
    (1..=MOST_SUBADDRESS_OCTETS).contains(&octets.len())
}

pub fn read_number(reader: &mut Reader<'_>) -> Option<Number> {
    let element = reader.element()?;
    match element.tag {
        TAG_UNKNOWN => Some(Number {
            form: UNKNOWN,
            number_type: 0,
            digits: read_digits(element.contents)?,
        }),
        TAG_PUBLIC => read_public(element.contents),
        // A20: whole, contents not read; tag A5 isn't walked either.
        0x82 | 0x83 | 0x84 | 0xA5 | 0x88 => Some(Number::other_kind()),
        _ => None,
    }
}

fn read_public(contents: &[u8]) -> Option<Number> {
    let mut reader = Reader::over(contents);
    let number_type = reader.enumerated()?;
    if !PUBLIC_TYPES.contains(&number_type) {
        return None;
    }
    let digits = read_digits(reader.tagged(TAG_NUMERIC_STRING)?)?;
    // A16: nothing is skipped at the end of a public number.
    reader.finished().then_some(Number {
        form: PUBLIC,
        number_type,
        digits,
    })
}

fn read_digits(contents: &[u8]) -> Option<Vec<u8>> {
    good_digits(contents).then(|| contents.to_vec())
}

pub fn read_address(reader: &mut Reader<'_>) -> Option<Address> {
    let mut inside = Reader::over(reader.tagged(TAG_SEQUENCE)?);
    let number = read_number(&mut inside)?;
    let subaddress = if inside.finished() {
        Subaddress::Absent
    } else {
        read_subaddress(&mut inside)?
    };
    // A16, A21: nothing may follow in the address.
    inside.finished().then_some(Address { number, subaddress })
}

fn read_subaddress(reader: &mut Reader<'_>) -> Option<Subaddress> {
    let element = reader.element()?;
    match element.tag {
        TAG_OCTET_STRING => {
            good_subaddress(element.contents).then(|| Subaddress::Octets(element.contents.to_vec()))
        }
        // A21: any contents, also empty or badly built.
        TAG_SEQUENCE => Some(Subaddress::UserSpecified),
        _ => None,
    }
}

/// Only good numbers are written by the exchange and the end; another form gets the tag of an
/// other kind, so that every record has octets.
pub fn write_number(number: &Number) -> Vec<u8> {
    match number.form {
        UNKNOWN => element(TAG_UNKNOWN, &number.digits),
        PUBLIC => {
            let mut contents = enumerated(number.number_type);
            contents.extend(element(TAG_NUMERIC_STRING, &number.digits));
            element(TAG_PUBLIC, &contents)
        }
        _ => element(0x82, &number.digits),
    }
}

pub fn write_address(address: &Address) -> Vec<u8> {
    let mut contents = write_number(&address.number);
    match &address.subaddress {
        Subaddress::Absent => {}
        Subaddress::Octets(octets) => contents.extend(element(TAG_OCTET_STRING, octets)),
        Subaddress::UserSpecified => contents.extend(element(TAG_SEQUENCE, &[])),
    }
    element(TAG_SEQUENCE, &contents)
}
