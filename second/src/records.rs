//! Numbers and addresses as records of fixed size: a count says how many of the places after it
//! carry meaning. Writing leaves the other places as they were.

use crate::numbers::{Address, Number, Subaddress};

/// Form, type, count and 20 places for digits.
pub const NUMBER_OCTETS: usize = 23;
/// A number, a count and 20 places for the subaddress.
pub const ADDRESS_OCTETS: usize = 44;

/// A value that no octet holds becomes 255, which no rule for any field allows.
pub fn octet(value: i32) -> u8 {
    u8::try_from(value).unwrap_or(u8::MAX)
}

/// The count as it is, even past the places; as many octets as there are places.
pub fn write_counted(record: &mut [u8], octets: &[u8]) {
    let Some((count, places)) = record.split_first_mut() else {
        return;
    };
    *count = u8::try_from(octets.len()).unwrap_or(u8::MAX);
    for (place, octet) in places.iter_mut().zip(octets) {
        *place = *octet;
    }
}

/// `None` where the count goes past the places.
pub fn read_counted(record: &[u8]) -> Option<Vec<u8>> {
    let (count, places) = record.split_first()?;
    places.get(..usize::from(*count)).map(<[u8]>::to_vec)
}

pub fn write_number_record(record: &mut [u8], number: &Number) {
    if let [form, number_type, digits @ ..] = record {
        *form = octet(number.form);
        *number_type = octet(number.number_type);
        write_counted(digits, &number.digits);
    }
}

pub fn read_number_record(record: &[u8]) -> Option<Number> {
    let [form, number_type, digits @ ..] = record else {
        return None;
    };
    Some(Number {
        form: i32::from(*form),
        number_type: i32::from(*number_type),
        digits: read_counted(digits)?,
    })
}

/// A count of 0 stands for no subaddress.
pub fn write_address_record(record: &mut [u8], address: &Address) {
    let (number, subaddress) = record.split_at_mut(NUMBER_OCTETS);
    write_number_record(number, &address.number);
    write_counted(subaddress, address.subaddress.octets());
}

pub fn read_address_record(record: &[u8]) -> Option<Address> {
    let (number, subaddress) = record.split_at_checked(NUMBER_OCTETS)?;
    let subaddress = read_counted(subaddress)?;
    Some(Address {
        number: read_number_record(number)?,
        subaddress: if subaddress.is_empty() {
            Subaddress::Absent
        } else {
            Subaddress::Octets(subaddress)
        },
    })
}
