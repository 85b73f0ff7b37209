//! The call that goes on: a diverted call in 95 octets.

use crate::calls::{Diverted, Notice};
use crate::records::{
    octet, write_address_record, write_number_record, ADDRESS_OCTETS, NUMBER_OCTETS,
};

/// The records in it, places past a count included.
#[derive(Clone, Debug, PartialEq, Eq)]
pub struct Carried {
    /// The forwarded-to address.
    pub called: [u8; ADDRESS_OCTETS],
    /// The served number.
    pub redirecting: [u8; NUMBER_OCTETS],
    /// The number of the caller's notice; zeros where it has none.
    pub noticed: [u8; NUMBER_OCTETS],
}

impl Carried {
    /// With zeros past every count.
    pub fn clean(diverted: &Diverted) -> Self {
        let mut carried = Carried {
            called: [0; ADDRESS_OCTETS],
            redirecting: [0; NUMBER_OCTETS],
            noticed: [0; NUMBER_OCTETS],
        };
        write_address_record(&mut carried.called, &diverted.called);
        write_number_record(&mut carried.redirecting, &diverted.redirecting);
        if let Notice::DivertingTo(number) = &diverted.notice {
            write_number_record(&mut carried.noticed, number);
        }
        carried
    }
}

pub fn onward_record(diverted: &Diverted, carried: &Carried) -> Vec<u8> {
    let values = [
        diverted.redirecting_allowed,
        diverted.original_allowed,
        diverted.preference,
        diverted.option,
    ];
    [
        &[octet(diverted.counter)],
        &carried.called[..],
        &carried.redirecting,
        &values.map(octet),
        &carried.noticed,
    ]
    .concat()
}
