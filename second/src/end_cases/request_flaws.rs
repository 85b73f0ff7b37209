//! The causes of refusal 10 that the record of a request can be made with, one at a time.

use crate::codes::{ACTIVATION, INTERROGATION};
use crate::made;
use crate::random::Random;
use crate::records::write_number_record;
use crate::request_record::{
    RequestRecord, ALL_NUMBERS, PROCEDURE, SERVED, SERVICE, TO, TO_SUBADDRESS_COUNT, USER_SPECIFIED,
};
use crate::spoiled::spoil_number;

#[derive(Clone, Copy, Debug, PartialEq, Eq)]
pub enum RequestFlaw {
    Procedure,
    Service,
    /// Neither all numbers nor one.
    AllNumbers,
    ServedNumber,
    ForwardedTo,
    Subaddress,
    UserSpecified,
    /// Neither a user-specified subaddress nor none.
    UserFlag,
}

pub const REQUEST_FLAWS: [(RequestFlaw, &str); 8] = [
    (RequestFlaw::Procedure, "procedure over 2"),
    (RequestFlaw::Service, "service neither 0 nor of the sixteen"),
    (RequestFlaw::AllNumbers, "\"all numbers\" over 1"),
    (RequestFlaw::ServedNumber, "bad served number"),
    (RequestFlaw::ForwardedTo, "bad forwarded-to number"),
    (RequestFlaw::Subaddress, "subaddress over 20 octets"),
    (RequestFlaw::UserSpecified, "user-specified subaddress"),
    (RequestFlaw::UserFlag, "\"user-specified\" over 1"),
];

/// Whether a request of this operation has the part that is spoiled.
pub fn applies(flaw: RequestFlaw, operation: i32) -> bool {
    match flaw {
        RequestFlaw::Procedure | RequestFlaw::Service | RequestFlaw::AllNumbers => true,
        RequestFlaw::ServedNumber => operation != INTERROGATION,
        _ => operation == ACTIVATION,
    }
}

pub fn spoil(random: &mut Random, record: &mut RequestRecord, flaw: RequestFlaw) {
    let mut bad = made::number(random);
    spoil_number(random, &mut bad);
    match flaw {
        RequestFlaw::Procedure => record[PROCEDURE] = random.one_of(&[3, 4, 127, 128, 255]),
        RequestFlaw::Service => record[SERVICE] = random.one_of(&[6, 31, 43, 128, 255]),
        RequestFlaw::AllNumbers => record[ALL_NUMBERS] = random.one_of(&[2, 3, 128, 255]),
        RequestFlaw::ServedNumber => {
            record[ALL_NUMBERS] = 0;
            write_number_record(&mut record[SERVED..TO], &bad);
        }
        RequestFlaw::ForwardedTo => {
            write_number_record(&mut record[TO..TO_SUBADDRESS_COUNT], &bad);
        }
        RequestFlaw::Subaddress => {
            record[TO_SUBADDRESS_COUNT] = random.one_of(&[21, 22, 128, 255]);
        }
        RequestFlaw::UserSpecified => record[USER_SPECIFIED] = 1,
        RequestFlaw::UserFlag => record[USER_SPECIFIED] = random.one_of(&[2, 3, 128, 255]),
    }
}
