//! A request of the end as a record of 71 octets. Writing leaves the places that carry no meaning
//! as they were.

use crate::codes::{ACTIVATION, DEACTIVATION, INTERROGATION};
use crate::numbers::{Address, Subaddress};
use crate::records::{
    octet, read_address_record, read_number_record, write_address_record, write_number_record,
    ADDRESS_OCTETS, NUMBER_OCTETS,
};
use crate::request::{Request, Served};

pub const REQUEST_OCTETS: usize = 71;
pub type RequestRecord = [u8; REQUEST_OCTETS];

/// Where the fields stand.
pub const PROCEDURE: usize = 0;
pub const SERVICE: usize = 1;
pub const ALL_NUMBERS: usize = 2;
pub const SERVED: usize = 3;
pub const TO: usize = SERVED + NUMBER_OCTETS;
pub const USER_SPECIFIED: usize = TO + ADDRESS_OCTETS;
/// Where the count of the forwarded-to subaddress stands.
pub const TO_SUBADDRESS_COUNT: usize = TO + NUMBER_OCTETS;

/// The record with zeros in every place that carries no meaning.
pub fn request_record(request: &Request) -> RequestRecord {
    let mut record = [0; REQUEST_OCTETS];
    write_request(&mut record, request);
    record
}

pub fn write_request(record: &mut RequestRecord, request: &Request) {
    record[PROCEDURE] = octet(request.procedure());
    record[SERVICE] = octet(request.service());
    record[ALL_NUMBERS] = u8::from(*request.served() == Served::AllNumbers);
    if let Served::Individual(number) = request.served() {
        write_number_record(&mut record[SERVED..TO], number);
    }
    if let Request::Activation { address, .. } = request {
        write_address_record(&mut record[TO..USER_SPECIFIED], address);
        record[USER_SPECIFIED] = u8::from(address.subaddress == Subaddress::UserSpecified);
    }
}

/// An interrogation is of all services and all numbers, and the rest of its record is zeros.
pub fn interrogation_record(procedure: u8) -> RequestRecord {
    let mut record = [0; REQUEST_OCTETS];
    record[PROCEDURE] = procedure;
    record[ALL_NUMBERS] = 1;
    record
}

/// The request, its other rules not yet judged. `None` for another operation, a count that goes
/// past its places, or a flag that is none.
pub fn read_request(operation: i32, record: &RequestRecord) -> Option<Request> {
    let procedure = i32::from(record[PROCEDURE]);
    let service = i32::from(record[SERVICE]);
    let served = match record[ALL_NUMBERS] {
        0 => Served::Individual(read_number_record(&record[SERVED..TO])?),
        1 => Served::AllNumbers,
        _ => return None,
    };
    match operation {
        ACTIVATION => Some(Request::Activation {
            procedure,
            service,
            address: read_to(record)?,
            served,
        }),
        DEACTIVATION => Some(Request::Deactivation {
            procedure,
            service,
            served,
        }),
        INTERROGATION => Some(Request::Interrogation {
            procedure,
            service,
            served,
        }),
        _ => None,
    }
}

fn read_to(record: &RequestRecord) -> Option<Address> {
    let address = read_address_record(&record[TO..USER_SPECIFIED])?;
    match record[USER_SPECIFIED] {
        0 => Some(address),
        1 => Some(Address {
            subaddress: Subaddress::UserSpecified,
            ..address
        }),
        _ => None,
    }
}

/// Octets that carry no meaning, and are not zeros.
pub fn has_rubbish(operation: i32, record: &RequestRecord) -> bool {
    let read = read_request(operation, record);
    read.is_some_and(|request| request_record(&request) != *record)
}
