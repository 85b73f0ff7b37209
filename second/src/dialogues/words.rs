//! The words dialogues are written in: accesses, requests, octets and what is said to them.

use crate::access_record::{write_access, ACCESS_OCTETS};
use crate::answer::{Answer, Entry, Problem};
use crate::elements::{element, TAG_SEQUENCE};
use crate::hexadecimal::octets;
use crate::numbers::{Address, Number, Subaddress};
use crate::profile::Profile;
use crate::request::{Request, Served, TAG_INVOKE};
use crate::samples::{self, instance, sample_profile, wide_profile};
use crate::table::Instance;
use crate::table_record::{
    place, Place, TableRecord, DIGITS, PLACE_OCTETS, SUBADDRESS, SUBADDRESS_COUNT,
};
use crate::transcript::Said;

pub const SPEECH: i32 = 1;

/// Twenty digits, the most there may be.
pub const TWENTY: &str = "12345678901234567890";

pub fn refused(number: u8) -> Said {
    Said::Refused(number)
}

pub fn silent() -> Said {
    Said::Silent
}

fn replied(answer: &Answer) -> Said {
    Said::Replied(answer.written())
}

pub fn reject_null(problem: Problem) -> Said {
    replied(&Answer::Reject {
        identifier: None,
        problem,
    })
}

pub fn reject(identifier: i32, problem: Problem) -> Said {
    replied(&Answer::Reject {
        identifier: Some(identifier),
        problem,
    })
}

pub fn error(identifier: i32, code: i32) -> Said {
    replied(&Answer::Error { identifier, code })
}

/// Without contents.
pub fn result(identifier: i32) -> Said {
    replied(&Answer::Result { identifier })
}

pub fn list(identifier: i32, entries: &[Entry]) -> Said {
    replied(&Answer::List {
        identifier,
        entries: entries.to_vec(),
    })
}

/// The octets of document 01 themselves.
pub fn reply(hex: &str) -> Said {
    Said::Replied(octets(hex))
}

/// An instance as a list carries it, with this number.
pub fn listed(number: &Number, instance: &Instance) -> Entry {
    Entry {
        number: number.clone(),
        service: instance.service,
        procedure: instance.procedure,
        address: instance.address.clone(),
    }
}

pub fn held(procedure: i32, number: i32, service: i32, address: Address) -> Instance {
    Instance {
        procedure,
        number,
        service,
        address,
    }
}

/// Instances of one procedure for these numbers and services, each to the same digits.
pub fn instances(procedure: i32, pairs: &[(i32, i32)], digits: &str) -> Vec<Instance> {
    let pairs = pairs.iter();
    pairs
        .map(|(number, service)| instance(procedure, *number, *service, digits))
        .collect()
}

/// Every number with each of these services.
pub fn every_pair(
    procedure: i32,
    numbers: &[i32],
    services: &[i32],
    digits: &str,
) -> Vec<Instance> {
    let pairs: Vec<(i32, i32)> = numbers
        .iter()
        .flat_map(|number| services.iter().map(|service| (*number, *service)))
        .collect();
    instances(procedure, &pairs, digits)
}

pub fn activation(procedure: i32, service: i32, address: Address, served: Served) -> Request {
    Request::Activation {
        procedure,
        service,
        address,
        served,
    }
}

pub fn deactivation(procedure: i32, service: i32, served: Served) -> Request {
    Request::Deactivation {
        procedure,
        service,
        served,
    }
}

pub fn interrogation(procedure: i32, service: i32, served: Served) -> Request {
    Request::Interrogation {
        procedure,
        service,
        served,
    }
}

pub fn all_numbers() -> Served {
    Served::AllNumbers
}

pub fn individual(number: &Number) -> Served {
    Served::Individual(number.clone())
}

/// An address of this unknown number, without subaddress.
pub fn to(digits: &str) -> Address {
    samples::to(Number::unknown(digits))
}

pub fn to_public(number_type: i32, digits: &str) -> Address {
    samples::to(Number::public(number_type, digits))
}

/// A number of another kind (tag 82).
pub fn to_other_kind() -> Address {
    samples::to(Number::other_kind())
}

pub fn user_specified(address: Address) -> Address {
    Address {
        subaddress: Subaddress::UserSpecified,
        ..address
    }
}

pub fn with_subaddress(address: Address, octets: &[u8]) -> Address {
    Address {
        subaddress: Subaddress::Octets(octets.to_vec()),
        ..address
    }
}

/// A component of tag A1 with these contents in hex.
pub fn invoke(contents: &str) -> Vec<u8> {
    element(TAG_INVOKE, &octets(contents))
}

/// An invoke with identifier 1 and this operation and argument.
pub fn invoke_with(operation: &str, argument: &str) -> Vec<u8> {
    let argument = element(TAG_SEQUENCE, &octets(argument));
    let before = octets(&format!("02 01 01 02 01 {operation}"));
    element(TAG_INVOKE, &[before, argument].concat())
}

/// The sample access with every procedure, not counted.
pub fn open_access() -> Profile {
    Profile {
        subscribed: [1, 1, 1],
        counted: 0,
        ..sample_profile()
    }
}

/// MSN with the "all numbers" option, three numbers, services 1, 3 and 32: nine pairs for each
/// procedure, one more than it may have instances. Counted.
pub fn nine_pairs() -> Profile {
    Profile {
        numbers: vec![
            Number::unknown("501"),
            Number::unknown("502"),
            Number::unknown("503"),
        ],
        services: vec![1, 3, 32],
        counted: 1,
        ..wide_profile()
    }
}

/// Three numbers, services 1, 2, 3 and 32; cfnr is not subscribed.
pub fn narrow_access() -> Profile {
    Profile {
        numbers: wide_profile().numbers[..3].to_vec(),
        services: vec![1, 2, 3, 32],
        subscribed: [1, 1, 0],
        ..wide_profile()
    }
}

/// The record of a profile with rubbish past every count.
pub fn scribbled_access(profile: &Profile) -> Vec<u8> {
    let mut record = vec![0xFF; ACCESS_OCTETS];
    write_access(&mut record, profile);
    record
}

/// The place of an instance to 24680, with zeros past both counts.
pub fn clean(procedure: i32, number: i32, service: i32) -> Place {
    place(procedure, number, service, &to("24680"))
}

/// The same with rubbish past both counts.
pub fn scribbled(procedure: i32, number: i32, service: i32) -> Place {
    let mut place = clean(procedure, number, service);
    place[DIGITS + 5..SUBADDRESS_COUNT].fill(0xEE);
    place[SUBADDRESS..].fill(0x3A);
    place
}

/// A place that no rule would let an instance be in.
pub const RUBBISH: Place = [0xDD; PLACE_OCTETS];

/// Its last handled identifier is one too many.
pub fn bad_table() -> TableRecord {
    TableRecord {
        last: 32_768,
        ..TableRecord::fresh()
    }
}
