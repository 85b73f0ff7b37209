//! Lists that no picture may take, each for one cause: their entries.

use crate::answer::{Entry, TAG_RESULT};
use crate::codes::{INTERROGATION, PROCEDURES};
use crate::elements::{element, enumerated, integer, null, TAG_SEQUENCE, TAG_SET};
use crate::flawed_table::not_the_profiles;
use crate::full_tables::instances_of;
use crate::made;
use crate::numbers::{write_address, write_number, Number};
use crate::profile::Profile;
use crate::random::Random;
use crate::sheet_fields::Field;
use crate::table::MOST_INSTANCES;

use super::bad_addresses::{self, AddressFault};
use super::waiting::{entry, good_list, Waiting};

#[derive(Clone, Copy, Debug, PartialEq, Eq)]
pub enum ListFault {
    Nine,
    /// The same number and service twice.
    SameAgain,
    AgainToAnother,
    OtherProcedure,
    NoProcedure,
    /// What is listed is not subscribed.
    NotSubscribed,
    Foreign,
    ServedOtherKind,
    AllNumbers,
    ServiceNotSubscribed,
    AllServices,
    NoService,
    PrivateInTheSet,
    PrivateInAnEntry,
    NoEntry,
    EntryCut,
    EntryTag,
    Swapped,
    Address(AddressFault),
}

pub const LIST_FAULTS: [(ListFault, &str); 28] = [
    (ListFault::Nine, "nine entries"),
    (ListFault::SameAgain, "the same entry twice"),
    (
        ListFault::AgainToAnother,
        "the same number and service twice, to another address",
    ),
    (ListFault::OtherProcedure, "another procedure in one entry"),
    (ListFault::NoProcedure, "no procedure in one entry"),
    (
        ListFault::NotSubscribed,
        "entries of a procedure not subscribed",
    ),
    (ListFault::Foreign, "a number not in the profile"),
    (
        ListFault::ServedOtherKind,
        "a served number of another kind",
    ),
    (ListFault::AllNumbers, "NULL as a number"),
    (ListFault::ServiceNotSubscribed, "a service not subscribed"),
    (ListFault::AllServices, "service 0"),
    (ListFault::NoService, "a service outside the sixteen"),
    (ListFault::PrivateInTheSet, "a private element in the set"),
    (ListFault::PrivateInAnEntry, "a private element in an entry"),
    (ListFault::NoEntry, "an empty entry"),
    (ListFault::EntryCut, "an entry without one of its elements"),
    (ListFault::EntryTag, "an entry of another tag"),
    (
        ListFault::Swapped,
        "an entry's elements the other way round",
    ),
    (
        ListFault::Address(AddressFault::NoDigits),
        "an address of 0 digits",
    ),
    (
        ListFault::Address(AddressFault::TooManyDigits),
        "an address of 21 digits",
    ),
    (
        ListFault::Address(AddressFault::NoDigit),
        "an address with a character that is no digit",
    ),
    (
        ListFault::Address(AddressFault::NoType),
        "an address of no public type",
    ),
    (
        ListFault::Address(AddressFault::OtherKind),
        "an address of another kind",
    ),
    (
        ListFault::Address(AddressFault::UserSpecified),
        "a user-specified subaddress",
    ),
    (
        ListFault::Address(AddressFault::NoSubaddress),
        "a subaddress of 0 octets",
    ),
    (
        ListFault::Address(AddressFault::LongSubaddress),
        "a subaddress of 21 octets",
    ),
    (
        ListFault::Address(AddressFault::Private),
        "a private element in an address",
    ),
    (
        ListFault::Address(AddressFault::Missing),
        "an empty address",
    ),
];

/// The elements of an entry, in their order.
const NUMBER: usize = 0;
const SERVICE: usize = 1;
const PROCEDURE: usize = 2;
const ADDRESS: usize = 3;

/// `None` where the request is no interrogation, or the profile has no room for the fault.
pub fn with(
    random: &mut Random,
    profile: &Profile,
    waiting: &Waiting,
    fault: ListFault,
) -> Option<Vec<u8>> {
    let subscribed = profile.subscribes(waiting.procedure);
    let wanted = subscribed != (fault == ListFault::NotSubscribed);
    if waiting.operation != INTERROGATION || !wanted {
        return None;
    }
    let entries = entries(random, profile, waiting.procedure, fault)?;
    let mut coded: Vec<Vec<u8>> = entries
        .iter()
        .map(|entry| element(0x30, &parts(entry).concat()))
        .collect();
    let at = random.below(coded.len());
    let mut parts = parts(&entries[at]);
    if fault == ListFault::PrivateInTheSet {
        coded.insert(
            at,
            random
                .one_of(&[&[0xC0, 0x00][..], &[0xE1, 0x02, 0x05, 0x00]])
                .to_vec(),
        );
    } else {
        let tag = spoil(random, profile, waiting.procedure, &mut parts, fault)?;
        coded[at] = element(tag, &parts.concat());
    }
    let set = element(TAG_SET, &coded.concat());
    let inside = [integer(INTERROGATION), set].concat();
    let contents = [integer(waiting.identifier), element(TAG_SEQUENCE, &inside)].concat();
    Some(element(TAG_RESULT, &contents))
}

/// Those of a good list, or too many.
fn entries(
    random: &mut Random,
    profile: &Profile,
    procedure: i32,
    fault: ListFault,
) -> Option<Vec<Entry>> {
    if fault == ListFault::Nine {
        let nine = instances_of(random, profile, procedure, MOST_INSTANCES + 1)?;
        return nine.iter().map(|one| entry(profile, one)).collect();
    }
    let mut entries = good_list(random, profile, procedure);
    if matches!(fault, ListFault::SameAgain | ListFault::AgainToAnother) {
        entries.truncate(MOST_INSTANCES - 1);
        let mut again = random.pick(&entries)?.clone();
        if fault == ListFault::AgainToAnother {
            again.address = made::address(random);
        }
        entries.push(again);
    }
    Some(entries)
}

fn parts(entry: &Entry) -> [Vec<u8>; 4] {
    [
        write_number(&entry.number),
        enumerated(entry.service),
        enumerated(entry.procedure),
        write_address(&entry.address),
    ]
}

/// The entry's tag, as a rule a sequence's; its parts are spoiled where the fault is of one entry.
fn spoil(
    random: &mut Random,
    profile: &Profile,
    procedure: i32,
    parts: &mut [Vec<u8>; 4],
    fault: ListFault,
) -> Option<u8> {
    match fault {
        ListFault::OtherProcedure => {
            let mut others = PROCEDURES.to_vec();
            others.retain(|other| *other != procedure);
            parts[PROCEDURE] = enumerated(*random.pick(&others)?);
        }
        ListFault::NoProcedure => parts[PROCEDURE] = enumerated(random.one_of(&[3, 4, 127, -1])),
        ListFault::Foreign => parts[NUMBER] = write_number(&foreign(random, profile)),
        ListFault::ServedOtherKind => {
            let tag = random.one_of(&[0x82, 0x83, 0x84, 0xA5, 0x88]);
            parts[NUMBER] = element(tag, b"1");
        }
        ListFault::AllNumbers => parts[NUMBER] = null(),
        ListFault::ServiceNotSubscribed => {
            let others = not_the_profiles(profile, Field::Service);
            parts[SERVICE] = enumerated(*random.pick(&others)?);
        }
        ListFault::AllServices => parts[SERVICE] = enumerated(0),
        ListFault::NoService => parts[SERVICE] = enumerated(random.one_of(&[6, 31, 43, -1])),
        ListFault::PrivateInAnEntry => {
            let at = random.below(parts.len());
            parts[at].extend([0xC0, 0x00]);
        }
        ListFault::NoEntry => parts.fill(Vec::new()),
        ListFault::EntryCut => parts[random.below(4)].clear(),
        ListFault::EntryTag => return Some(random.one_of(&[0x31, 0x10, 0xA0, 0x04])),
        ListFault::Swapped => parts.swap(NUMBER, random.one_of(&[SERVICE, ADDRESS])),
        ListFault::Address(address) => parts[ADDRESS] = bad_addresses::with(random, address),
        _ => {}
    }
    Some(TAG_SEQUENCE)
}

/// At times the same digits as a number of the profile, in another form.
fn foreign(random: &mut Random, profile: &Profile) -> Number {
    loop {
        let mut number = made::number(random);
        if let Some(own) = random.pick(&profile.numbers).filter(|_| random.once_in(2)) {
            number.digits.clone_from(&own.digits);
        }
        if profile.index_of(&number).is_none() {
            return number;
        }
    }
}
