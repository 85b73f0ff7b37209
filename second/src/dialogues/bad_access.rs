//! Access records that break one rule each, refusal 3, and records that just keep them.

use crate::access_record::{
    access_record, ACCESS_OCTETS, NUMBERS, NUMBER_COUNT, PREFIXES, PREFIX_COUNT, PREFIX_OCTETS,
    SERVICE_COUNT, SUBSCRIBED,
};
use crate::codes::CFU;
use crate::numbers::Number;
use crate::profile::Profile;
use crate::records::NUMBER_OCTETS;
use crate::samples::{sample_profile, wide_profile};

use super::script::{dialogue, Dialogue};
use super::words::{all_numbers, error, interrogation, list, refused, TWENTY};

/// Places in the record after the counts and lists.
const SERVICES: usize = SERVICE_COUNT + 1;
const MSN: usize = SUBSCRIBED + 3;
const ALL_NUMBERS: usize = SUBSCRIBED + 4;
const IN_USE: usize = SUBSCRIBED + 5;
const COUNTED: usize = SUBSCRIBED + 6;
const OPTION: usize = SUBSCRIBED + 7;
const RELEASE: usize = SUBSCRIBED + 8;
const LIMIT: usize = SUBSCRIBED + 9;
/// The fourth number, of form public.
const FOURTH: usize = NUMBERS + 3 * NUMBER_OCTETS;
/// The sixteenth prefix.
const SIXTEENTH: usize = PREFIXES + 15 * PREFIX_OCTETS;

pub fn dialogues() -> Vec<Dialogue> {
    let mut all = vec![bad_sizes()];
    all.extend(bad_octets());
    all.push(two_the_same());
    all.extend(just_good());
    all
}

/// Four numbers, six services, sixteen prefixes: as much as there may be.
fn fullest() -> Profile {
    Profile {
        prefixes: vec![TWENTY.as_bytes().to_vec(); 16],
        ..wide_profile()
    }
}

fn refuses(name: &str, records: Vec<Vec<u8>>) -> Dialogue {
    let request = interrogation(CFU, 0, all_numbers());
    let talk = dialogue(format!("bad access: {name}"), &wide_profile());
    records.into_iter().fold(talk, |talk, record| {
        talk.access(record).asks(1, &request, refused(3))
    })
}

fn bad_sizes() -> Dialogue {
    let sizes = [0, ACCESS_OCTETS - 1, ACCESS_OCTETS + 1];
    let records = sizes.map(|size| {
        let mut record = access_record(&fullest());
        record.resize(size, 0);
        record
    });
    refuses("0, 446 and 448 octets", records.to_vec())
}

/// One octet of a good record changed: its place, and what is put there.
const BAD_OCTETS: [(&str, &[(usize, u8)]); 22] = [
    ("0 or 5 numbers", &[(NUMBER_COUNT, 0), (NUMBER_COUNT, 5)]),
    ("four numbers without MSN", &[(MSN, 0)]),
    (
        "number of another kind or form",
        &[(NUMBERS, 2), (FOURTH, 255)],
    ),
    ("unknown number with a type (A7)", &[(NUMBERS + 1, 1)]),
    ("public type 5 or 7", &[(FOURTH + 1, 5), (FOURTH + 1, 7)]),
    (
        "number of 0 or 21 digits",
        &[(NUMBERS + 2, 0), (FOURTH + 2, 21)],
    ),
    ("a digit that is a space", &[(NUMBERS + 3, b' ')]),
    (
        "a digit just below 0 or above 9",
        &[(NUMBERS + 4, b'/'), (FOURTH + 3, b':')],
    ),
    ("0 or 7 services", &[(SERVICE_COUNT, 0), (SERVICE_COUNT, 7)]),
    ("service 0 or 6", &[(SERVICES, 0), (SERVICES + 2, 6)]),
    (
        "service 31 or 43",
        &[(SERVICES + 3, 31), (SERVICES + 5, 43)],
    ),
    (
        "services not ascending, or repeated (A1)",
        &[(SERVICES + 1, 32), (SERVICES + 1, 1)],
    ),
    (
        "cfu, cfb, cfnr neither 0 nor 1",
        &[(SUBSCRIBED, 2), (SUBSCRIBED + 1, 255), (SUBSCRIBED + 2, 2)],
    ),
    ("MSN 2", &[(MSN, 2)]),
    ("\"all numbers\" option 2", &[(ALL_NUMBERS, 2)]),
    ("in use 2", &[(IN_USE, 2)]),
    ("counted end 2", &[(COUNTED, 2)]),
    ("notification option 3", &[(OPTION, 3)]),
    ("release own number 2", &[(RELEASE, 2)]),
    ("diversion limit 0 or 6", &[(LIMIT, 0), (LIMIT, 6)]),
    ("17 prefixes", &[(PREFIX_COUNT, 17)]),
    (
        "prefix of 0 or 21 digits, or with no digit (A3)",
        &[(PREFIXES, 0), (SIXTEENTH, 21), (SIXTEENTH + 20, b'*')],
    ),
];

fn bad_octets() -> Vec<Dialogue> {
    let talks = BAD_OCTETS.map(|(name, changes)| {
        let changed = |(place, octet): &(usize, u8)| {
            let mut record = access_record(&fullest());
            record[*place] = *octet;
            record
        };
        refuses(name, changes.iter().map(changed).collect())
    });
    talks.into()
}

fn two_the_same() -> Dialogue {
    let mut profile = wide_profile();
    profile.numbers[3] = profile.numbers[1].clone();
    refuses("two numbers the same", vec![access_record(&profile)])
}

fn just_good() -> Vec<Dialogue> {
    let request = interrogation(CFU, 0, all_numbers());
    let answered = |name, profile: &Profile, said| dialogue(name, profile).asks(1, &request, said);
    let least = Profile {
        numbers: vec![Number::unknown("0")],
        services: vec![42],
        subscribed: [0, 0, 0],
        all_numbers: 1,
        counted: 0,
        notification: 0,
        release_own_number: 0,
        diversion_limit: 1,
        ..sample_profile()
    };
    vec![
        answered(
            "good access: as much as there may be",
            &fullest(),
            list(1, &[]),
        ),
        answered(
            "good access: nothing subscribed, option without MSN (A2)",
            &least,
            error(1, 0),
        ),
    ]
}
