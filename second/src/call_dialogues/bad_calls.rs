//! Call records that break one rule each, refusal 5.

use crate::call_record::{
    call_record, CALL_OCTETS, COUNTER, DIGITS, DIGIT_COUNT, EVENT, NUMBER, OPTION, PREFERENCE,
    PRESENTATION, SERVICE,
};
use crate::calls::Call;
use crate::dialogues::script::{dialogue, Dialogue};
use crate::dialogues::words::TWENTY;
use crate::samples::sample_profile;

use super::words::{diverted, first_call, later_call, later_diversion, refused, talk};

pub fn dialogues() -> Vec<Dialogue> {
    let mut all: Vec<Dialogue> = BAD_OCTETS.iter().map(bad_octets).collect();
    all.push(bad_digits());
    all.push(no_second_number());
    all.push(bad_sizes());
    all.push(not_used());
    all
}

/// Octets of a good record changed: their place, and what is put there.
const BAD_OCTETS: [(&str, &[(usize, u8)]); 8] = [
    ("a fifth number of four", &[(NUMBER, 4)]),
    ("service 0, all services", &[(SERVICE, 0)]),
    (
        "services outside the sixteen",
        &[(SERVICE, 6), (SERVICE, 43)],
    ),
    ("event 3", &[(EVENT, 3)]),
    ("counter 6", &[(COUNTER, 6)]),
    ("option 3", &[(OPTION, 3)]),
    ("presentation 2", &[(PRESENTATION, 2)]),
    ("preference 3", &[(PREFERENCE, 3)]),
];

/// A good call with twenty digits, diverted unless it is changed.
fn fullest_call() -> Call {
    Call {
        original: TWENTY.as_bytes().to_vec(),
        ..later_call()
    }
}

fn changed(place: usize, octet: u8) -> Vec<u8> {
    let mut record = call_record(&fullest_call());
    record[place] = octet;
    record
}

fn refuses(talk: Dialogue, changes: &[(usize, u8)]) -> Dialogue {
    changes.iter().fold(talk, |talk, (place, octet)| {
        talk.calls_octets(changed(*place, *octet), refused(5))
    })
}

fn bad_octets((name, changes): &(&str, &[(usize, u8)])) -> Dialogue {
    refuses(talk(&format!("bad call: {name}")), changes)
}

fn bad_digits() -> Dialogue {
    let talk = talk("bad call: 21 digits, a space, a character just below 0 or above 9");
    let changes = [
        (DIGIT_COUNT, 21),
        (DIGITS, b' '),
        (DIGITS + 1, b'/'),
        (DIGITS + 19, b':'),
    ];
    refuses(talk, &changes)
}

fn no_second_number() -> Dialogue {
    let second = Call {
        number: 1,
        service: 1,
        ..later_call()
    };
    dialogue("bad call: the second number of one", &sample_profile()).calls(&second, refused(5))
}

/// A53.
fn bad_sizes() -> Dialogue {
    let talk = talk("bad call: records of 0, 27 and 29 octets");
    let sizes = [0, CALL_OCTETS - 1, CALL_OCTETS + 1];
    let talk = sizes.iter().fold(talk, |talk, size| {
        let mut record = call_record(&later_call());
        record.resize(*size, 0);
        talk.calls_octets(record, refused(5))
    });
    talk.calls(&later_call(), diverted(&later_diversion()))
}

/// A48: on the first diversion the original received is replaced; without one nothing is used.
fn not_used() -> Dialogue {
    let bad_original = Call {
        original: b"7*".to_vec(),
        ..first_call()
    };
    let bad_option = Call {
        option: 3,
        ..first_call()
    };
    talk("bad call: a bad value is refused even where it would not be used")
        .calls(&bad_original, refused(5))
        .table(0, &[])
        .calls(&bad_option, refused(5))
}
