//! Replies to an interrogation that give doubt for their shape, and rejects; each leaves the picture
//! as it was.

use crate::dialogues::script::{dialogue, Dialogue};
use crate::samples::sample_profile;

use super::words::{
    asking, component, held_24680, idle, interrogation_sent, shown_24680, CFB, CFB_IN_DOUBT,
};

const RESULT: u8 = 0xA2;
const ERROR: u8 = 0xA3;
const REJECT: u8 = 0xA4;

/// What follows the identifier.
const SHAPES: [(&str, u8, &str); 34] = [
    ("a reject of a duplicate", REJECT, "81 01 00"),
    ("a reject with a general problem", REJECT, "80 01 01"),
    ("a reject without a problem", REJECT, ""),
    ("a reject whose shape is not looked at", REJECT, "FF FF FF"),
    ("an error with nothing after its identifier", ERROR, ""),
    ("an error with two values", ERROR, "02 01 2E 02 01 2E"),
    ("an error with a parameter", ERROR, "02 01 2E 30 00"),
    (
        "an error with a NULL after its value",
        ERROR,
        "02 01 2E 05 00",
    ),
    (
        "an error with a private element after its value",
        ERROR,
        "02 01 2E C0 00",
    ),
    (
        "an error whose value is an object identifier",
        ERROR,
        "06 01 2E",
    ),
    (
        "an error whose value is not in shortest form",
        ERROR,
        "02 02 00 2E",
    ),
    ("an error whose value has no octets", ERROR, "02 00"),
    (
        "an error whose value has three octets",
        ERROR,
        "02 03 01 00 00",
    ),
    ("an error whose value is cut off", ERROR, "02 02 2E"),
    ("an error whose value is enumerated", ERROR, "0A 01 2E"),
    ("a result of an interrogation without contents", RESULT, ""),
    ("a result with a NULL in place of the list", RESULT, "05 00"),
    (
        "a result with a list but no sequence around it",
        RESULT,
        "02 01 0B 31 00",
    ),
    (
        "a result in a set in place of the sequence",
        RESULT,
        "31 05 02 01 0B 31 00",
    ),
    ("an empty sequence", RESULT, "30 00"),
    ("a list without its operation", RESULT, "30 02 31 00"),
    ("a list of an activation", RESULT, "30 05 02 01 07 31 00"),
    ("a list of operation 12", RESULT, "30 05 02 01 0C 31 00"),
    (
        "a list whose operation is not in shortest form",
        RESULT,
        "30 06 02 02 00 0B 31 00",
    ),
    (
        "a list whose operation is an object identifier",
        RESULT,
        "30 05 06 01 0B 31 00",
    ),
    ("an operation without a list", RESULT, "30 03 02 01 0B"),
    (
        "a sequence in place of the set",
        RESULT,
        "30 05 02 01 0B 30 00",
    ),
    (
        "a set that runs past its sequence",
        RESULT,
        "30 05 02 01 0B 31 01",
    ),
    (
        "a set whose length is badly built",
        RESULT,
        "30 05 02 01 0B 31 80",
    ),
    ("a NULL after the set", RESULT, "30 07 02 01 0B 31 00 05 00"),
    (
        "a private element after the set",
        RESULT,
        "30 07 02 01 0B 31 00 C0 00",
    ),
    (
        "a NULL after the sequence",
        RESULT,
        "30 05 02 01 0B 31 00 05 00",
    ),
    (
        "a private element after the sequence",
        RESULT,
        "30 05 02 01 0B 31 00 C0 00",
    ),
    (
        "a private element in the set",
        RESULT,
        "30 07 02 01 0B 31 02 C0 00",
    ),
];

pub fn dialogues() -> Vec<Dialogue> {
    SHAPES
        .iter()
        .map(|(name, tag, after)| doubted(name, component(*tag, 5, after)))
        .collect()
}

/// Known before, with one entry, which an end in doubt keeps and doesn't show.
pub fn doubted(name: &str, reply: Vec<u8>) -> Dialogue {
    let holds = |used| idle(used).holds(&[held_24680()]);
    dialogue(format!("interrogation, doubt: {name}"), &sample_profile())
        .end(holds(4))
        .shows(CFB, &[shown_24680()])
        .interrogates(CFB, &interrogation_sent(5, CFB))
        .then_end(holds(5).waits_for(11, 1, asking(CFB)))
        .takes_octets(reply)
        .then_end(holds(5).marked(CFB_IN_DOUBT))
        .shows_doubt(CFB)
}
