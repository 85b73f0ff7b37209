//! Replies of a wrong shape, whatever the profile: what follows the identifier.

use crate::answer::{TAG_ERROR, TAG_RESULT};
use crate::codes::INTERROGATION;
use crate::elements::{element, integer};
use crate::hexadecimal::octets;
use crate::random::Random;

use super::waiting::Waiting;

/// The requests that it is the wrong reply to.
#[derive(Clone, Copy, Debug, PartialEq, Eq)]
enum Of {
    Any,
    /// An activation or a deactivation.
    Change,
    Interrogation,
}

#[derive(Clone, Copy, Debug, PartialEq, Eq)]
pub struct Shape {
    tag: u8,
    of: Of,
    /// In hexadecimal text, one or another between bars.
    afters: &'static str,
}

const fn error(afters: &'static str) -> Shape {
    Shape {
        tag: TAG_ERROR,
        of: Of::Any,
        afters,
    }
}

const fn change(afters: &'static str) -> Shape {
    Shape {
        tag: TAG_RESULT,
        of: Of::Change,
        afters,
    }
}

const fn list(afters: &'static str) -> Shape {
    Shape {
        tag: TAG_RESULT,
        of: Of::Interrogation,
        afters,
    }
}

pub const SHAPES: [(Shape, &str); 26] = [
    (error(""), "error: nothing"),
    (
        error("02 01 2E 02 01 2E|02 01 00 02 01 03"),
        "error: two values",
    ),
    (
        error("02 01 2E 30 00|02 01 03 05 00|02 01 0B 04 01 07"),
        "error: a parameter",
    ),
    (
        error("02 01 2E C0 00|02 01 03 E1 02 05 00"),
        "error: a private element",
    ),
    (error("06 01 2E|06 03 2A 03 04"), "error: object identifier"),
    (
        error("02 00|02 02 00 2E|02 03 00 80 00|02 02 FF 80"),
        "error: value unreadable",
    ),
    (error("02 02 2E|02 01"), "error: value cut off"),
    (error("0A 01 2E|05 00|82 01 2E"), "error: another tag"),
    (
        change("30 05 02 01 07 05 00|30 05 02 01 08 30 00|30 03 02 01 07"),
        "result of 7 or 8: with contents",
    ),
    (
        change("30 05 02 01 0B 31 00"),
        "result of 7 or 8: an empty list",
    ),
    (change("05 00|02 01 07"), "result of 7 or 8: an element"),
    (change("C0 00"), "result of 7 or 8: a private element"),
    (change("00|FF|30 80"), "result of 7 or 8: any octets"),
    (list(""), "list: nothing"),
    (
        list("31 00|05 00|02 01 0B 31 00|31 05 02 01 0B 31 00"),
        "list: no sequence",
    ),
    (list("30 00|30 02 31 00"), "list: no operation"),
    (
        list("30 05 02 01 07 31 00|30 05 02 01 08 31 00|30 05 02 01 0C 31 00|30 06 02 02 01 0B 31 00"),
        "list: another operation",
    ),
    (
        list("30 06 02 02 00 0B 31 00|30 05 06 01 0B 31 00|30 05 0A 01 0B 31 00"),
        "list: operation unreadable",
    ),
    (list("30 03 02 01 0B"), "list: no set"),
    (
        list("30 05 02 01 0B 30 00|30 05 02 01 0B 11 00|30 05 02 01 0B 05 00"),
        "list: another tag in place of the set",
    ),
    (
        list("30 07 02 01 0B 31 00 05 00|30 07 02 01 0B 31 00 31 00"),
        "list: more after the set",
    ),
    (
        list("30 07 02 01 0B 31 00 C0 00"),
        "list: a private element after the set",
    ),
    (
        list("30 05 02 01 0B 31 00 05 00|30 05 02 01 0B 31 00 30 05 02 01 0B 31 00"),
        "list: more after the sequence",
    ),
    (
        list("30 05 02 01 0B 31 00 C0 00"),
        "list: a private element after the sequence",
    ),
    (
        list("30 05 02 01 0B 31 01|30 06 02 01 0B 31 00|30 05 02 01 0B 31 80"),
        "list: lengths badly built",
    ),
    (
        list("30 07 02 01 0B 31 02 05 00|30 07 02 01 0B 31 02 C0 00"),
        "list: no entries, but another element",
    ),
];

/// `None` where it is not the wrong reply to this request.
pub fn with(random: &mut Random, waiting: &Waiting, shape: &Shape) -> Option<Vec<u8>> {
    let interrogates = waiting.operation == INTERROGATION;
    let fits = match shape.of {
        Of::Any => true,
        Of::Change => !interrogates,
        Of::Interrogation => interrogates,
    };
    let afters: Vec<&str> = shape.afters.split('|').collect();
    let after = octets(random.pick(&afters)?);
    let contents = [integer(waiting.identifier), after].concat();
    fits.then(|| element(shape.tag, &contents))
}
