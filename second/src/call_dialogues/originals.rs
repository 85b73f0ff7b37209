//! The redirecting and the original number, and whether they may be shown.

use crate::call_answer::CallAnswer;
use crate::calls::{Call, Diverted};
use crate::dialogues::script::Dialogue;
use crate::dialogues::words::TWENTY;
use crate::profile::Profile;
use crate::samples::wide_profile;

use super::words::{
    diverted, first_call, first_diversion, later_call, later_diversion, talk, talk_on,
};

pub fn dialogues() -> Vec<Dialogue> {
    vec![
        first_released(),
        later_released(),
        first_not_released(),
        later_not_released(),
    ]
}

/// The call comes with this original number, or with none, and its presentation.
fn received(call: Call, original: &str, original_allowed: i32) -> Call {
    Call {
        original: original.as_bytes().to_vec(),
        original_allowed,
        ..call
    }
}

/// The presentation of the redirecting number, the original number and its presentation.
fn handed_on(
    diversion: Diverted,
    redirecting_allowed: i32,
    original: &str,
    original_allowed: i32,
) -> CallAnswer {
    diverted(&Diverted {
        redirecting_allowed,
        original: original.as_bytes().to_vec(),
        original_allowed,
        ..diversion
    })
}

/// A48: what was received is not used.
fn first_released() -> Dialogue {
    let first = |original, allowed| received(first_call(), original, allowed);
    let served_number = || handed_on(first_diversion(), 1, "4912345", 1);
    talk("number released: the first original is the served number, and may be shown")
        .calls(&first("", 0), served_number())
        .calls(&first("777", 0), served_number())
        .calls(&first(TWENTY, 1), served_number())
}

fn later_released() -> Dialogue {
    let later = |original, allowed| received(later_call(), original, allowed);
    let answer = |original, allowed| handed_on(later_diversion(), 1, original, allowed);
    talk("number released: a later original is as received, absent or not (A48)")
        .calls(&later("777", 0), answer("777", 0))
        .calls(&later(TWENTY, 1), answer(TWENTY, 1))
        .calls(&later("", 0), answer("", 0))
        .calls(&later("", 1), answer("", 1))
}

fn keeping_own_number() -> Profile {
    Profile {
        release_own_number: 0,
        ..wide_profile()
    }
}

/// A51.
fn first_not_released() -> Dialogue {
    let first = |original, allowed| received(first_call(), original, allowed);
    let served_number = || handed_on(first_diversion(), 0, "4912345", 0);
    talk_on(
        "number not released: neither it nor the first original may be shown",
        &keeping_own_number(),
    )
    .calls(&first("", 0), served_number())
    .calls(&first("777", 1), served_number())
}

fn later_not_released() -> Dialogue {
    let later = |original, allowed| received(later_call(), original, allowed);
    let answer = |original, allowed| handed_on(later_diversion(), 0, original, allowed);
    talk_on(
        "number not released: a later original keeps its presentation",
        &keeping_own_number(),
    )
    .calls(&later("777", 0), answer("777", 0))
    .calls(&later("777", 1), answer("777", 1))
}
