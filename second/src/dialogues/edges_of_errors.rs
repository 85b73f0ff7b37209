//! What just earns an error of an activation, and what just doesn't.

use crate::codes::CFB;
use crate::numbers::{Address, Number};
use crate::samples::instance;

use super::guarded::{earns, fault, full, guarded, own, OWN, SIXTEEN, SIXTEEN_PREFIXED};
use super::script::{dialogue, Dialogue};
use super::words::{activation, all_numbers, held, individual, result, to, to_public, SPEECH};

pub fn dialogues() -> Vec<Dialogue> {
    vec![
        international_digits(),
        prefix_found(),
        prefix_not_found(),
        one_of_the_selected(),
        not_the_same(),
        not_selected(),
        a_place_left(),
    ]
}

/// Each of these addresses is placed, one after the other.
fn placed(name: &str, addresses: &[Address]) -> Dialogue {
    let talk = dialogue(name, &guarded());
    addresses.iter().fold(talk, |talk, address| {
        let request = activation(CFB, SPEECH, address.clone(), own());
        talk.asks(1, &request, result(1))
            .then_holds(0, &[held(CFB, 0, SPEECH, address.clone())])
    })
}

fn international_digits() -> Dialogue {
    let fifteen = to_public(1, &SIXTEEN[..15]);
    placed(
        "12: public type 1 ends at 15 digits, others at 20",
        &[fifteen, to_public(2, SIXTEEN), to(SIXTEEN)],
    )
}

fn prefix_found() -> Dialogue {
    earns(
        "14: the prefix itself, and any form and type (A31)",
        &guarded(),
        &[],
        [
            fault(SPEECH, to("112"), own(), 14),
            fault(SPEECH, to_public(6, "112"), own(), 14),
            fault(SPEECH, to_public(0, SIXTEEN_PREFIXED), own(), 14),
        ],
    )
}

fn prefix_not_found() -> Dialogue {
    placed(
        "14: not the start of a prefix, nor its digits inside",
        &[to("11"), to("0112")],
    )
}

fn one_of_the_selected() -> Dialogue {
    let every = fault(SPEECH, to(OWN), all_numbers(), 15);
    earns(
        "15: one of all the selected numbers",
        &guarded(),
        &[],
        [every],
    )
}

fn not_the_same() -> Dialogue {
    placed(
        "15: form, type and digits must agree (A29)",
        &[to_public(0, OWN), to("135790")],
    )
}

fn not_selected() -> Dialogue {
    let third = individual(&Number::public(1, SIXTEEN));
    dialogue(
        "15: another number of the access is no error (A29)",
        &guarded(),
    )
    .asks(1, &activation(CFB, SPEECH, to(OWN), third), result(1))
    .then_holds(0, &[instance(CFB, 2, SPEECH, OWN)])
}

fn a_place_left() -> Dialogue {
    let seven = &full()[1..];
    let eight = [seven, &[instance(CFB, 0, SPEECH, "24680")]].concat();
    dialogue("11 (room): a place is left", &guarded())
        .table(0, seven)
        .asks(1, &activation(CFB, SPEECH, to("24680"), own()), result(1))
        .then_holds(0, &eight)
}
