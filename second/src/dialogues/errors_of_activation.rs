//! The errors of an activation, 8, 11 (user-specified subaddress), 12, 14, 15 and 11 (room), in
//! their order after 3, 0 and 6: each with the next one at once, and many pairs further apart.

use crate::numbers::Number;
use crate::profile::Profile;

use super::guarded::{
    earns, fault, foreign, full, guarded, own, Fault, OWN, PREFIXED, SIXTEEN, SIXTEEN_PREFIXED,
};
use super::script::Dialogue;
use super::words::{all_numbers, individual, to, to_other_kind, to_public, user_specified, SPEECH};

pub fn dialogues() -> Vec<Dialogue> {
    let mut all = adjacent_pairs();
    all.extend(pairs_with_3_0_6());
    all.extend(pairs_further_apart());
    all
}

/// One of the sixteen services, not subscribed.
const NOT_SUBSCRIBED_SERVICE: i32 = 42;

fn on_full(name: &str, faults: impl IntoIterator<Item = Fault>) -> Dialogue {
    earns(name, &guarded(), &full(), faults)
}

/// Both faults, and then the later one alone.
fn adjacent_pairs() -> Vec<Dialogue> {
    let good = || to("24680");
    let prefixed = individual(&Number::unknown(PREFIXED));
    let before_8 = [
        fault(NOT_SUBSCRIBED_SERVICE, good(), foreign(), 6),
        fault(NOT_SUBSCRIBED_SERVICE, good(), own(), 8),
    ];
    let before_subaddress = [
        fault(NOT_SUBSCRIBED_SERVICE, user_specified(good()), own(), 8),
        fault(SPEECH, user_specified(good()), own(), 11),
    ];
    let before_12 = [
        fault(SPEECH, user_specified(to_other_kind()), own(), 11),
        fault(SPEECH, user_specified(to_public(1, SIXTEEN)), own(), 11),
        fault(SPEECH, to_other_kind(), own(), 12),
        fault(SPEECH, to_public(1, SIXTEEN), own(), 12),
    ];
    let before_14 = [
        fault(SPEECH, to_public(1, SIXTEEN_PREFIXED), own(), 12),
        fault(SPEECH, to_public(1, PREFIXED), own(), 14),
    ];
    let before_15 = [
        fault(32, to(PREFIXED), prefixed, 14),
        fault(32, to(OWN), own(), 15),
    ];
    let before_room = [
        fault(SPEECH, to(OWN), own(), 15),
        fault(SPEECH, good(), own(), 11),
    ];
    vec![
        on_full("6 before 8", before_8),
        on_full("8 before 11 (user-specified subaddress)", before_subaddress),
        on_full("11 (user-specified subaddress) before 12", before_12),
        on_full("12 before 14", before_14),
        on_full("14 before 15", before_15),
        on_full("15 before 11 (room)", before_room),
    ]
}

/// Not in use, cfb not subscribed, or a number not in the profile, with each later fault.
fn pairs_with_3_0_6() -> Vec<Dialogue> {
    let not_in_use = Profile {
        in_use: 0,
        ..guarded()
    };
    let without_cfb = Profile {
        subscribed: [1, 0, 1],
        ..guarded()
    };
    let later = |served: fn() -> _, code| {
        [
            fault(NOT_SUBSCRIBED_SERVICE, to("24680"), served(), code),
            fault(SPEECH, user_specified(to("24680")), served(), code),
            fault(SPEECH, to_other_kind(), served(), code),
            fault(SPEECH, to(PREFIXED), served(), code),
            fault(SPEECH, to(OWN), served(), code),
            // The one named, though it is not in the profile.
            fault(SPEECH, to("999"), served(), code),
        ]
    };
    // No table holds cfb while it isn't subscribed; twelve pairs are too many for a fresh one.
    let no_room = |code| fault(0, to("24680"), all_numbers(), code);
    let all_later = |code| later(own, code).into_iter().chain([no_room(code)]);
    let name = "before 8, 11, 12, 14, 15 and 11 (room)";
    vec![
        earns(&format!("3 {name}"), &not_in_use, &full(), all_later(3)),
        earns(&format!("0 {name}"), &without_cfb, &[], all_later(0)),
        on_full(&format!("6 {name}"), later(foreign, 6)),
    ]
}

fn pairs_further_apart() -> Vec<Dialogue> {
    let unsubscribed = |address| fault(NOT_SUBSCRIBED_SERVICE, address, own(), 8);
    let addresses = [to_other_kind(), to(PREFIXED), to(OWN), to("24680")];
    let specified = |digits| fault(SPEECH, user_specified(to(digits)), own(), 11);
    let served = |number_type, digits| individual(&Number::public(number_type, digits));
    let sixteen = fault(SPEECH, to_public(1, SIXTEEN), served(1, SIXTEEN), 12);
    let prefixed = to_public(1, SIXTEEN_PREFIXED);
    let sixteen_prefixed = fault(SPEECH, prefixed, served(1, SIXTEEN_PREFIXED), 12);
    let prefixed = individual(&Number::unknown(PREFIXED));
    vec![
        on_full(
            "8 before 12, 14, 15 and 11 (room)",
            addresses.map(unsubscribed),
        ),
        on_full(
            "11 (user-specified subaddress) before 14 and 15",
            [specified(PREFIXED), specified(OWN)],
        ),
        on_full("12 before 15", [sixteen]),
        on_full("12 before 14 and 15", [sixteen_prefixed]),
        on_full(
            "12 before 11 (room)",
            [fault(SPEECH, to_other_kind(), own(), 12)],
        ),
        on_full(
            "14 before 11 (room)",
            [fault(SPEECH, to(PREFIXED), own(), 14)],
        ),
        on_full(
            "14 before 15 and 11 (room)",
            [fault(0, to(PREFIXED), prefixed, 14)],
        ),
    ]
}
