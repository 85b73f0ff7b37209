//! Every counter against every diversion limit. A call at the limit is blocked only where an
//! instance applies and the access is in use.

use crate::call_answer::CallAnswer;
use crate::calls::{Call, Diverted};
use crate::dialogues::script::Dialogue;
use crate::profile::Profile;
use crate::samples::wide_profile;

use super::words::{
    diverted, first_diversion, later_call, later_diversion, passed, refused, talk_on,
};

pub fn dialogues() -> Vec<Dialogue> {
    let with_instance = LIMITS.iter().map(each_counter);
    let none_applies = [1, 5].map(|limit| [no_instance(limit), not_in_use(limit)]);
    with_instance
        .chain(none_applies.into_iter().flatten())
        .collect()
}

/// Refusal 6.
const REFUSED: Option<i32> = None;

/// The limit, and for counters 0 to 5 the counter that goes on.
const LIMITS: [(i32, [Option<i32>; 6]); 5] = [
    (1, [Some(1), REFUSED, REFUSED, REFUSED, REFUSED, REFUSED]),
    (2, [Some(1), Some(2), REFUSED, REFUSED, REFUSED, REFUSED]),
    (3, [Some(1), Some(2), Some(3), REFUSED, REFUSED, REFUSED]),
    (4, [Some(1), Some(2), Some(3), Some(4), REFUSED, REFUSED]),
    (5, [Some(1), Some(2), Some(3), Some(4), Some(5), REFUSED]),
];

fn access(limit: i32) -> Profile {
    Profile {
        diversion_limit: limit,
        ..wide_profile()
    }
}

fn with_counter(counter: i32) -> Call {
    Call {
        counter,
        ..later_call()
    }
}

fn goes_on(counter: Option<i32>) -> CallAnswer {
    match counter {
        None => refused(6),
        Some(1) => diverted(&first_diversion()),
        Some(counter) => diverted(&Diverted {
            counter,
            ..later_diversion()
        }),
    }
}

fn each_counter((limit, onward): &(i32, [Option<i32>; 6])) -> Dialogue {
    let name = format!("limit {limit}: counters 0 to 5");
    let talk = talk_on(&name, &access(*limit));
    (0..).zip(onward).fold(talk, |talk, (counter, next)| {
        talk.calls(&with_counter(counter), goes_on(*next))
    })
}

fn no_instance(limit: i32) -> Dialogue {
    let name = format!("limit {limit}: at the limit without an instance, not diverted");
    talk_on(&name, &access(limit))
        .table(0, &[])
        .calls(&with_counter(limit), passed())
}

/// A52.
fn not_in_use(limit: i32) -> Dialogue {
    let unused = Profile {
        in_use: 0,
        ..access(limit)
    };
    let name = format!("limit {limit}: at the limit while not in use, not diverted");
    talk_on(&name, &unused).calls(&with_counter(limit), passed())
}
