//! The preference indicator: 1 becomes 0 on the first diversion only.

use crate::calls::{Call, Diverted, NOT_REQUIRED, PREFERRED, REQUIRED};
use crate::dialogues::script::Dialogue;

use super::words::{diverted, first_call, first_diversion, later_call, later_diversion, talk};

/// Received, after the first diversion, after a later one.
const PREFERENCES: [(i32, i32, i32); 3] = [
    (PREFERRED, PREFERRED, PREFERRED),
    (NOT_REQUIRED, PREFERRED, NOT_REQUIRED),
    (REQUIRED, REQUIRED, REQUIRED),
];

pub fn dialogues() -> Vec<Dialogue> {
    let talk = talk("preferred, not required, required: on the first diversion, and later");
    let talk = PREFERENCES
        .iter()
        .fold(talk, |talk, (received, first, later)| {
            let with = |preference: &i32, call| Call {
                preference: *preference,
                ..call
            };
            let after = |preference: &i32, diversion| {
                diverted(&Diverted {
                    preference: *preference,
                    ..diversion
                })
            };
            talk.calls(
                &with(received, first_call()),
                after(first, first_diversion()),
            )
            .calls(
                &with(received, later_call()),
                after(later, later_diversion()),
            )
        });
    vec![talk]
}
