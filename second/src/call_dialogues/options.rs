//! The notification option that results, and the caller's notice it gives.

use crate::call_answer::CallAnswer;
use crate::calls::{Call, Diverted, Notice};
use crate::codes::CFU;
use crate::dialogues::script::Dialogue;
use crate::dialogues::words::{held, to_public, with_subaddress};
use crate::numbers::Number;
use crate::profile::Profile;
use crate::samples::wide_profile;

use super::words::{
    diverted, first_call, first_diversion, later_call, later_diversion, talk_on, SERVICE, THIRD,
};

pub fn dialogues() -> Vec<Dialogue> {
    let mut all: Vec<Dialogue> = OPTIONS.iter().map(every_pair).collect();
    all.push(withheld(0, &Notice::None));
    all.push(withheld(1, &Notice::Diverting));
    all
}

/// The option received, the one after the first diversion, the one after a later diversion.
type Resulting = (i32, i32, i32);

/// By the profile's option.
const OPTIONS: [(i32, [Resulting; 3]); 3] = [
    (0, [(0, 0, 0), (1, 0, 0), (2, 0, 0)]),
    (1, [(0, 1, 0), (1, 1, 1), (2, 1, 1)]),
    (2, [(0, 2, 0), (1, 2, 1), (2, 2, 2)]),
];

fn with_profile_option(name: &str, notification: i32) -> Dialogue {
    let access = Profile {
        notification,
        ..wide_profile()
    };
    talk_on(name, &access)
}

/// "none at 0; 'call is diverting' without number at 1; with forwarded-to number at 2"
fn resulting(option: i32, diversion: Diverted) -> CallAnswer {
    let notice = match option {
        0 => Notice::None,
        1 => Notice::Diverting,
        _ => Notice::DivertingTo(Number::unknown("24680")),
    };
    diverted(&Diverted {
        option,
        notice,
        ..diversion
    })
}

fn every_pair((own, pairs): &(i32, [Resulting; 3])) -> Dialogue {
    let name = format!("profile's option {own}: each option received, first and later");
    let talk = with_profile_option(&name, *own);
    pairs.iter().fold(talk, |talk, (received, first, later)| {
        let with = |call| Call {
            option: *received,
            ..call
        };
        talk.calls(&with(first_call()), resulting(*first, first_diversion()))
            .calls(&with(later_call()), resulting(*later, later_diversion()))
    })
}

/// Two tables that differ in digits and subaddress alone: the same notice, counter and reason.
fn withheld(option: i32, notice: &Notice) -> Dialogue {
    let name = format!("option {option} keeps digits and subaddress from the caller");
    let addresses = [
        to_public(2, "1"),
        with_subaddress(to_public(2, "987654321"), &[0x31]),
    ];
    let talk = with_profile_option(&name, option);
    addresses.into_iter().fold(talk, |talk, called| {
        let diversion = Diverted {
            called: called.clone(),
            option,
            notice: notice.clone(),
            ..first_diversion()
        };
        talk.table(0, &[held(CFU, THIRD, SERVICE, called)])
            .calls(&first_call(), diverted(&diversion))
    })
}
