//! The words dialogues of calls are written in: a call and what becomes of it, and answers.

use crate::call_answer::CallAnswer;
use crate::calls::{Call, Diverted, Notice, OFFERED, PREFERRED};
use crate::codes::{CFB, CFNR, CFU};
use crate::dialogues::script::{dialogue, Dialogue};
use crate::dialogues::words::{held, to, to_public, with_subaddress};
use crate::numbers::Number;
use crate::onward_record::Carried;
use crate::profile::Profile;
use crate::samples::wide_profile;
use crate::table::Instance;

/// The number and service that most calls name: public type 1 4912345.
pub const THIRD: i32 = 2;
pub const SERVICE: i32 = 42;

/// Each procedure forwards them elsewhere.
pub fn forwarded() -> [Instance; 3] {
    [
        held(CFU, THIRD, SERVICE, to("24680")),
        held(CFB, THIRD, SERVICE, to_public(1, "441632960")),
        held(
            CFNR,
            THIRD,
            SERVICE,
            with_subaddress(to_public(6, "246"), &[0x0A, 0xFF]),
        ),
    ]
}

/// The wide access with option 2, number released and limit 5, and everything `forwarded`.
pub fn talk(name: &str) -> Dialogue {
    talk_on(name, &wide_profile())
}

/// The same table on another access with the third number and service.
pub fn talk_on(name: &str, profile: &Profile) -> Dialogue {
    dialogue(name, profile).table(0, &forwarded())
}

/// Offered, and never diverted before; no original number yet.
pub fn first_call() -> Call {
    Call {
        number: THIRD,
        service: SERVICE,
        event: OFFERED,
        counter: 0,
        option: 2,
        original: vec![],
        original_allowed: 0,
        preference: PREFERRED,
    }
}

/// Diverted once before; 777, which may be shown, was called originally.
pub fn later_call() -> Call {
    Call {
        counter: 1,
        original: b"777".to_vec(),
        original_allowed: 1,
        ..first_call()
    }
}

/// What becomes of `first_call` in a `talk`.
pub fn first_diversion() -> Diverted {
    Diverted {
        counter: 1,
        reason: 1,
        called: to("24680"),
        redirecting: Number::public(1, "4912345"),
        redirecting_allowed: 1,
        original: b"4912345".to_vec(),
        original_allowed: 1,
        preference: PREFERRED,
        option: 2,
        notice: Notice::DivertingTo(Number::unknown("24680")),
    }
}

/// What becomes of `later_call` in a `talk`.
pub fn later_diversion() -> Diverted {
    Diverted {
        counter: 2,
        original: b"777".to_vec(),
        ..first_diversion()
    }
}

pub fn refused(number: u8) -> CallAnswer {
    CallAnswer::Refused(number)
}

pub fn passed() -> CallAnswer {
    CallAnswer::Passed
}

/// The records it was made from have zeros past their counts.
pub fn diverted(diverted: &Diverted) -> CallAnswer {
    CallAnswer::diverted(diverted, &Carried::clean(diverted))
}
