//! The samples of document 01 that speak of calls, the first octet for octet.

use crate::call_answer::CallAnswer;
use crate::calls::{Call, Diverted, Notice, BUSY};
use crate::codes::CFB;
use crate::dialogues::script::{dialogue, Dialogue};
use crate::dialogues::words::{to, SPEECH};
use crate::hexadecimal::octets;
use crate::numbers::Number;
use crate::profile::Profile;
use crate::samples::{instance, sample_profile};

use super::words::{diverted, later_call, later_diversion, passed, refused};

pub fn dialogues() -> Vec<Dialogue> {
    let active = [instance(CFB, 0, SPEECH, "24680")];
    vec![
        dialogue(
            "sample: counter 4 with limit 5 is diverted with counter 5",
            &sample_profile(),
        )
        .table(2, &active)
        .calls_octets(counter_4(), diverted_with_counter_5()),
        dialogue("sample: counter 5 is refused 6", &sample_profile())
            .table(2, &active)
            .calls(&busy(5), refused(6)),
        dialogue("sample: no instance, not diverted", &sample_profile()).calls(&busy(5), passed()),
        smaller_option()
            .table(2, &active)
            .calls(&busy(1), diverted(&with_option_1())),
    ]
}

fn busy(counter: i32) -> Call {
    Call {
        number: 0,
        service: SPEECH,
        event: BUSY,
        counter,
        ..later_call()
    }
}

/// So many octets, zeros after those given.
fn padded(hex: &str, size: usize) -> Vec<u8> {
    let mut record = octets(hex);
    record.resize(size, 0);
    record
}

/// The only number, speech, busy, counter 4, option 2, presentation allowed, preferred, 777.
fn counter_4() -> Vec<u8> {
    padded("00 01 01 04 02 01 00 03 37 37 37", 28)
}

fn diverted_with_counter_5() -> CallAnswer {
    let forwarded_to = "00 00 05 32 34 36 38 30";
    let onward = [
        octets("05"),
        padded(forwarded_to, 44),
        padded("00 00 05 31 33 35 37 39", 23),
        octets("01 01 00 02"),
        padded(forwarded_to, 23),
    ];
    CallAnswer::Diverted {
        reason: 2,
        notice: 2,
        onward: onward.concat(),
        original: octets("37 37 37"),
    }
}

fn smaller_option() -> Dialogue {
    let profile = Profile {
        notification: 1,
        ..sample_profile()
    };
    dialogue(
        "sample: option 2 received, profile 1, counter 1: option 1",
        &profile,
    )
}

fn with_option_1() -> Diverted {
    Diverted {
        reason: 2,
        called: to("24680"),
        redirecting: Number::unknown("13579"),
        option: 1,
        notice: Notice::Diverting,
        ..later_diversion()
    }
}
