//! Each event looks at its own procedure, for the call's number and service.

use crate::calls::{Call, Diverted, Notice, BUSY, NO_REPLY, OFFERED};
use crate::codes::{CFB, CFU};
use crate::dialogues::script::Dialogue;
use crate::dialogues::words::{held, to, to_public, with_subaddress};
use crate::numbers::Number;
use crate::profile::Profile;
use crate::samples::wide_profile;

use super::words::{
    diverted, first_call, first_diversion, forwarded, passed, talk, talk_on, SERVICE, THIRD,
};

pub fn dialogues() -> Vec<Dialogue> {
    let mut all = vec![each_event()];
    all.extend(one_procedure_alone());
    all.push(that_number_and_service());
    all.push(identifiers_do_not_matter());
    all
}

fn call_at(event: i32) -> Call {
    Call {
        event,
        ..first_call()
    }
}

fn by_cfb() -> Diverted {
    Diverted {
        reason: 2,
        called: to_public(1, "441632960"),
        notice: Notice::DivertingTo(Number::public(1, "441632960")),
        ..first_diversion()
    }
}

/// A50: the notice has the number's form and type, and no subaddress.
fn by_cfnr() -> Diverted {
    Diverted {
        reason: 3,
        called: with_subaddress(to_public(6, "246"), &[0x0A, 0xFF]),
        notice: Notice::DivertingTo(Number::public(6, "246")),
        ..first_diversion()
    }
}

fn each_event() -> Dialogue {
    talk("offered looks at cfu, busy at cfb, no reply at cfnr")
        .calls(&call_at(OFFERED), diverted(&first_diversion()))
        .calls(&call_at(BUSY), diverted(&by_cfb()))
        .calls(&call_at(NO_REPLY), diverted(&by_cfnr()))
}

fn one_procedure_alone() -> [Dialogue; 3] {
    let [cfu, cfb, cfnr] = forwarded();
    [
        talk("cfu alone: busy and no reply pass")
            .table(0, &[cfu])
            .calls(&call_at(BUSY), passed())
            .calls(&call_at(NO_REPLY), passed()),
        talk("cfb alone: offered and no reply pass")
            .table(0, &[cfb])
            .calls(&call_at(OFFERED), passed())
            .calls(&call_at(NO_REPLY), passed()),
        talk("cfnr alone: offered and busy pass")
            .table(0, &[cfnr])
            .calls(&call_at(OFFERED), passed())
            .calls(&call_at(BUSY), passed()),
    ]
}

/// Several instances of one procedure: the third number's service 1, and the first's 42.
fn that_number_and_service() -> Dialogue {
    let instances = [
        held(CFU, THIRD, 1, to("1")),
        held(CFU, 0, SERVICE, to("2")),
        held(CFB, 1, SERVICE, to("3")),
    ];
    let service_1 = Call {
        service: 1,
        ..first_call()
    };
    let first_number = Call {
        number: 0,
        ..first_call()
    };
    let second_number = Call {
        number: 1,
        ..first_call()
    };
    talk("an instance is for one number and one service")
        .table(0, &instances)
        .calls(
            &service_1,
            diverted(&Diverted {
                called: to("1"),
                notice: Notice::DivertingTo(Number::unknown("1")),
                ..first_diversion()
            }),
        )
        .calls(
            &first_number,
            diverted(&Diverted {
                called: to("2"),
                redirecting: Number::unknown("100"),
                original: b"100".to_vec(),
                notice: Notice::DivertingTo(Number::unknown("2")),
                ..first_diversion()
            }),
        )
        .calls(&first_call(), passed())
        .calls(&second_number, passed())
}

fn identifiers_do_not_matter() -> Dialogue {
    let counted = Profile {
        counted: 1,
        ..wide_profile()
    };
    talk_on("a counted end with every identifier used", &counted)
        .table(32_767, &forwarded())
        .calls(&first_call(), diverted(&first_diversion()))
}
