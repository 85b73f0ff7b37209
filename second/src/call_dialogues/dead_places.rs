//! Octets that carry no meaning (A72) in the three records of a call: never judged. Those of the
//! forwarded-to address and of the served number go on with the call as they stand.

use crate::call_answer::CallAnswer;
use crate::call_record::{write_call, CALL_OCTETS};
use crate::calls::{Call, Diverted, Notice};
use crate::codes::CFU;
use crate::dialogues::script::Dialogue;
use crate::dialogues::words::{clean, scribbled, scribbled_access, RUBBISH};
use crate::onward_record::Carried;
use crate::profile::Profile;
use crate::samples::wide_profile;
use crate::table_record::TableRecord;

use super::words::{
    diverted, first_call, first_diversion, later_call, later_diversion, passed, talk, talk_on,
    SERVICE, THIRD,
};

pub fn dialogues() -> Vec<Dialogue> {
    vec![
        call_past_count(),
        access_past_counts(),
        table_past_counts(),
        number_withheld(),
        past_the_run(),
        everywhere(),
    ]
}

fn scribbled_call(call: &Call, rubbish: u8) -> Vec<u8> {
    let mut record = vec![rubbish; CALL_OCTETS];
    write_call(&mut record, call);
    record
}

/// Once with what would be digits.
fn call_past_count() -> Dialogue {
    let absent = Call {
        original: vec![],
        ..later_call()
    };
    let handed_on_absent = Diverted {
        original: vec![],
        ..later_diversion()
    };
    talk("octets past the call's digits are not judged and not handed on")
        .calls_octets(
            scribbled_call(&later_call(), 0x3A),
            diverted(&later_diversion()),
        )
        .calls_octets(scribbled_call(&absent, b'5'), diverted(&handed_on_absent))
}

/// cfu of the third number's service 42.
fn scribbled_table() -> TableRecord {
    TableRecord::holding(0, &[scribbled(CFU, THIRD, SERVICE)])
}

/// Public type 1 4912345, then rubbish.
fn scribbled_redirecting(carried: &mut Carried) {
    carried.redirecting[..10].copy_from_slice(b"\x01\x01\x074912345");
    carried.redirecting[10..].fill(0xFF);
}

/// Unknown 24680, rubbish, no subaddress, rubbish.
fn scribbled_called(carried: &mut Carried) {
    carried.called[..8].copy_from_slice(b"\x00\x00\x0524680");
    carried.called[8..23].fill(0xEE);
    carried.called[23] = 0;
    carried.called[24..].fill(0x3A);
}

/// Unknown 24680, rubbish.
fn scribbled_noticed(carried: &mut Carried) {
    carried.noticed[..8].copy_from_slice(b"\x00\x00\x0524680");
    carried.noticed[8..].fill(0xEE);
}

/// Diverted, with rubbish in these parts of what goes on.
fn carrying(diversion: &Diverted, parts: &[fn(&mut Carried)]) -> CallAnswer {
    let mut carried = Carried::clean(diversion);
    for scribble in parts {
        scribble(&mut carried);
    }
    CallAnswer::diverted(diversion, &carried)
}

fn access_past_counts() -> Dialogue {
    let answer = |diversion| carrying(diversion, &[scribbled_redirecting]);
    talk("octets past the served number's digits go on, but not in the original")
        .access(scribbled_access(&wide_profile()))
        .calls(&first_call(), answer(&first_diversion()))
        .calls(&later_call(), answer(&later_diversion()))
}

fn table_past_counts() -> Dialogue {
    let parts = [scribbled_called, scribbled_noticed];
    talk("octets past the forwarded-to counts go on, in the notice's number as well")
        .record(scribbled_table())
        .calls(&later_call(), carrying(&later_diversion(), &parts))
}

/// With option 0 or 1 the place of the notice's number is all zeros.
fn number_withheld() -> Dialogue {
    let access = Profile {
        notification: 1,
        ..wide_profile()
    };
    let without_number = Diverted {
        option: 1,
        notice: Notice::Diverting,
        ..first_diversion()
    };
    let without_notice = Diverted {
        option: 0,
        notice: Notice::None,
        ..later_diversion()
    };
    let option_0 = Call {
        option: 0,
        ..later_call()
    };
    let answer = |diversion| carrying(diversion, &[scribbled_called]);
    talk_on(
        "no octet past a count is in a notice without number",
        &access,
    )
    .record(scribbled_table())
    .calls(&first_call(), answer(&without_number))
    .calls(&option_0, answer(&without_notice))
}

/// What the first call looks for is among it.
fn past_the_run() -> Dialogue {
    let mut record = TableRecord::holding(0, &[clean(CFU, THIRD, 1)]);
    record.places[1] = scribbled(CFU, THIRD, SERVICE);
    record.places[23] = RUBBISH;
    let speech = Call {
        service: 1,
        ..first_call()
    };
    talk("what stands past the run's count diverts nothing")
        .record(record)
        .calls(&first_call(), passed())
        .calls(&speech, diverted(&first_diversion()))
}

fn everywhere() -> Dialogue {
    let parts = [scribbled_redirecting, scribbled_called, scribbled_noticed];
    let mut record = scribbled_table();
    record.places[1..].fill(RUBBISH);
    talk("octets past every count of all three records")
        .access(scribbled_access(&wide_profile()))
        .record(record)
        .calls_octets(
            scribbled_call(&first_call(), b'9'),
            carrying(&first_diversion(), &parts),
        )
        .calls_octets(
            scribbled_call(&later_call(), 0x80),
            carrying(&later_diversion(), &parts),
        )
}
