//! Refusals 3 and 4 of a call, and several refusals at once: the lowest number first, 6 last.

use crate::access_record::{access_record, ACCESS_OCTETS};
use crate::calls::Call;
use crate::dialogues::bad_runs::bad_runs;
use crate::dialogues::script::Dialogue;
use crate::dialogues::words::clean;
use crate::profile::Profile;
use crate::samples::{table, wide_profile};
use crate::table_record::{place_of, Place, TableRecord, DIGIT_COUNT};

use super::words::{first_call, forwarded, refused, talk, talk_on};

pub fn dialogues() -> Vec<Dialogue> {
    let mut all = vec![
        access_sizes(),
        bad_profile(),
        bad_identifier(),
        bad_instances(),
        all_at_once(),
    ];
    all.extend(pairs());
    all.extend(run_by_run());
    all
}

fn access_sizes() -> Dialogue {
    let mut record = access_record(&wide_profile());
    record.truncate(ACCESS_OCTETS - 1);
    talk("a call with an access record of 446 octets, or of none: refused 3")
        .access(record)
        .calls(&first_call(), refused(3))
        .access(vec![])
        .calls(&first_call(), refused(3))
}

/// Limit 0.
fn bad_access() -> Profile {
    Profile {
        diversion_limit: 0,
        ..wide_profile()
    }
}

/// A bad profile is refused though nothing would be diverted.
fn bad_profile() -> Dialogue {
    talk_on("a call with a bad profile: refused 3", &bad_access())
        .calls(&first_call(), refused(3))
        .table(0, &[])
        .calls(&first_call(), refused(3))
}

/// Last handled identifier 32,768; all `forwarded` is there.
fn bad_table() -> TableRecord {
    TableRecord {
        last: 32_768,
        ..good_table()
    }
}

fn good_table() -> TableRecord {
    TableRecord::of(&table(0, &forwarded()))
}

fn bad_identifier() -> Dialogue {
    talk("a call with a last handled identifier over 32,767: refused 4")
        .record(bad_table())
        .calls(&first_call(), refused(4))
}

/// cfu of the first number, which the call doesn't look at.
fn bad_instances() -> Dialogue {
    let before_forwarded = |bad: Place| {
        let [cfu, cfb, cfnr] = forwarded().each_ref().map(place_of);
        TableRecord::holding(0, &[bad, cfu, cfb, cfnr])
    };
    let mut no_digits = clean(0, 0, 1);
    no_digits[DIGIT_COUNT] = 0;
    let other_service = clean(0, 0, 3);
    talk("a call with a bad instance it does not look at: refused 4")
        .record(before_forwarded(no_digits))
        .calls(&first_call(), refused(4))
        .record(before_forwarded(other_service))
        .calls(&first_call(), refused(4))
}

fn run_by_run() -> Vec<Dialogue> {
    let talks = bad_runs().into_iter().map(|(name, runs)| {
        let talk = talk(&format!("a call with a bad run: {name}: refused 4"));
        runs.into_iter().fold(talk, |talk, run| {
            talk.record(run).calls(&first_call(), refused(4))
        })
    });
    talks.collect()
}

/// Refusal 5: option 3.
fn bad_call() -> Call {
    Call {
        option: 3,
        ..first_call()
    }
}

/// Refusal 6, were the records good.
fn at_the_limit() -> Call {
    Call {
        counter: 5,
        ..first_call()
    }
}

/// Refusal 5, and 6 were it good.
fn bad_at_the_limit() -> Call {
    Call {
        option: 3,
        ..at_the_limit()
    }
}

fn pairs() -> [Dialogue; 6] {
    [
        talk_on("a call: refusal 3 before 4", &bad_access())
            .record(bad_table())
            .calls(&first_call(), refused(3)),
        talk_on("a call: refusal 3 before 5", &bad_access()).calls(&bad_call(), refused(3)),
        talk_on("a call: refusal 3 before 6", &bad_access()).calls(&at_the_limit(), refused(3)),
        talk("a call: refusal 4 before 5")
            .record(bad_table())
            .calls_octets(vec![], refused(4)),
        talk("a call: refusal 4 before 6")
            .record(bad_table())
            .calls(&at_the_limit(), refused(4)),
        talk("a call: refusal 5 before 6").calls(&bad_at_the_limit(), refused(5)),
    ]
}

/// Then one after the other is mended.
fn all_at_once() -> Dialogue {
    talk_on("a call: refusals 3, 4, 5 and 6 at once", &bad_access())
        .record(bad_table())
        .calls(&bad_at_the_limit(), refused(3))
        .moves_to(&wide_profile())
        .calls(&bad_at_the_limit(), refused(4))
        .record(good_table())
        .calls(&bad_at_the_limit(), refused(5))
        .calls(&at_the_limit(), refused(6))
}
