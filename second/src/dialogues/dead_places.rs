//! Octets that carry no meaning (A72): past a count, be it of an instance or of the run. They are
//! never judged, and only a run that is written anew has zeros past its count.

use crate::access_record::access_record;
use crate::answer::Problem::Invoke;
use crate::codes::CFB;
use crate::samples::{instance, sample_profile};
use crate::table_record::{place, Place, TableRecord, BLANK};

use super::script::{dialogue, Dialogue};
use super::words::{
    activation, all_numbers, clean, deactivation, error, individual, interrogation, list, listed,
    nine_pairs, refused, reject, result, scribbled, scribbled_access, silent, to, RUBBISH,
};

pub fn dialogues() -> Vec<Dialogue> {
    let mut all = vec![access_past_counts()];
    all.extend(table_past_counts());
    all.extend(past_the_run());
    all.extend(instances_past_the_run());
    all
}

fn access_past_counts() -> Dialogue {
    let request = interrogation(CFB, 0, all_numbers());
    dialogue(
        "dead places of the access record are not judged",
        &sample_profile(),
    )
    .access(scribbled_access(&sample_profile()))
    .asks(1, &request, list(1, &[]))
    .then_last(1)
    .access(access_record(&sample_profile()))
    .asks(2, &request, list(2, &[]))
    .then_last(2)
}

fn table_past_counts() -> Vec<Dialogue> {
    let access = nine_pairs();
    let [first, second] = [0, 1].map(|at| &access.numbers[at]);
    let entries = [
        listed(first, &instance(CFB, 0, 1, "24680")),
        listed(second, &instance(CFB, 1, 3, "24680")),
    ];
    let [of_first, of_second] = [scribbled(CFB, 0, 1), scribbled(CFB, 1, 3)];
    let both = |last| TableRecord::holding(last, &[of_first, of_second]);
    let talk = |name| dialogue(name, &access).record(both(7));
    vec![
        talk("octets past a count: not judged, not listed, kept")
            .asks(8, &interrogation(CFB, 0, all_numbers()), list(8, &entries))
            .then_record(both(8))
            .asks(9, &activation(CFB, 0, to("9"), all_numbers()), error(9, 11))
            .then_record(both(9))
            .output(706)
            .hears_hex("A2 00", refused(1)),
        talk("octets past a count: an activation has zeros there in what it makes alone")
            .asks(
                8,
                &activation(CFB, 1, to("24680"), individual(first)),
                result(8),
            )
            .then_record(TableRecord::holding(8, &[clean(CFB, 0, 1), of_second])),
        talk("octets past a count: a deactivation leaves those of what stays")
            .asks(8, &deactivation(CFB, 3, individual(second)), result(8))
            .then_record(TableRecord::holding(8, &[of_first])),
    ]
}

/// These counted, and those in the last of the places past them.
fn followed(last: u16, counted: &[Place], past: &[Place]) -> TableRecord {
    let mut record = TableRecord::holding(last, counted);
    for (place, rubbish) in record.places.iter_mut().rev().zip(past) {
        *place = *rubbish;
    }
    record
}

fn past_the_run() -> Vec<Dialogue> {
    let access = nine_pairs();
    let second = individual(&access.numbers[1]);
    let full_of_rubbish = |last| followed(last, &[], &[RUBBISH; 24]);
    let to_nine = |number, service| place(CFB, number, service, &to("9"));
    let speech = [0, 1, 2].map(|number| to_nine(number, 1));
    let talk = |name| dialogue(name, &access).record(full_of_rubbish(7));
    vec![
        talk("places past the run's count: not judged, not active, kept")
            .asks(8, &interrogation(CFB, 0, all_numbers()), list(8, &[]))
            .then_record(full_of_rubbish(8))
            .asks(9, &deactivation(CFB, 0, all_numbers()), error(9, 46))
            .then_record(full_of_rubbish(9)),
        talk("places past the run's count: kept by a silence, a reject and a refusal")
            .hears_hex("A2 00", silent())
            .asks(
                7,
                &activation(CFB, 3, to("9"), second.clone()),
                reject(7, Invoke(0)),
            )
            .output(706)
            .hears_hex("A2 00", refused(1)),
        talk("places past the run's count: zeros after an activation of one instance")
            .asks(8, &activation(CFB, 3, to("9"), second), result(8))
            .then_record(TableRecord::holding(8, &[to_nine(1, 3)])),
        talk("places past the run's count: zeros after an activation of three")
            .asks(8, &activation(CFB, 1, to("9"), all_numbers()), result(8))
            .then_record(TableRecord::holding(8, &speech)),
    ]
}

/// What would be good instances, were they counted; and those a request names among them.
fn instances_past_the_run() -> Vec<Dialogue> {
    let access = nine_pairs();
    let [first, second] = [0, 1].map(|at| &access.numbers[at]);
    let held = scribbled(CFB, 1, 3);
    // Right behind it: the next in order, one that is active already, one before it, a blank.
    let mut record = TableRecord::holding(7, &[held]);
    let past = [clean(CFB, 2, 1), held, scribbled(CFB, 0, 1), BLANK, RUBBISH];
    record.places[1..6].copy_from_slice(&past);
    let moved = |last| TableRecord {
        last,
        ..record.clone()
    };
    let entry = listed(second, &instance(CFB, 1, 3, "24680"));
    let talk = |name| dialogue(name, &access).record(moved(7));
    vec![
        talk("instances past the run's count: not active, kept")
            .asks(8, &interrogation(CFB, 0, all_numbers()), list(8, &[entry]))
            .then_record(moved(8))
            .asks(9, &deactivation(CFB, 1, all_numbers()), error(9, 46))
            .then_record(moved(9)),
        talk("instances past the run's count: an activation makes its own")
            .asks(
                8,
                &activation(CFB, 1, to("24680"), individual(first)),
                result(8),
            )
            .then_record(TableRecord::holding(8, &[clean(CFB, 0, 1), held])),
        talk("instances past the run's count: none takes the place of one that is removed")
            .asks(8, &deactivation(CFB, 0, all_numbers()), result(8))
            .then_record(TableRecord::holding(8, &[])),
    ]
}
