//! Refusals 1 and 2 at their limits, and the lowest number first.

use crate::answer::Problem::General;
use crate::codes::CFB;
use crate::elements::element;
use crate::filled::filled;
use crate::samples::{instance, sample_profile};

use super::script::{dialogue, Dialogue};
use super::words::{
    all_numbers, bad_table, deactivation, interrogation, list, refused, reject_null, result,
    silent, SPEECH,
};

pub fn dialogues() -> Vec<Dialogue> {
    let mut all = output_sizes();
    all.extend(component_sizes());
    all.extend(lowest_first());
    all
}

fn output_sizes() -> Vec<Dialogue> {
    let ask = interrogation(CFB, 0, all_numbers());
    let active = [instance(CFB, 0, SPEECH, "24680")];
    vec![
        dialogue(
            "output of 0, 1 and 706 octets: refused 1 for any component (A37)",
            &sample_profile(),
        )
        .output(0)
        .asks(1, &ask, refused(1))
        .output(1)
        .hears_hex("A2 00", refused(1))
        .output(706)
        .asks(1, &ask, refused(1))
        .hears_hex("", refused(1)),
        dialogue("output of 707, 708 and 1,024 octets", &sample_profile())
            .output(707)
            .asks(1, &ask, list(1, &[]))
            .then_last(1)
            .output(708)
            .asks(2, &ask, list(2, &[]))
            .then_last(2)
            .output(1_024)
            .hears_hex("A2 00", silent()),
        dialogue(
            "a refusal hands the table back unchanged",
            &sample_profile(),
        )
        .table(5, &active)
        .output(706)
        .asks(6, &deactivation(CFB, 0, all_numbers()), refused(1))
        .output(707)
        .asks(6, &deactivation(CFB, 0, all_numbers()), result(6))
        .then_holds(6, &[]),
    ]
}

/// An interrogation of cfb, identifier 1.
fn interrogation_of(size: usize) -> Vec<u8> {
    let request = interrogation(CFB, 0, all_numbers());
    filled(&request, 1, size).unwrap_or_default()
}

fn component_sizes() -> Vec<Dialogue> {
    let access = sample_profile();
    vec![
        dialogue("component of 1,023 and 1,024 octets", &access)
            .hears(interrogation_of(1_023), list(1, &[]))
            .then_last(1)
            .hears(vec![0; 1_024], reject_null(General(2))),
        dialogue("component of 1,024 octets, all of them read", &access)
            .hears(interrogation_of(1_024), list(1, &[]))
            .then_last(1),
        dialogue("component of 1,025 octets: refused 2", &access)
            .hears(interrogation_of(1_025), refused(2))
            .hears(element(0xA2, &[0; 1_021]), refused(2)),
    ]
}

fn lowest_first() -> Vec<Dialogue> {
    let long = vec![0; 1_025];
    let whole = || vec![0xA2, 0];
    let good = |name| dialogue(name, &sample_profile());
    let bad_access = |name| good(name).access(vec![0; 447]);
    vec![
        good("refusal 1 before 2")
            .output(706)
            .hears(long.clone(), refused(1)),
        bad_access("refusal 1 before 3")
            .output(706)
            .hears(whole(), refused(1)),
        good("refusal 1 before 4")
            .record(bad_table())
            .output(706)
            .hears(whole(), refused(1)),
        bad_access("refusal 2 before 3").hears(long.clone(), refused(2)),
        good("refusal 2 before 4")
            .record(bad_table())
            .hears(long.clone(), refused(2)),
        bad_access("refusal 3 before 4")
            .record(bad_table())
            .hears(whole(), refused(3)),
        bad_access("refusal 1 before 2, 3 and 4")
            .record(bad_table())
            .output(706)
            .hears(long.clone(), refused(1))
            .output(707)
            .hears(long, refused(2)),
        bad_access("refusal 3 before any reply").hears(vec![], refused(3)),
        good("refusal 4 before any reply")
            .record(bad_table())
            .hears(vec![], refused(4)),
    ]
}
