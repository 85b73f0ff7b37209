//! Writing refused 1, 3 and 4, lowest number first; the table stays.

use crate::codes::{CFB, PROCEDURES};
use crate::dialogues::bad_runs::bad_runs;
use crate::dialogues::script::Dialogue;
use crate::dialogues::words::{bad_table, clean, every_pair, nine_pairs};
use crate::profile::Profile;
use crate::samples::instance;
use crate::table_record::{
    TableRecord, DIGITS, DIGIT_COUNT, FORM, SERVICE, SUBADDRESS_COUNT, TYPE,
};

use super::words::{access, sample_instance, sheet_dialogue, SAMPLE};

pub fn dialogues() -> Vec<Dialogue> {
    let mut all = vec![output_sizes(), bad_accesses()];
    all.extend(bad_tables());
    all.push(another_profile());
    all.push(nine_instances());
    all.extend(lowest_first());
    all.extend(run_by_run());
    all.push(service_elsewhere());
    all
}

fn output_sizes() -> Dialogue {
    let talk = sheet_dialogue("output under 1,613 octets: refused 1", &access())
        .table(2, &[sample_instance()]);
    let short = [0, 1, 15, 707, 1_612];
    let refused = short
        .iter()
        .fold(talk, |talk, size| talk.output(*size).write_refused(1));
    let enough = [1_613, 1_614, 2_048];
    enough
        .iter()
        .fold(refused, |talk, size| talk.output(*size).writes(SAMPLE))
}

fn bad_accesses() -> Dialogue {
    sheet_dialogue("access record bad: refused 3", &access())
        .table(2, &[sample_instance()])
        .access(vec![])
        .write_refused(3)
        .access(vec![0; 447])
        .write_refused(3)
        .moves_to(&Profile {
            services: vec![2, 1],
            ..access()
        })
        .write_refused(3)
        .moves_to(&access())
        .writes(SAMPLE)
}

/// One octet of the sample's instance changed: where it stands, and what is put there.
const BAD_OCTETS: [(&str, usize, u8); 8] = [
    ("a service that the profile has not (A5)", SERVICE, 3),
    ("a number of another kind", FORM, 2),
    ("an unknown number with a type (A7)", TYPE, 1),
    ("a number without digits", DIGIT_COUNT, 0),
    ("a number of 21 digits", DIGIT_COUNT, 21),
    ("a digit that is a value, not a character", DIGITS, 2),
    ("a digit just above 9", DIGITS + 4, b':'),
    ("a subaddress of 21 octets", SUBADDRESS_COUNT, 21),
];

fn bad_tables() -> Vec<Dialogue> {
    let refused = |name: &str, record: TableRecord| {
        sheet_dialogue(format!("table bad: {name}: refused 4"), &access())
            .record(record)
            .write_refused(4)
    };
    let octets = BAD_OCTETS.iter().map(|(name, at, octet)| {
        let mut held = clean(1, 0, 1);
        held[*at] = *octet;
        refused(name, TableRecord::holding(0, &[held]))
    });
    let late = refused("last handled identifier over 32,767", bad_table());
    octets.chain([late]).collect()
}

/// The table is good for the access it was read against, and for no other.
fn another_profile() -> Dialogue {
    let without = |procedure: usize| {
        let mut subscribed = [1, 1, 1];
        subscribed[procedure] = 0;
        Profile {
            subscribed,
            ..access()
        }
    };
    let fewer_numbers = Profile {
        numbers: access().numbers[..3].to_vec(),
        ..access()
    };
    let other_services = Profile {
        services: vec![2, 3, 5],
        ..access()
    };
    let held = [instance(CFB, 3, 1, "24680")];
    let sheet = "01 00 01 01 03 01 00 00 05 02 04 06 08 00 00";
    let talk = sheet_dialogue("a table of another profile: refused 4", &access())
        .reads(sheet, 0, &held)
        .moves_to(&without(0))
        .writes(sheet);
    [without(1), fewer_numbers, other_services]
        .iter()
        .fold(talk, |talk, profile| {
            talk.moves_to(profile).write_refused(4)
        })
        .moves_to(&access())
        .writes(sheet)
}

/// `nine_pairs` has three numbers and services 1, 3 and 32.
fn nine_instances() -> Dialogue {
    let talk = sheet_dialogue("nine instances of a procedure: refused 4", &nine_pairs());
    PROCEDURES.iter().fold(talk, |talk, procedure| {
        let nine = every_pair(*procedure, &[0, 1, 2], &[1, 3, 32], "1");
        talk.table(0, &nine).write_refused(4)
    })
}

fn run_by_run() -> Vec<Dialogue> {
    let talks = bad_runs().into_iter().map(|(name, runs)| {
        let talk = sheet_dialogue(format!("run bad: {name}: refused 4"), &access());
        runs.into_iter()
            .fold(talk, |talk, run| talk.record(run).write_refused(4))
    });
    talks.collect()
}

/// A table holds the service's code, wherever the profile has it.
fn service_elsewhere() -> Dialogue {
    let sheet = "01 00 01 01 00 05 00 00 05 02 04 06 08 00 00";
    let talk = sheet_dialogue(
        "a service that another profile has elsewhere (A5)",
        &access(),
    )
    .table(0, &[instance(CFB, 0, 5, "24680")]);
    [vec![1, 2, 5], vec![5], vec![1, 3, 4, 5, 42]]
        .into_iter()
        .fold(talk, |talk, services| {
            let other = Profile {
                services,
                ..access()
            };
            talk.moves_to(&other).writes(sheet)
        })
}

fn lowest_first() -> Vec<Dialogue> {
    let good = |name| sheet_dialogue(name, &access());
    let bad_access = |name| good(name).access(vec![0; 447]);
    vec![
        good("writing: refusal 1 before 4")
            .record(bad_table())
            .output(1_612)
            .write_refused(1),
        bad_access("writing: refusal 1 before 3")
            .output(1_612)
            .write_refused(1),
        bad_access("writing: refusal 1 before 3 and 4, 3 before 4")
            .record(bad_table())
            .output(1_612)
            .write_refused(1)
            .output(1_613)
            .write_refused(3),
    ]
}
