//! The lines of dialogues of calls: stated by hand, and made at random.

mod common;

use common::lines::{
    count, format_holds, names_hold, never_reached_is_told, outputs_hold, seed_decides, sizes_hold,
    the_files_are_written,
};
use second::call_answer::CallAnswer;
use second::call_cases::{call_cases, Reached};
use second::call_dialogues::call_dialogues;
use second::dialogues::{disagreements, transcript, Line};
use second::tally::MustReach;

#[test]
fn this_programs_calls_agree_with_the_hand() {
    assert_eq!(disagreements(&call_dialogues()), Vec::<String>::new());
}

#[test]
fn a_wrong_statement_is_found_by_its_name() {
    let mut all = call_dialogues();
    let Line::Call { answer, .. } = &mut all[4].turns[1].line else {
        panic!("a call")
    };
    assert_ne!(*answer, CallAnswer::Passed);
    *answer = CallAnswer::Passed;
    let found = disagreements(&all);
    assert_eq!(found.len(), 1);
    let beginning = format!("{}, turn 2:\nstated   passed\n", all[4].name);
    assert!(found[0].starts_with(&beginning), "{}", found[0]);
}

#[test]
fn every_dialogue_has_its_own_name_and_begins_with_it() {
    names_hold(&call_dialogues());
}

#[test]
fn each_remark_and_call_has_one_line_of_output() {
    outputs_hold(&transcript(&call_dialogues()));
    outputs_hold(&call_cases(3, 500).lines);
}

#[test]
fn dialogues_are_short_enough_to_be_kept() {
    let lines = transcript(&call_dialogues());
    sizes_hold(&lines, 200_000);
    // Nothing but calls, and what there is when they come.
    for word in ["component", "output"] {
        assert_eq!(count(&lines, word), 0);
    }
}

#[test]
fn every_line_keeps_the_format() {
    format_holds(&transcript(&call_dialogues()));
    format_holds(&call_cases(4, 4_000).lines);
}

#[test]
fn cases_are_the_same_for_the_same_seed() {
    seed_decides(call_cases, 1_000);
}

#[test]
fn cases_reach_every_kind_and_most_meet_an_instance() {
    for seed in [1, 2, 3] {
        let cases = call_cases(seed, 8_000);
        assert_eq!(count(&cases.lines, "call"), 8_000);
        assert_eq!(cases.never_reached(), Vec::<String>::new());
        let reached = |kind| cases.tally.count(kind);
        let refused = reached(Reached::Refusal(3)) + reached(Reached::Refusal(4));
        assert!(refused <= 8_000 / 4, "{refused}");
        let diverted = reached(Reached::First) + reached(Reached::Later);
        let met = diverted + reached(Reached::Refusal(6));
        assert!(met > 8_000 / 2, "{met}");
    }
}

#[test]
fn the_program_writes_both_files() {
    the_files_are_written("call-dialogues", &call_dialogues());
}

#[test]
fn the_program_tells_what_its_cases_never_reached() {
    let said = ["calls", "limit 5 reached"];
    never_reached_is_told("call-cases", call_cases, 8_000, said);
}
