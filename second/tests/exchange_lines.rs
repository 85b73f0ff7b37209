//! The lines of dialogues with the exchange: stated by hand, and made at random.

mod common;

use common::lines::{
    count, format_holds, names_hold, never_reached_is_told, outputs_hold, seed_decides, sizes_hold,
    the_files_are_written,
};
use second::dialogues::{dialogues, disagreements, transcript, Line, Turn};
use second::exchange_cases::{exchange_cases, Reached};
use second::table_record::TableRecord;
use second::tally::MustReach;
use second::transcript::Said;

#[test]
fn this_programs_exchange_agrees_with_the_hand() {
    assert_eq!(disagreements(&dialogues()), Vec::<String>::new());
}

fn stated(turn: &mut Turn) -> (&mut Said, &mut TableRecord) {
    let Line::Component { said, next, .. } = &mut turn.line else {
        panic!("a component")
    };
    (said, next)
}

#[test]
fn a_wrong_statement_is_found_by_its_name() {
    let mut all = dialogues();
    let (said, _) = stated(&mut all[3].turns[0]);
    assert_ne!(*said, Said::Silent);
    *said = Said::Silent;
    let (_, next) = stated(&mut all[5].turns[0]);
    next.last = 77;
    let found = disagreements(&all);
    assert_eq!(found.len(), 2);
    assert!(found[0].starts_with(&all[3].name), "{}", found[0]);
    assert!(found[1].starts_with(&all[5].name), "{}", found[1]);
}

#[test]
fn every_dialogue_has_its_own_name_and_begins_with_it() {
    names_hold(&dialogues());
}

#[test]
fn each_remark_and_component_has_one_line_of_output() {
    outputs_hold(&transcript(&dialogues()));
    outputs_hold(&exchange_cases(3, 500).lines);
}

#[test]
fn dialogues_are_short_enough_to_be_kept() {
    sizes_hold(&transcript(&dialogues()), 240_000);
}

#[test]
fn every_line_keeps_the_format() {
    format_holds(&transcript(&dialogues()));
    format_holds(&exchange_cases(4, 4_000).lines);
}

#[test]
fn cases_are_the_same_for_the_same_seed() {
    seed_decides(exchange_cases, 2_000);
}

#[test]
fn cases_reach_every_kind_and_few_are_refused() {
    for seed in [1, 2, 3] {
        let cases = exchange_cases(seed, 24_000);
        assert_eq!(count(&cases.lines, "component"), 24_000);
        assert_eq!(cases.never_reached(), Vec::<String>::new());
        let refused: u64 = (1..=4)
            .map(|number| cases.tally.count(Reached::Refusal(number)))
            .sum();
        assert!(refused <= 24_000 / 5, "{refused}");
    }
}

#[test]
fn the_program_writes_both_files() {
    the_files_are_written("dialogues", &dialogues());
}

#[test]
fn the_program_tells_what_its_cases_never_reached() {
    let said = ["components", "error 15"];
    never_reached_is_told("exchange-cases", exchange_cases, 24_000, said);
}
