//! The lines of dialogues about night sheets: stated by hand, and made at random.

mod common;

use common::lines::{
    count, format_holds, names_hold, never_reached_is_told, seed_decides, sizes_hold,
    the_files_are_written,
};
use second::dialogues::{disagreements, transcript, Line};
use second::made;
use second::random::Random;
use second::refusal::Refusal;
use second::sheet;
use second::sheet_cases::faults::{FAULTS, FAULTS_OF_FORM};
use second::sheet_cases::{faulty, sheet_cases};
use second::sheet_dialogues::sheet_dialogues;
use second::sheet_line::SheetLine;
use second::tally::MustReach;

#[test]
fn this_programs_sheets_agree_with_the_hand() {
    assert_eq!(disagreements(&sheet_dialogues()), Vec::<String>::new());
}

#[test]
fn a_wrong_statement_is_found_by_its_name() {
    let mut all = sheet_dialogues();
    all[0].turns[0].line = Line::Sheet(SheetLine::Write(Ok(vec![])));
    all[1].turns[2].line = Line::Sheet(SheetLine::List(vec![1, 0, 0], Err(9)));
    let found = disagreements(&all);
    assert_eq!(found.len(), 2);
    let [first, second] = [0, 1].map(|at| format!("{}, turn", all[at].name));
    assert!(found[0].starts_with(&first), "{}", found[0]);
    assert!(found[1].starts_with(&second), "{}", found[1]);
}

#[test]
fn every_dialogue_has_its_own_name_and_begins_with_it() {
    names_hold(&sheet_dialogues());
}

/// The first two dialogues, line for line.
#[test]
fn the_lines_are_those_of_the_format() {
    let sample = "010201010001000005020406080000";
    let table = format!("0002010100010000053234363830{}", "0".repeat(72));
    let lines = transcript(&sheet_dialogues()[..2]);
    let remarks = [
        "# at the start: no access record, 707 octets of output\n",
        "# sample: the sheet written, read and listed\n",
    ];
    let [start, turned] = remarks;
    let listing = "form 1 last 2 count 1\ncfb 0 1 u 24680 -\n";
    let expected = format!(
        "{start}refused 1 kept\nrefused 3\nrefused 1\n\
         {turned}wrote {sample} kept\nread table {table}\n{listing}"
    );
    assert_eq!(lines.expected, expected);
    let asked = |word: &str| format!("{word} {sample}\n");
    let input: String = lines
        .input
        .lines()
        .filter(|line| !line.starts_with("access "))
        .map(|line| format!("{line}\n"))
        .collect();
    let (read, list) = (asked("read"), asked("list"));
    let expected = format!(
        "{start}write\n{read}{list}{turned}table {table}\noutput 1811\nwrite\n{read}{list}"
    );
    assert_eq!(input, expected);
}

#[test]
fn the_longest_sheet_is_among_them() {
    let lines = transcript(&sheet_dialogues());
    let longest = "wrote  kept".len() + 2 * 1_613;
    let mut wrote = lines.expected.lines();
    assert!(wrote.any(|line| line.starts_with("wrote 01FFFF0118") && line.len() == longest));
}

#[test]
fn dialogues_are_short_enough_to_be_kept() {
    sizes_hold(&transcript(&sheet_dialogues()), 240_000);
}

#[test]
fn every_line_keeps_the_format() {
    format_holds(&transcript(&sheet_dialogues()));
    format_holds(&sheet_cases(4, 8_000).lines);
}

#[test]
fn a_sheet_made_with_a_fault_is_refused_for_it() {
    let mut random = Random::seeded(11);
    for (fault, name) in FAULTS {
        let of_form = FAULTS_OF_FORM.iter().any(|(one, _)| *one == fault);
        let mut made = 0;
        for _ in 0..400 {
            let profile = made::profile(&mut random);
            if let Some(octets) = faulty::with(&mut random, &profile, fault) {
                let read = sheet::read(&profile, &octets);
                assert_eq!(read, Err(Refusal::NotASheet), "{name}");
                assert_eq!(sheet::read_form(&octets).is_err(), of_form, "{name}");
                made += 1;
            }
        }
        assert!(made > 0, "{name}");
    }
}

#[test]
fn cases_are_the_same_for_the_same_seed() {
    seed_decides(sheet_cases, 2_000);
}

#[test]
fn cases_reach_every_kind_and_cause() {
    for seed in [1, 2, 3] {
        let cases = sheet_cases(seed, 8_000);
        let asked = ["write", "read", "list"].map(|word| count(&cases.lines, word));
        assert_eq!(asked.iter().sum::<usize>(), 8_000);
        assert_eq!(cases.never_reached(), Vec::<String>::new());
        assert_eq!(cases.tally.longest, 1_613);
    }
}

#[test]
fn the_program_writes_both_files() {
    the_files_are_written("sheet-dialogues", &sheet_dialogues());
}

#[test]
fn the_program_tells_what_its_cases_never_reached() {
    let said = ["lines about sheets", "list refused 9: nine of a procedure"];
    never_reached_is_told("sheet-cases", sheet_cases, 8_000, said);
}
