//! The lines of the customer end: stated by hand, and made at random.

mod common;

use common::lines::{
    count, format_holds, names_hold, never_reached_is_told, outputs_hold, seed_decides, sizes_hold,
    the_files_are_written, OF_THE_END,
};
use second::dialogues::{disagreements, transcript, Line};
use second::end::Event;
use second::end_cases::bad_lists::{self, LIST_FAULTS};
use second::end_cases::end_cases;
use second::end_cases::ends_at_random;
use second::end_cases::shapes::{self, SHAPES};
use second::end_cases::waiting::Waiting;
use second::end_dialogues::end_dialogues;
use second::end_line::{EndAnswer, EndLine};
use second::end_record::EndRecord;
use second::made;
use second::path::{REPLY_PATH, REQUEST_PATH};
use second::profile::Profile;
use second::random::Random;
use second::records_at_random;
use second::soak_kinds::KINDS_OF_PATHS;
use second::tally::MustReach;
use second::transcript::Situation;

#[test]
fn this_programs_end_agrees_with_the_hand() {
    assert_eq!(disagreements(&end_dialogues()), Vec::<String>::new());
}

/// The last line of the end in a dialogue.
fn last_line(turns: &mut [second::dialogues::Turn]) -> &mut EndLine {
    let mut lines = turns
        .iter_mut()
        .rev()
        .filter_map(|turn| match &mut turn.line {
            Line::End(line) => Some(line),
            _ => None,
        });
    lines.next().expect("a line of the end")
}

#[test]
fn a_wrong_statement_is_found_by_its_name() {
    let mut all = end_dialogues();
    let shown = last_line(&mut all[1].turns);
    assert_eq!(shown.answer, EndAnswer::Taken);
    shown.next.marks[2] = 0;
    let doubted = last_line(&mut all[4].turns);
    assert_eq!(doubted.answer, EndAnswer::Doubt);
    doubted.answer = EndAnswer::Known(vec![]);
    let found = disagreements(&all);
    assert_eq!(found.len(), 2);
    assert!(found[0].starts_with(&all[1].name), "{}", found[0]);
    assert!(found[1].starts_with(&all[4].name), "{}", found[1]);
}

#[test]
fn every_dialogue_has_its_own_name_and_begins_with_it() {
    names_hold(&end_dialogues());
}

/// The samples, line for line: the expected ends are those of the paper on dialogues.
#[test]
fn the_lines_are_those_of_the_format() {
    let fresh = format!("{}01010100", "0".repeat(2 * 76));
    let lines = transcript(&end_dialogues()[1..2]);
    let input: Vec<&str> = lines.input.lines().skip(2).collect();
    assert_eq!(
        input,
        ["shown 0", "shown 1", "shown 2", "give-up", "arrived"]
    );
    let expected: Vec<&str> = lines.expected.lines().skip(1).collect();
    let (gave_up, taken) = (
        format!("gave-up kept end {fresh}"),
        format!("taken kept end {fresh}"),
    );
    assert_eq!(
        expected,
        ["known kept", "known kept", "known kept", &gave_up, &taken]
    );
    let lines = transcript(&end_dialogues()[2..3]);
    assert!(lines.input.lines().any(|line| line == "send 11 1"));
    let sent = format!("send 7 010101{}00000532343638{}", "0".repeat(46), "30");
    assert!(lines.input.lines().any(|line| line.starts_with(&sent)));
}

#[test]
fn each_remark_and_line_has_one_line_of_output() {
    outputs_hold(&transcript(&end_dialogues()));
    outputs_hold(&end_cases(3, 500).lines);
}

#[test]
fn dialogues_are_short_enough_to_be_kept() {
    sizes_hold(&transcript(&end_dialogues()), 200_000);
}

#[test]
fn every_line_keeps_the_format() {
    format_holds(&transcript(&end_dialogues()));
    format_holds(&end_cases(4, 8_000).lines);
}

/// The things lent for each line, one after the other.
fn things(canaries: &str) -> Vec<usize> {
    let lines = canaries.lines();
    lines.map(|line| line.split(' ').count() - 1).collect()
}

/// A giving up lends one thing, a showing one and one more for each entry, an arrival three, the end
/// itself among them, a sending two.
#[test]
fn the_canaries_are_those_of_the_lines() {
    let lines = end_cases(5, 3_000).lines;
    let words = lines.input.lines().map(|line| line.split(' ').next());
    let words = words.flatten().filter(|word| OF_THE_END.contains(word));
    let expected = words
        .zip(lines.expected.lines())
        .map(|(word, printed)| match word {
            "give-up" => 1,
            "arrived" => 3,
            "shown" if printed.starts_with("known ") => printed.split(' ').count() - 1,
            "shown" => 1,
            _ => 2,
        });
    assert_eq!(things(&lines.canaries.lines), expected.collect::<Vec<_>>());
}

/// At each `start` the things count from 1 again.
#[test]
fn a_start_begins_the_canaries_anew() {
    let lines = end_cases(6, 400).lines;
    let mut begins = false;
    let mut canaries = lines.canaries.lines.lines();
    let mut starts = 0;
    for line in lines.input.lines() {
        let word = line.split(' ').next().unwrap_or_default();
        begins |= word == "start";
        if OF_THE_END.contains(&word) {
            let first = canaries.next().and_then(|line| line.split(' ').nth(1));
            let anew = first == Some("0102030405060708090A0B0C0D0E0F10");
            assert!(anew || !begins, "{line}");
            starts += usize::from(begins);
            begins = false;
        }
    }
    assert!(starts > 10, "{starts}");
}

#[test]
fn cases_are_the_same_for_the_same_seed() {
    seed_decides(end_cases, 2_000);
}

#[test]
fn cases_reach_every_kind_and_cause() {
    for seed in [1, 2, 3] {
        let cases = end_cases(seed, 8_000);
        let lines = OF_THE_END.map(|word| count(&cases.lines, word));
        assert_eq!(lines.iter().sum::<usize>(), 8_000);
        assert_eq!(cases.never_reached(), Vec::<String>::new());
    }
}

#[test]
fn the_kinds_of_paths_are_those_that_paths_count() {
    let counted = [REQUEST_PATH, REPLY_PATH]
        .map(|path| [path.lost, path.repeated, path.overtaken, path.delayed]);
    let listed: Vec<_> = KINDS_OF_PATHS.iter().map(|(kind, _)| *kind).collect();
    assert_eq!(counted.as_flattened(), listed);
}

/// A good access, and an end on it that waits.
fn waiting(random: &mut Random) -> (Profile, Situation, Waiting) {
    let profile = made::profile(random);
    let operation = ends_at_random::operation(random);
    let situation = Situation {
        access: records_at_random::access(random, &profile),
        end: ends_at_random::waiting(random, &profile, operation),
        ..Situation::at_the_start()
    };
    let waiting = Waiting::at(&situation.end).expect("outstanding");
    (profile, situation, waiting)
}

/// Doubt, nothing outstanding, and the picture octet for octet as it was.
fn gives_doubt(situation: &Situation, waiting: &Waiting, reply: &[u8], name: &str) {
    let before = &situation.end;
    let mut marks = before.marks;
    marks[waiting.procedure as usize] = 0;
    let expected = EndRecord {
        held: before.held.clone(),
        marks,
        ..EndRecord::fresh()
    };
    let taken = situation.taken(reply);
    assert_eq!(taken, Ok((Event::WrongShape, expected)), "{name}");
}

#[test]
fn a_reply_made_for_a_cause_of_doubt_gives_doubt() {
    let mut random = Random::seeded(21);
    let mut made = vec![0; SHAPES.len() + LIST_FAULTS.len()];
    for _ in 0..400 {
        let (profile, situation, waiting) = waiting(&mut random);
        for (at, (shape, name)) in SHAPES.iter().enumerate() {
            if let Some(reply) = shapes::with(&mut random, &waiting, shape) {
                gives_doubt(&situation, &waiting, &reply, name);
                made[at] += 1;
            }
        }
        for (at, (fault, name)) in LIST_FAULTS.iter().enumerate() {
            let reply = bad_lists::with(&mut random, &profile, &waiting, *fault);
            if let Some(reply) = reply {
                gives_doubt(&situation, &waiting, &reply, name);
                made[SHAPES.len() + at] += 1;
            }
        }
    }
    assert!(made.iter().all(|times| *times > 10), "{made:?}");
}

#[test]
fn a_good_list_made_is_taken() {
    let mut random = Random::seeded(22);
    let mut taken = 0;
    for _ in 0..2_000 {
        let (profile, situation, waiting) = waiting(&mut random);
        if waiting.operation == 11 {
            let list = waiting.result(&mut random, &profile).written();
            let event = situation.taken(&list).map(|(event, _)| event);
            assert_eq!(event, Ok(Event::Listed));
            taken += 1;
        }
    }
    assert!(taken > 500, "{taken}");
}

#[test]
fn the_program_writes_both_files() {
    the_files_are_written("end-dialogues", &end_dialogues());
}

#[test]
fn the_program_tells_what_its_cases_never_reached() {
    let said = ["lines of the end", "doubt: bad list: nine entries"];
    never_reached_is_told("end-cases", end_cases, 8_000, said);
}
