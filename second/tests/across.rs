//! Meetings with another program: here with this one, right, wrong, or altered on its way.

mod common;

use std::time::Duration;

use common::lines::run;
use second::across::{across, Breach, Counts};
use second::answering::Answerer;
use second::expected::{KNOWN_IS_FALSE, LISTED_IS_UNKNOWN};
use second::meeting::Others;
use second::talk::{Program, Talk};
use second::tally::MustReach;
use second::world::Checks;
use second::wrong::{Wrong, WRONGS};

const EVENTS: u64 = 20_000;
const PROGRAM: &str = env!("CARGO_BIN_EXE_second");

fn met(wrong: Option<Wrong>, seed: u64, checks: Checks) -> Result<Counts, Breach> {
    across(Box::new(Answerer::new(wrong)), seed, EVENTS, checks)
}

#[test]
fn the_right_ones_meet_without_a_breach_and_reach_every_kind() {
    for seed in [1, 2] {
        let counts = met(None, seed, Checks::All).unwrap_or_else(|breach| panic!("{breach}"));
        assert_eq!(counts.never_reached(), Vec::<String>::new());
    }
}

#[test]
fn the_same_seed_gives_the_same_meetings() {
    let [one, again, other] = [3, 3, 4].map(|seed| met(None, seed, Checks::All));
    assert_eq!(one, again);
    assert_ne!(one, other);
}

/// The other's ends come first, then its exchanges.
fn others(at: usize) -> Others {
    if at < 7 {
        Others::End
    } else {
        Others::Exchange
    }
}

fn breach(wrong: Wrong, checks: Checks) -> Breach {
    match met(Some(wrong), 1, checks) {
        Ok(_) => panic!("{wrong:?} is not caught by {checks:?}"),
        Err(breach) => breach,
    }
}

/// The first sentence catches all but the one that doubts everything, which the last one does.
#[test]
fn demand_three_alone_catches_each_wrong_one_by_its_sentence() {
    for (at, (wrong, _)) in WRONGS.into_iter().enumerate() {
        let (checks, sentence) = match wrong {
            Wrong::DoubtsAll => (Checks::DemandThree, LISTED_IS_UNKNOWN),
            _ => (Checks::Known, KNOWN_IS_FALSE),
        };
        let breach = breach(wrong, checks);
        assert_eq!(breach.what, sentence, "{wrong:?}");
        assert_eq!(breach.others, others(at), "{wrong:?}");
    }
    assert!(met(Some(Wrong::DoubtsAll), 1, Checks::Known).is_ok());
}

/// What this program would have done is no other; the lines say it again.
#[test]
fn every_wrong_one_is_caught_and_its_lines_show_it_again() {
    for (at, (wrong, _)) in WRONGS.into_iter().enumerate() {
        let breach = breach(wrong, Checks::All);
        assert_eq!(breach.others, others(at), "{wrong:?}");
        assert!(
            breach.what.contains("this program says\n"),
            "{}",
            breach.what
        );
        assert_eq!(breach.lines[0], "start");
        assert!(breach.lines[1].starts_with("access "));
        let said: Vec<&str> = remarks(&breach.lines).collect();
        assert_eq!(said_again(&breach.lines, Some(wrong)), said, "{wrong:?}");
        let right = said_again(&breach.lines, None);
        let last = said.len() - 1;
        assert_eq!(right[..last], said[..last], "{wrong:?}");
        assert_ne!(right[last], said[last], "{wrong:?}");
    }
}

fn remarks(lines: &[String]) -> impl Iterator<Item = &str> {
    lines.iter().filter_map(|line| line.strip_prefix("# "))
}

/// The answers when the same is said once more.
fn said_again(lines: &[String], wrong: Option<Wrong>) -> Vec<String> {
    let mut answerer = Answerer::new(wrong);
    let asked = lines.iter().filter(|line| !line.starts_with('#'));
    asked
        .filter_map(|line| answerer.answer(line).expect("a line to be answered"))
        .collect()
}

/// Every answer is altered from the hundredth on.
struct Altered {
    right: Answerer,
    asked: u32,
    alter: fn(String) -> String,
}

impl Talk for Altered {
    fn tell(&mut self, line: &str) -> Result<(), String> {
        self.right.tell(line)
    }

    fn ask(&mut self, line: &str) -> Result<String, String> {
        self.asked += 1;
        let said = self.right.ask(line)?;
        Ok(match self.asked {
            0..100 => said,
            _ => (self.alter)(said),
        })
    }
}

fn altered(alter: fn(String) -> String, checks: Checks) -> Result<Counts, Breach> {
    let talk = Altered {
        right: Answerer::new(None),
        asked: 0,
        alter,
    };
    across(Box::new(talk), 1, EVENTS, checks)
}

/// A place past the count carries no meaning: only octet for octet is it a breach.
#[test]
fn octets_without_meaning_are_compared_as_well() {
    let rubbish = |said: String| match said.split_once(" table ") {
        // Unless the table is full.
        Some((_, table)) if table.len() < 2 * (3 + 24 * 47) => said + &"00".repeat(46) + "01",
        _ => said,
    };
    if let Err(breach) = altered(rubbish, Checks::DemandThree) {
        panic!("{breach}");
    }
    let breach = altered(rubbish, Checks::All).expect_err("another table");
    assert!(breach.what.starts_with("it says\n"), "{}", breach.what);
}

/// The end's record is right, what is shown of it is not.
#[test]
fn what_is_shown_is_compared_with_the_table() {
    let alterations: [fn(String) -> String; 2] = [
        |said| match said.strip_prefix("known ") {
            Some(_) => "known kept".to_string(),
            None => said,
        },
        // The last entry is one of another procedure.
        |said| match said.split_once(" kept") {
            Some((known, "")) if known.starts_with("known ") => {
                let (before, address) = known.split_at(known.len() - 2 * 44);
                let (before, _) = before.split_at(before.len() - 2);
                format!("{before}07{address} kept")
            }
            _ => said,
        },
    ];
    for alter in alterations {
        let breach = altered(alter, Checks::Known).expect_err("shown otherwise");
        assert_eq!(breach.what, KNOWN_IS_FALSE);
        assert_eq!(breach.others, Others::End);
    }
}

#[test]
fn an_answer_of_another_form_is_a_breach() {
    let alterations: [fn(String) -> String; 4] = [
        |said| said.replace(" kept", " spilled"),
        |said| said + " sheet differs",
        |said| said.to_lowercase() + " ",
        |_| String::new(),
    ];
    for alter in alterations {
        for checks in [Checks::All, Checks::DemandThree] {
            let breach = altered(alter, checks).expect_err("no form");
            assert!(breach.what.starts_with("an answer of no form"));
        }
    }
}

/// A whole program, and what is printed of its meetings.
#[test]
fn the_program_meets_itself() {
    let meets = |arguments: &[&str]| run(&[&["across", "1"], arguments].concat());
    let (code, printed) = meets(&["20000", PROGRAM, "answer"]);
    assert_eq!(code, Some(0), "{printed}");
    let counts = met(None, 1, Checks::All).unwrap_or_else(|breach| panic!("{breach}"));
    assert_eq!(printed, format!("seed 1, 20000 events\n{counts}"));
    let (code, printed) = meets(&["20000", PROGRAM, "answer", "wrong-9"]);
    let breach = breach(Wrong::HalfDone, Checks::All);
    assert_eq!((code, printed), (Some(1), format!("seed 1: {breach}")));
    let (code, printed) = meets(&["3", PROGRAM, "answer"]);
    assert_eq!(code, Some(1));
    let never = "never reached: the other's end, own exchange: error 46\n";
    assert!(printed.contains(never), "{printed}");
}

#[test]
fn misuse_is_told() {
    let misused: [&[&str]; 5] = [
        &["across", "1", "20"],
        &["across", "one", "20", PROGRAM, "answer"],
        &["across", "1", "-1", PROGRAM, "answer"],
        &["answer", "wrong-12"],
        &["answer", "right"],
    ];
    for arguments in misused {
        assert_eq!(run(arguments).0, Some(2), "{arguments:?}");
    }
    assert_eq!(run(&["across", "1", "20", "/no/such/program"]).0, Some(1));
    let (code, printed) = run(&["wrongs"]);
    assert_eq!((code, printed.lines().count()), (Some(0), WRONGS.len()));
}

/// What becomes of a meeting with a program that is none of these.
fn met_with(command: &str, patience: u64) -> String {
    let program = Program::started("sh", &["-c", command]).expect("started");
    let program = program.waited_for(Duration::from_millis(patience));
    let met = across(Box::new(program), 1, 500, Checks::All);
    met.expect_err("a breach").what
}

#[test]
fn a_program_that_does_not_answer_is_a_breach() {
    let said = met_with("cat", 20_000);
    assert!(said.starts_with("an answer of no form: start"), "{said}");
    let gone = met_with("true", 20_000);
    assert!(gone.starts_with("it no longer listens") || gone.starts_with("it has ended"));
    let silent = met_with("exec sleep 60", 50);
    assert!(silent.contains("does it flush each line?"), "{silent}");
    let more = met_with(&format!("{PROGRAM} answer; echo more"), 20_000);
    assert_eq!(more, "it said more than it was asked: more");
    let failed = met_with(&format!("{PROGRAM} answer; exit 3"), 20_000);
    assert!(failed.starts_with("it has ended with"), "{failed}");
}
