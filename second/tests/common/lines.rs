//! What holds of the lines of every set of dialogues and cases, and running the program.

use std::fmt::Debug;
use std::fs;
use std::path::{Path, PathBuf};
use std::process::Command;

use second::cases::Cases;
use second::dialogues::{transcript, Dialogue};
use second::transcript::Transcript;

/// Every dialogue has its own name, begins with it, and says something.
pub fn names_hold(all: &[Dialogue]) {
    let mut names: Vec<&str> = all.iter().map(|talk| talk.name.as_str()).collect();
    let lines = transcript(all);
    let remarks = lines
        .input
        .lines()
        .filter_map(|line| line.strip_prefix("# "));
    assert!(remarks.eq(names.iter().copied()));
    names.sort_unstable();
    names.dedup();
    assert_eq!(names.len(), all.len());
    assert!(all.iter().all(|talk| !talk.turns.is_empty()));
}

/// Lines of input that begin with this word.
pub fn count(lines: &Transcript, word: &str) -> usize {
    let found = lines.input.lines();
    found
        .filter(|line| line.split(' ').next() == Some(word))
        .count()
}

/// The words of lines of the end.
pub const OF_THE_END: [&str; 4] = ["send", "arrived", "give-up", "shown"];

/// One line of output for each remark, component, call and line of the end.
pub fn outputs_hold(lines: &Transcript) {
    let others = ["#", "component", "call"];
    let words = others.iter().chain(&OF_THE_END);
    let printing: Vec<usize> = words.map(|word| count(lines, word)).collect();
    assert_eq!(
        printing.iter().sum::<usize>(),
        lines.expected.lines().count()
    );
}

pub fn sizes_hold(lines: &Transcript, most: usize) {
    assert!(lines.input.len() < most);
    let mut all = lines.input.lines().chain(lines.expected.lines());
    assert!(all.all(|line| line.len() <= 7_000));
}

/// The last handled identifier, the count, and places of 47 octets, at most 24.
fn is_a_table(octets: usize) -> bool {
    octets
        .checked_sub(3)
        .is_some_and(|run| run.is_multiple_of(47) && run / 47 <= 24)
}

/// What stands before the run of an end: three octets less are those of a table.
const BEFORE_A_PICTURE: usize = 2 + 3 + 71 + 3 - 2;

fn is_an_end(octets: usize) -> bool {
    octets.checked_sub(BEFORE_A_PICTURE).is_some_and(is_a_table)
}

/// Octets of two digits each.
fn octets(hex: &str) -> Option<usize> {
    let digits = hex
        .bytes()
        .all(|one| one.is_ascii_digit() || (b'A'..=b'F').contains(&one));
    (digits && hex.len().is_multiple_of(2)).then_some(hex.len() / 2)
}

/// Words and sizes that the format allows. What is printed of a table or an end doesn't end with a
/// place of zeros.
pub fn format_holds(lines: &Transcript) {
    let at_most = |hex: &str, most: usize| octets(hex).is_some_and(|octets| octets <= most);
    let is_octet = |number: &str| number.parse::<u8>().is_ok();
    for line in lines.input.lines() {
        let (word, rest) = line.split_once(' ').unwrap_or((line, ""));
        let good = match word {
            "#" => true,
            "access" => at_most(rest, 512),
            "table" => octets(rest).is_some_and(is_a_table),
            "output" => rest.parse::<usize>().is_ok_and(|size| size <= 2_048),
            "component" => at_most(rest, 1_100),
            "call" => at_most(rest, 64),
            "write" => line == "write",
            "read" | "list" => at_most(rest, 2_000),
            "start" | "give-up" => rest.is_empty(),
            "end" => octets(rest).is_some_and(is_an_end),
            "send" => match rest.split_once(' ') {
                Some(("7" | "8", request)) => octets(request) == Some(71),
                Some(("11", procedure)) => is_octet(procedure),
                _ => false,
            },
            "arrived" => at_most(rest, 1_100),
            "shown" => is_octet(rest),
            _ => false,
        };
        assert!(good && line.len() <= 16_000, "{line}");
    }
    for line in lines.expected.lines() {
        assert!(line.len() <= 16_000, "{line}");
        let printed = |word| line.split_once(word).filter(|_| !line.starts_with('#'));
        if let Some((_, table)) = printed("table ") {
            assert!(octets(table).is_some_and(is_a_table), "{line}");
            assert!(!ends_blank(table, 3), "{line}");
        }
        if let Some((_, end)) = printed(" end ") {
            assert!(octets(end).is_some_and(is_an_end), "{line}");
            assert!(!ends_blank(end, BEFORE_A_PICTURE + 3), "{line}");
        }
    }
}

/// Whether the last place after so many octets is all zeros.
fn ends_blank(hex: &str, before: usize) -> bool {
    let last_place = hex.len().checked_sub(2 * 47);
    let last_place = last_place.filter(|at| *at >= 2 * before);
    last_place.is_some_and(|at| hex[at..].bytes().all(|one| one == b'0'))
}

/// The same cases for the same seed, others for another.
pub fn seed_decides<T: PartialEq + Debug>(make: fn(u64, u64) -> Cases<T>, count: u64) {
    let (one, again, other) = (make(9, count), make(9, count), make(10, count));
    assert_eq!(one.lines.input, again.lines.input);
    assert_eq!(one.lines.expected, again.lines.expected);
    assert_eq!(one.tally, again.tally);
    assert_eq!(one.flaws, again.flaws);
    assert_ne!(one.lines.input, other.lines.input);
}

/// The exit code and standard output of the program.
pub fn run(arguments: &[&str]) -> (Option<i32>, String) {
    let mut command = Command::new(env!("CARGO_BIN_EXE_second"));
    let output = command.args(arguments).output().expect("the program ends");
    let printed = String::from_utf8_lossy(&output.stdout).into_owned();
    (output.status.code(), printed)
}

/// A place for the program to write to.
pub fn directory(name: &str) -> PathBuf {
    Path::new(env!("CARGO_TARGET_TMPDIR")).join(name)
}

/// The files hold these lines.
pub fn files_hold(directory: &Path, lines: &Transcript) {
    let read = |file| fs::read_to_string(directory.join(file)).expect("written");
    assert!(read("stdin") == lines.input);
    assert!(read("stdout") == lines.expected);
    assert!(read("canaries") == lines.canaries.lines);
}

/// The command writes these dialogues and prints nothing.
pub fn the_files_are_written(command: &str, all: &[Dialogue]) {
    let directory = directory(command);
    let name = directory.to_string_lossy();
    assert_eq!(run(&[command, &name]), (Some(0), String::new()));
    files_hold(&directory, &transcript(all));
}

/// A command that makes cases tells what three of them never reached, nothing of `enough`, and wants numbers.
pub fn never_reached_is_told<T>(
    command: &str,
    make: fn(u64, u64) -> Cases<T>,
    enough: u64,
    said: [&str; 2],
) {
    let directory = directory(command);
    let name = directory.to_string_lossy();
    let (code, printed) = run(&[command, "1", "3", &name]);
    assert_eq!(code, Some(1));
    let [first, never] = said;
    assert!(printed.starts_with(&format!("seed 1, 3 {first}\n")));
    assert!(printed.contains(&format!("never reached: {never}\n")));
    let (code, printed) = run(&[command, "1", &enough.to_string(), &name]);
    assert_eq!((code, printed.contains("never reached")), (Some(0), false));
    files_hold(&directory, &make(1, enough).lines);
    assert_eq!(run(&[command, "one", "3", &name]).0, Some(2));
    assert_eq!(run(&[command, "1", "many", &name]).0, Some(2));
}
