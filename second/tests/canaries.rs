//! The canaries that the driver in C prints, a line for each line that prints something.

use second::call_dialogues::call_dialogues;
use second::dialogues::{dialogues, transcript};
use second::sheet_dialogues::sheet_dialogues;
use second::transcript::{Said, Transcript};

/// How many things are lent for each line.
fn things(lines: &Transcript) -> Vec<usize> {
    let words = lines.canaries.lines.lines().map(|line| line.split(' '));
    words.map(|words| words.count() - 1).collect()
}

fn of_components(said: &[Said]) -> Transcript {
    let mut lines = Transcript::empty();
    let next = lines.now().table.clone();
    for one in said {
        lines.component(&[], one, &next);
    }
    lines
}

#[test]
fn octets_count_on_from_the_number_of_the_thing() {
    let lines = of_components(&[Said::Refused(3), Said::Refused(3)]);
    assert_eq!(
        lines.canaries.lines,
        "canaries 0102030405060708090A0B0C0D0E0F10 02030405060708090A0B0C0D0E0F1011 \
         030405060708090A0B0C0D0E0F101112\n\
         canaries 0405060708090A0B0C0D0E0F10111213 05060708090A0B0C0D0E0F1011121314 \
         060708090A0B0C0D0E0F101112131415\n"
    );
}

#[test]
fn after_255_comes_0() {
    let lines = of_components(&vec![Said::Refused(3); 90]);
    let words: Vec<&str> = lines.canaries.lines.split_whitespace().collect();
    let found = words.iter().position(|word| word.starts_with("FF00"));
    // 255 things, in lines of three: 85 words `canaries` stand before the last of them.
    assert_eq!(found, Some(85 + 255 - 1));
}

#[test]
fn an_answered_component_lends_for_its_sheets_too() {
    let said = [Said::Refused(1), Said::Silent, Said::Replied(vec![0xA4])];
    assert_eq!(things(&of_components(&said)), [3, 9, 9]);
}

#[test]
fn calls_and_sheets_lend_what_they_read_and_write() {
    let calls = things(&transcript(&call_dialogues()));
    assert!(calls.iter().all(|things| *things == 3));
    let sheets = things(&transcript(&sheet_dialogues()[..1]));
    assert_eq!(sheets, [2, 2, 2]);
}

/// One for each line of output that is no remark.
#[test]
fn every_component_has_its_line() {
    let lines = transcript(&dialogues());
    let answers = lines.expected.lines().filter(|line| !line.starts_with('#'));
    assert_eq!(things(&lines).len(), answers.count());
}
