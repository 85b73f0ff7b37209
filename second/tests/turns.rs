//! Turns of every kind in one dialogue, each against the table that those before it have left.

mod common;

use common::{instance, octets, sample_profile, ACTIVATION_OF_CFB};
use second::call_answer::CallAnswer;
use second::call_dialogues::call_dialogues;
use second::calls::{Call, BUSY, PREFERRED};
use second::dialogues::{dialogue, dialogues, disagreements, transcript, Dialogue};
use second::sheet_dialogues::sheet_dialogues;
use second::transcript::Said;

const SHEET: &str = "01 02 01 01 00 01 00 00 05 02 04 06 08 00 00";
const LISTING: &str = "form 1 last 2 count 1\ncfb 0 1 u 24680 -\n";

fn busy_at_the_limit() -> Call {
    Call {
        number: 0,
        service: 1,
        event: BUSY,
        counter: 5,
        option: 2,
        original: vec![],
        original_allowed: 0,
        preference: PREFERRED,
    }
}

/// The sample's instance is activated, taken away, and brought back by its sheet.
fn of_every_kind() -> Dialogue {
    let active = [instance(1, 0, 1, "24680")];
    let replied = |hex| Said::Replied(octets(hex));
    dialogue("turns of every kind", &sample_profile())
        .output(1_811)
        .hears_hex(ACTIVATION_OF_CFB, replied("A2 03 02 01 02"))
        .then_holds(2, &active)
        .writes(SHEET)
        .calls(&busy_at_the_limit(), CallAnswer::Refused(6))
        .table(2, &[])
        .calls(&busy_at_the_limit(), CallAnswer::Passed)
        .reads(SHEET, 2, &active)
        .calls(&busy_at_the_limit(), CallAnswer::Refused(6))
        .lists(SHEET, LISTING)
        .shows(1, &[])
        .gives_up()
        .hears_hex(ACTIVATION_OF_CFB, replied("A4 06 02 01 02 81 01 00"))
}

#[test]
fn this_program_agrees_with_the_hand() {
    assert_eq!(disagreements(&[of_every_kind()]), Vec::<String>::new());
}

/// Only what no turn has brought about is told.
#[test]
fn the_lines_come_in_the_order_of_the_turns() {
    let lines = transcript(&[of_every_kind()]);
    let words = lines.input.lines().map(|line| line.split(' ').next());
    let words: Vec<&str> = words.map(Option::unwrap_or_default).collect();
    let expected =
        "# access output component write call table call read call list shown give-up component";
    assert_eq!(words.join(" "), expected);
}

/// Each set begins with a line `start`.
#[test]
fn the_dialogues_together_are_short_enough_to_be_stored() {
    let sets = [dialogues(), call_dialogues(), sheet_dialogues()];
    let sizes = sets.map(|set| "start\n".len() + transcript(&set).input.len());
    assert!(sizes.iter().sum::<usize>() <= 524_288);
}
