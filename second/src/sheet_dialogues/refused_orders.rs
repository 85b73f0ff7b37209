//! Instances not strictly ascending, or too many of a procedure: refusal 9.

use crate::dialogues::script::Dialogue;

use super::words::{refuses, to_seven};

/// The profile's first three numbers with services 1, 2 and 5, ascending.
const NINE: [&str; 9] = [
    "00 01", "00 02", "00 05", "01 01", "01 02", "01 05", "02 01", "02 02", "02 05",
];

pub fn dialogues() -> Vec<Dialogue> {
    let mut all = equal();
    all.extend(descending());
    all.push(nine_of("cfu", "00"));
    all.push(nine_of("cfb", "01"));
    all.push(nine_of("cfnr", "02"));
    all
}

fn equal() -> Vec<Dialogue> {
    vec![
        refuses(
            "equal neighbours",
            &[
                to_seven(&["00 00 01", "00 00 01"]),
                to_seven(&["00 00 01", "01 02 05", "01 02 05", "02 00 01"]),
            ],
        ),
        refuses(
            "equal neighbours with different addresses",
            &[other_address()],
        ),
        refuses(
            "the same instance again, not next to it",
            &[to_seven(&["01 00 01", "01 00 02", "01 00 01"])],
        ),
    ]
}

fn descending() -> Vec<Dialogue> {
    vec![
        refuses(
            "procedure descends",
            &[
                to_seven(&["01 00 01", "00 00 01"]),
                to_seven(&["01 00 01", "00 03 2A"]),
                to_seven(&["00 00 01", "02 00 01", "01 00 01"]),
            ],
        ),
        refuses(
            "number index descends",
            &[
                to_seven(&["01 01 01", "01 00 01"]),
                to_seven(&["01 01 01", "01 00 2A"]),
                to_seven(&["01 00 01", "01 03 01", "01 02 01"]),
            ],
        ),
        refuses(
            "service descends",
            &[
                to_seven(&["01 00 02", "01 00 01"]),
                to_seven(&["01 00 01", "01 00 20", "01 00 05"]),
            ],
        ),
    ]
}

fn other_address() -> String {
    let same = "00 00 01";
    format!("01 00 02 {same} 00 00 01 07 00 {same} 01 04 02 08 09 01 30")
}

fn nine_of(name: &str, procedure: &str) -> Dialogue {
    let first_threes = NINE.map(|rest| format!("{procedure} {rest}"));
    let first_threes = first_threes.each_ref().map(String::as_str);
    refuses(
        &format!("nine instances of {name}"),
        &[to_seven(&first_threes)],
    )
}
