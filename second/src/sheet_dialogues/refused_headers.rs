//! Form, last handled identifier and count out of their range: refusal 9.

use crate::dialogues::script::Dialogue;

use super::words::{refuses, to_seven};

/// The sample's one instance.
const INSTANCE: &str = "01 00 01 00 00 05 02 04 06 08 00 00";

pub fn dialogues() -> Vec<Dialogue> {
    let with = |header: &str| format!("{header} {INSTANCE}");
    vec![
        refuses("form 0", &["00 00 00".to_string(), with("00 02 01")]),
        refuses("form 2", &["02 00 00".to_string(), with("02 02 01")]),
        refuses(
            "form 127, 128, 129 and 257",
            &["7F 02 01", "80 01 02 01", "81 01 02 01", "81 02 02 01"].map(with),
        ),
        refuses(
            "last handled identifier 32,768",
            &["01 80 80 02 00".to_string(), with("01 80 80 02 01")],
        ),
        refuses(
            "last handled identifier 65,535 and 65,538",
            &["01 FF FF 03 01", "01 82 80 04 01"].map(with),
        ),
        refuses("count too small", &[with("01 02 00")]),
        refuses(
            "count too large",
            &["01 00 01".to_string(), with("01 02 02")],
        ),
        refuses(
            "count of 25, 128 and 257 with one instance",
            &["01 02 19", "01 02 80 01", "01 02 81 02"].map(with),
        ),
        refuses("count one less or more than two instances", &miscounted()),
    ]
}

fn miscounted() -> [String; 2] {
    let two = to_seven(&["00 00 01", "00 00 02"]);
    ["01 00 01", "01 00 03"].map(|header| two.replacen("01 00 02", header, 1))
}
