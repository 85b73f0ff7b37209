//! Sheets cut off, with something after their end, or of no octets: refusal 9.

use crate::dialogues::script::Dialogue;

use super::words::{refuses, to_seven, SAMPLE};

pub fn dialogues() -> Vec<Dialogue> {
    vec![
        refuses("empty input", &[""]),
        refuses("the sample cut at each octet", &cuts(SAMPLE)),
        refuses("an identifier of three groups cut", &cuts("01 FF FF 01 00")),
        refuses(
            "two instances cut within the second",
            &cuts(&to_seven(&["00 00 01", "01 00 20"]))[11..],
        ),
        refuses(
            "a subaddress cut within an octet",
            &cuts(&subaddressed())[10..],
        ),
        refuses(
            "an octet after the end",
            &["00", "01", "80", "FF"].map(|octet| format!("{SAMPLE} {octet}")),
        ),
        refuses("an octet after the end of an empty sheet", &["01 00 00 00"]),
        refuses(
            "a second sheet after the first",
            &[format!("{SAMPLE} {SAMPLE}")],
        ),
        refuses("an octet before the beginning", &[format!("00 {SAMPLE}")]),
    ]
}

fn subaddressed() -> String {
    "01 00 01 01 00 01 00 00 01 09 03 07 FF 01 80 01".to_string()
}

/// Every beginning but the empty one and the whole.
fn cuts(sheet: &str) -> Vec<String> {
    let octets: Vec<&str> = sheet.split(' ').collect();
    (1..octets.len())
        .map(|end| octets[..end].join(" "))
        .collect()
}
