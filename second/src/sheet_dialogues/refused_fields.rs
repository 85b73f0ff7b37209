//! One field of an instance out of its range: refusal 9.

use crate::codes::CFNR;
use crate::dialogues::script::Dialogue;
use crate::samples::instance;

use super::words::{access, one, refuses, sheet_dialogue, to_seven};

pub fn dialogues() -> Vec<Dialogue> {
    let mut all = vec![all_in_range()];
    all.extend(first_threes());
    all.extend(numbers());
    all.extend(digits());
    all.extend(subaddresses());
    all
}

/// The sheet that the others below change in one field.
fn all_in_range() -> Dialogue {
    let sheet = one("02 03 2A", "00 00 01 09", "00");
    let listing = "form 1 last 0 count 1\ncfnr 3 42 u 9 -\n";
    sheet_dialogue("every field in its range", &access())
        .reads(&sheet, 0, &[instance(CFNR, 3, 42, "9")])
        .lists(&sheet, listing)
}

fn first_threes() -> Vec<Dialogue> {
    let with = |first_three: &str| one(first_three, "00 00 01 09", "00");
    vec![
        refuses("procedure 3", &[with("03 03 2A")]),
        refuses(
            "procedure 7, 127, 128 and 257",
            &["07 03 2A", "7F 03 2A", "80 01 03 2A", "81 02 03 2A"].map(with),
        ),
        refuses("number index 4", &[with("02 04 2A")]),
        refuses(
            "number index 5, 127, 128 and 256",
            &["02 05 2A", "02 7F 2A", "02 80 01 2A", "02 80 02 2A"].map(with),
        ),
        refuses("service 0", &[with("02 03 00")]),
        refuses("service 6, outside the sixteen", &[with("02 03 06")]),
        refuses("service 31, outside the sixteen", &[with("02 03 1F")]),
        refuses("service 43, outside the sixteen", &[with("02 03 2B")]),
        refuses(
            "service 127, 128, 257 and 298, outside the sixteen",
            &["02 03 7F", "02 03 80 01", "02 03 81 02", "02 03 AA 02"].map(with),
        ),
        refuses(
            "a field out of its range in the second of two instances",
            &[
                to_seven(&["00 00 01", "03 00 01"]),
                to_seven(&["00 00 01", "00 04 01"]),
                to_seven(&["00 00 01", "00 00 06"]),
            ],
        ),
    ]
}

fn numbers() -> Vec<Dialogue> {
    let with = |number: &str| one("02 03 2A", number, "00");
    vec![
        refuses("number of form 2", &[with("02 00 01 09")]),
        refuses(
            "number of form 3, 128 and 257",
            &["03 00 01 09", "80 01 00 01 09", "81 02 00 01 09"].map(with),
        ),
        refuses(
            "unknown form with a type (A7)",
            &["00 01 01 09", "00 06 01 09", "00 80 02 01 09"].map(with),
        ),
        refuses("public type 5", &[with("01 05 01 09")]),
        refuses("public type 7", &[with("01 07 01 09")]),
        refuses(
            "public type 8, 128, 257 and 262",
            &[
                "01 08 01 09",
                "01 80 01 01 09",
                "01 81 02 01 09",
                "01 86 02 01 09",
            ]
            .map(with),
        ),
    ]
}

fn digits() -> Vec<Dialogue> {
    let with = |digits: &str| one("02 03 2A", &format!("00 00 {digits}"), "00");
    let many = |count: usize| with(&format!("{count:02X}{}", " 07".repeat(count)));
    vec![
        refuses("digit count 0", &[with("00")]),
        refuses("digit count 21", &[many(21)]),
        refuses("digit count 22 and 127", &[many(22), many(127)]),
        refuses(
            "digit count 257 with one digit and with 257",
            &[
                with("81 02 09"),
                with(&format!("81 02{}", " 09".repeat(257))),
            ],
        ),
        refuses("digit 10", &[with("01 0A"), with("03 01 0A 02")]),
        refuses(
            "digit 11, 15, 127, 128 and 265",
            &["01 0B", "01 0F", "01 7F", "01 80 01", "01 89 02"].map(with),
        ),
        refuses(
            "digits as characters",
            &["05 32 34 36 38 30", "01 30", "01 39"].map(with),
        ),
        refuses(
            "digit count one less or more than digits",
            &["01 08 09", "03 08 09"].map(with),
        ),
    ]
}

fn subaddresses() -> Vec<Dialogue> {
    let with = |subaddress: &str| one("02 03 2A", "00 00 01 09", subaddress);
    let many = |length: usize| with(&format!("{length:02X}{}", " 07".repeat(length)));
    vec![
        refuses("subaddress length 21", &[many(21)]),
        refuses("subaddress length 22 and 127", &[many(22), many(127)]),
        refuses(
            "subaddress length 256 with no octet and with 256",
            &[with("80 02"), with(&format!("80 02{}", " 07".repeat(256)))],
        ),
        refuses(
            "subaddress octet 256",
            &[with("01 80 02"), with("03 07 80 02 07")],
        ),
        refuses(
            "subaddress octet 257, 511 and 16,384",
            &["01 81 02", "01 FF 03", "01 80 80 01"].map(with),
        ),
        refuses(
            "subaddress length one less or more than octets",
            &["00 07", "01 07 08", "03 07 08"].map(with),
        ),
        // As a component has them; here the last one asks for a group that doesn't follow.
        refuses(
            "subaddress octets above 127 in one octet",
            &["01 FF", "02 80 FF"].map(with),
        ),
    ]
}
