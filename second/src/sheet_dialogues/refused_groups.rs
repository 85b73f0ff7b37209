//! Numbers not in shortest groups, or of more groups than any field's range: refusal 9.

use crate::codes::CFB;
use crate::dialogues::script::Dialogue;
use crate::dialogues::words::{held, to_public, with_subaddress, SPEECH};

use super::words::{access, refuses, sheet_dialogue, SAMPLE};

/// A sheet with a subaddress, so that it has every field: each with its octets.
const FIELDS: [(&str, &str); 13] = [
    ("form", "01"),
    ("last handled", "02"),
    ("instance count", "01"),
    ("procedure", "01"),
    ("number index", "00"),
    ("service", "01"),
    ("form of the number", "01"),
    ("type", "02"),
    ("digit count", "02"),
    ("first digit", "00"),
    ("last digit", "09"),
    ("subaddress length", "01"),
    ("subaddress octet", "FF 01"),
];

pub fn dialogues() -> Vec<Dialogue> {
    let mut all = vec![shortest()];
    all.extend((0..FIELDS.len()).map(not_shortest));
    all.extend((0..FIELDS.len()).map(many_groups));
    all.push(refuses(
        "many needless groups, all of them empty",
        &[
            with(1, &continued("02", &" 80".repeat(20), "00")),
            with(9, &continued("00", &" 80".repeat(200), "00")),
        ],
    ));
    all.push(very_long());
    all
}

/// The sheet that the others below change in one field.
fn shortest() -> Dialogue {
    let sheet = FIELDS.map(|(_, octets)| octets).join(" ");
    let address = with_subaddress(to_public(2, "09"), &[0xFF]);
    sheet_dialogue("every field in shortest groups", &access())
        .reads(&sheet, 2, &[held(CFB, 0, SPEECH, address)])
        .lists(&sheet, "form 1 last 2 count 1\ncfb 0 1 p2 09 ff\n")
}

/// The sheet with other octets for one field.
fn with(at: usize, octets: &str) -> String {
    let mut fields = FIELDS.map(|(_, octets)| octets);
    fields[at] = octets;
    fields.join(" ")
}

/// A field's octets with the top bit of the last one set, so that more follow.
fn continued(octets: &str, more: &str, last: &str) -> String {
    let (before, end) = octets.split_at(octets.len() - 2);
    let end = u8::from_str_radix(end, 16).unwrap_or_default() | 0x80;
    format!("{before}{end:02X}{more} {last}")
}

/// The same number with one and with two needless groups.
fn not_shortest(at: usize) -> Dialogue {
    let (name, octets) = FIELDS[at];
    let sheets = ["", " 80"].map(|more| with(at, &continued(octets, more, "00")));
    refuses(&format!("not shortest: {name}"), &sheets)
}

/// A67: numbers that a reader of 16, 32 or 64 bits would take for the good one: with 2 to the
/// 16th, 32nd, 63rd, 64th or 70th added. So many groups, and the last of them.
const BEYOND: [(usize, &str); 5] = [(3, "04"), (5, "10"), (10, "01"), (10, "02"), (11, "01")];

fn many_groups(at: usize) -> Dialogue {
    let (name, octets) = FIELDS[at];
    let own = octets.split(' ').count();
    let sheets = BEYOND.map(|(groups, last)| {
        let zeros = " 80".repeat(groups - 1 - own);
        with(at, &continued(octets, &zeros, last))
    });
    refuses(&format!("a number of many groups: {name}"), &sheets)
}

/// A71: however long, it only fails its form.
fn very_long() -> Dialogue {
    let zeros = "80 ".repeat(1_990);
    refuses(
        "a number as long as the sheet, ended and not ended",
        &[
            format!("01 02 81 {zeros}01"),
            format!("01 82 {zeros}01 00"),
            format!("{zeros}80"),
            format!("{SAMPLE} {}", &zeros[..300]),
        ],
    )
}
