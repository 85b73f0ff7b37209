//! The words dialogues about sheets are written in.

use crate::codes::CFB;
use crate::dialogues::script::{dialogue, Dialogue};
use crate::dialogues::words::SPEECH;
use crate::listing::LONGEST_LISTING;
use crate::profile::Profile;
use crate::samples::{instance, wide_profile};
use crate::table::Instance;

/// Document 01's sample sheet, and its listing.
pub const SAMPLE: &str = "01 02 01 01 00 01 00 00 05 02 04 06 08 00 00";
pub const SAMPLE_LISTING: &str = "form 1 last 2 count 1\ncfb 0 1 u 24680 -\n";

/// What the sample sheet holds.
pub fn sample_instance() -> Instance {
    instance(CFB, 0, SPEECH, "24680")
}

/// A sheet with last handled identifier 0 and one instance: its first three fields, those of the
/// number, those of the subaddress.
pub fn one(first_three: &str, number: &str, subaddress: &str) -> String {
    format!("01 00 01 {first_three} {number} {subaddress}")
}

/// A sheet with last handled identifier 0 and instances of these first three fields, each to 7.
pub fn to_seven(first_threes: &[&str]) -> String {
    let count = first_threes.len();
    let instances = first_threes.iter();
    let instances: Vec<String> = instances
        .map(|first_three| format!("{first_three} 00 00 01 07 00"))
        .collect();
    format!("01 00 {count:02X} {}", instances.join(" "))
}

/// Four numbers, services 1, 2, 5, 32, 33 and 42, every procedure: no sheet here is refused for
/// want of something in the profile.
pub fn access() -> Profile {
    wide_profile()
}

/// A fresh table and just enough output for any listing, which is more than any sheet needs.
pub fn sheet_dialogue(name: impl Into<String>, profile: &Profile) -> Dialogue {
    dialogue(name, profile).output(LONGEST_LISTING)
}

/// Each sheet is refused 9, read and listed, and the table there is stays.
pub fn refuses<S: AsRef<str>>(name: &str, sheets: &[S]) -> Dialogue {
    let talk = sheet_dialogue(name, &access()).table(2, &[sample_instance()]);
    let refused = sheets
        .iter()
        .fold(talk, |talk, sheet| talk.refuses(sheet.as_ref()));
    refused.writes(SAMPLE)
}
