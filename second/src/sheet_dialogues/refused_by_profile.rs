//! Sheets good by form that hold what the profile has not: refusal 9 read, but listed. And a bad
//! profile: refusal 3 before 9, but listed.

use crate::codes::CFB;
use crate::dialogues::script::Dialogue;
use crate::dialogues::words::narrow_access;
use crate::profile::Profile;
use crate::samples::{instance, sample_profile};

use super::words::{
    access, one, sample_instance, sheet_dialogue, to_seven, SAMPLE, SAMPLE_LISTING,
};

pub fn dialogues() -> Vec<Dialogue> {
    let mut all = vec![just_the_profiles()];
    all.extend(not_the_profiles());
    all.push(of_two());
    all.push(sample_access());
    all.extend(bad_profile());
    all
}

fn just_the_profiles() -> Dialogue {
    let sheet = one("01 02 20", "00 00 01 09", "00");
    sheet_dialogue("the profile's last number and service", &narrow_access())
        .reads(&sheet, 0, &[instance(CFB, 2, 32, "9")])
        .writes(&sheet)
}

/// Refused 9 by this access; listed as this line.
fn not_the_profiles() -> Vec<Dialogue> {
    let cases = [
        ("number index 3 of three numbers", "01 03 20", "cfb 3 32"),
        ("procedure cfnr not subscribed", "02 02 20", "cfnr 2 32"),
        ("service 5 not subscribed", "01 02 05", "cfb 2 5"),
        ("service 33 not subscribed", "01 02 21", "cfb 2 33"),
        ("service 42 not subscribed", "00 00 2A", "cfu 0 42"),
    ];
    let talk = |(name, first_three, listed): (&str, &str, &str)| {
        let sheet = one(first_three, "00 00 01 09", "00");
        let listing = format!("form 1 last 0 count 1\n{listed} u 9 -\n");
        sheet_dialogue(name, &narrow_access())
            .table(2, &[sample_instance()])
            .read_refused(9, &sheet)
            .lists(&sheet, &listing)
            .writes(SAMPLE)
    };
    cases.map(talk).into()
}

/// All or nothing: the first instance is the profile's, the second not.
fn of_two() -> Dialogue {
    let sheet = to_seven(&["01 00 01", "01 03 01"]);
    let listing = "form 1 last 0 count 2\ncfb 0 1 u 7 -\ncfb 3 1 u 7 -\n";
    sheet_dialogue("one of two instances not the profile's", &narrow_access())
        .read_refused(9, &sheet)
        .writes("01 00 00")
        .lists(&sheet, listing)
}

/// Document 01's access has one number, speech and cfb.
fn sample_access() -> Dialogue {
    let others = ["00 00 01", "02 00 01", "01 01 01", "01 00 02"];
    let talk = sheet_dialogue(
        "the sample's access: another procedure, number index, service",
        &sample_profile(),
    );
    others
        .iter()
        .fold(talk, |talk, other| {
            talk.read_refused(9, &one(other, "00 00 01 09", "00"))
        })
        .reads(SAMPLE, 2, &[sample_instance()])
}

fn bad_profile() -> Vec<Dialogue> {
    let no_limit = Profile {
        diversion_limit: 0,
        ..access()
    };
    vec![
        sheet_dialogue("a bad profile: refusal 3 for a good sheet", &access())
            .table(2, &[sample_instance()])
            .moves_to(&no_limit)
            .read_refused(3, SAMPLE)
            .lists(SAMPLE, SAMPLE_LISTING)
            .access(vec![0; 446])
            .read_refused(3, SAMPLE)
            .moves_to(&access())
            .writes(SAMPLE),
        sheet_dialogue("a bad profile: refusal 3 before 9", &no_limit)
            .read_refused(3, "")
            .read_refused(3, "02 00 00")
            .read_refused(3, &one("01 03 20", "00 00 00", "00"))
            .list_refused(9, "02 00 00"),
    ]
}
