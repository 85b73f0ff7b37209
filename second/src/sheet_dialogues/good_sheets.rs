//! Tables written, read back and listed: the least, the edges of each field, neighbours in order.

use crate::codes::{CFB, CFNR, CFU};
use crate::dialogues::script::Dialogue;
use crate::dialogues::words::{bad_table, held, to, to_public, with_subaddress, TWENTY};
use crate::profile::Profile;
use crate::samples::instance;

use super::words::{access, sample_instance, sheet_dialogue, to_seven, SAMPLE, SAMPLE_LISTING};

pub fn dialogues() -> Vec<Dialogue> {
    vec![
        sheet_dialogue("the empty table", &access()).turns_over(
            0,
            &[],
            "01 00 00",
            "form 1 last 0 count 0\n",
        ),
        last_identifiers(),
        every_procedure(),
        digit_counts(),
        subaddress_octets(),
        neighbours(),
        no_part_in_reading(),
        no_part_of_access(),
    ]
}

/// The least and the greatest number of one, two and three groups.
fn last_identifiers() -> Dialogue {
    let edges = [
        (1, "01"),
        (127, "7F"),
        (128, "80 01"),
        (16_383, "FF 7F"),
        (16_384, "80 80 01"),
        (32_767, "FF FF 01"),
    ];
    let talk = sheet_dialogue("last handled identifiers of 1, 2 and 3 groups", &access());
    edges.iter().fold(talk, |talk, (last, groups)| {
        let listing = format!("form 1 last {last} count 0\n");
        talk.turns_over(*last, &[], &format!("01 {groups} 00"), &listing)
    })
}

fn every_procedure() -> Dialogue {
    let instances = [
        held(CFU, 0, 1, with_subaddress(to("0"), &[0x0F])),
        held(CFB, 1, 32, with_subaddress(to_public(6, "09"), &[0xFF, 0])),
        held(CFNR, 3, 42, to_public(0, "5")),
    ];
    let sheet = "01 AC 02 03 \
                 00 00 01 00 00 01 00 01 0F \
                 01 01 20 01 06 02 00 09 02 FF 01 00 \
                 02 03 2A 01 00 01 05 00";
    let listing = "form 1 last 300 count 3\n\
                   cfu 0 1 u 0 0f\n\
                   cfb 1 32 p6 09 ff00\n\
                   cfnr 3 42 p0 5 -\n";
    sheet_dialogue("an instance of each procedure", &access())
        .turns_over(300, &instances, sheet, listing)
}

fn digit_counts() -> Dialogue {
    let twenty = "14 01 02 03 04 05 06 07 08 09 00 01 02 03 04 05 06 07 08 09 00";
    sheet_dialogue("numbers of 1 and 20 digits", &access())
        .turns_over(
            0,
            &[instance(CFU, 0, 1, "9")],
            "01 00 01 00 00 01 00 00 01 09 00",
            "form 1 last 0 count 1\ncfu 0 1 u 9 -\n",
        )
        .turns_over(
            0,
            &[held(CFU, 0, 1, to_public(2, TWENTY))],
            &format!("01 00 01 00 00 01 01 02 {twenty} 00"),
            "form 1 last 0 count 1\ncfu 0 1 p2 12345678901234567890 -\n",
        )
}

/// A68: octets above 127 take two.
fn subaddress_octets() -> Dialogue {
    let held_with = |octets: &[u8]| [held(CFU, 0, 1, with_subaddress(to("9"), octets))];
    let sheet = |subaddress: &str| format!("01 00 01 00 00 01 00 00 01 09 {subaddress}");
    let listing = |octets: &str| format!("form 1 last 0 count 1\ncfu 0 1 u 9 {octets}\n");
    sheet_dialogue("subaddresses of 1 and 20 octets, 0 to 255", &access())
        .turns_over(0, &held_with(&[0]), &sheet("01 00"), &listing("00"))
        .turns_over(
            0,
            &held_with(&[0x7F, 0x80, 0xFF, 0xAB]),
            &sheet("04 7F 80 01 FF 01 AB 01"),
            &listing("7f80ffab"),
        )
        .turns_over(
            0,
            &held_with(&[0x30; 20]),
            &sheet(&format!("14{}", " 30".repeat(20))),
            &listing(&"30".repeat(20)),
        )
}

/// Two instances that differ in one of the first three fields, in the order of a sheet.
fn neighbours() -> Dialogue {
    let pairs = [
        [(CFU, 3, 42), (CFB, 0, 1)],
        [(CFB, 0, 42), (CFB, 1, 1)],
        [(CFB, 2, 5), (CFB, 2, 32)],
    ];
    let sheets = [
        to_seven(&["00 03 2A", "01 00 01"]),
        to_seven(&["01 00 2A", "01 01 01"]),
        to_seven(&["01 02 05", "01 02 20"]),
    ];
    let talk = sheet_dialogue(
        "ascending by procedure, then number index, then service",
        &access(),
    );
    pairs.iter().zip(sheets).fold(talk, |talk, (pair, sheet)| {
        let instances =
            pair.map(|(procedure, number, service)| instance(procedure, number, service, "7"));
        talk.table(0, &instances)
            .writes(&sheet)
            .reads(&sheet, 0, &instances)
    })
}

/// Reading has refusals 3 and 9 alone (A39).
fn no_part_in_reading() -> Dialogue {
    sheet_dialogue(
        "the output and the table there is play no part in reading, the table none in listing",
        &access(),
    )
    .record(bad_table())
    .lists(SAMPLE, SAMPLE_LISTING)
    .output(0)
    .reads(SAMPLE, 2, &[sample_instance()])
    .write_refused(1)
}

/// A4: an uncounted end's table may hold any last handled identifier.
fn no_part_of_access() -> Dialogue {
    let idle = Profile {
        in_use: 0,
        counted: 0,
        all_numbers: 0,
        ..access()
    };
    sheet_dialogue(
        "an access not in use and not counted, without \"all numbers\"",
        &idle,
    )
    .turns_over(2, &[sample_instance()], SAMPLE, SAMPLE_LISTING)
}
