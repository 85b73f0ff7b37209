//! Listings: form rules without a profile (A69), each line as document 01 has it.

use crate::dialogues::script::Dialogue;
use crate::samples::sample_profile;

use super::words::{one, sheet_dialogue, to_seven, SAMPLE, SAMPLE_LISTING};

pub fn dialogues() -> Vec<Dialogue> {
    vec![
        public_types(),
        subaddresses(),
        in_order(),
        sheet_dialogue(
            "listing: number index 3, whatever the profile",
            &sample_profile(),
        )
        .lists(
            &one("00 03 2A", "01 03 02 00 00", "00"),
            "form 1 last 0 count 1\ncfu 3 42 p3 00 -\n",
        ),
        every_service(),
        sheet_dialogue("listing: no access record", &sample_profile())
            .access(vec![])
            .lists("01 FF FF 01 00", "form 1 last 32767 count 0\n")
            .list_refused(9, "01 80 80 02 00"),
        output_sizes(),
    ]
}

/// The longest listing there can be decides (A76), and refusal 1 comes before 9.
fn output_sizes() -> Dialogue {
    let talk = sheet_dialogue(
        "listing: output under 1,811 octets is refused 1",
        &sample_profile(),
    );
    let refused = [0, 27, 1_613, 1_810].iter().fold(talk, |talk, size| {
        talk.output(*size)
            .list_refused(1, SAMPLE)
            .list_refused(1, "")
    });
    [1_811, 1_812, 2_048].iter().fold(refused, |talk, size| {
        talk.output(*size).lists(SAMPLE, SAMPLE_LISTING)
    })
}

fn public_types() -> Dialogue {
    let types = [
        ("00", "p0"),
        ("01", "p1"),
        ("02", "p2"),
        ("03", "p3"),
        ("04", "p4"),
        ("06", "p6"),
    ];
    let talk = sheet_dialogue("listing: every type of a public number", &sample_profile());
    types.iter().fold(talk, |talk, (number_type, listed)| {
        talk.lists(
            &one("01 00 01", &format!("01 {number_type} 03 00 01 09"), "00"),
            &format!("form 1 last 0 count 1\ncfb 0 1 {listed} 019 -\n"),
        )
    })
}

fn subaddresses() -> Dialogue {
    let with = |subaddress: &str| one("01 00 01", "00 00 01 09", subaddress);
    let listing = |octets: &str| format!("form 1 last 0 count 1\ncfb 0 1 u 9 {octets}\n");
    sheet_dialogue("listing: subaddresses in lowercase hex", &sample_profile())
        .lists(&with("00"), &listing("-"))
        .lists(&with("01 00"), &listing("00"))
        .lists(&with("01 0A"), &listing("0a"))
        .lists(
            &with("06 AB 01 CD 01 EF 01 7F 80 01 0F"),
            &listing("abcdef7f800f"),
        )
}

fn in_order() -> Dialogue {
    let sheet = to_seven(&[
        "00 00 01", "00 00 2A", "00 01 02", "01 00 05", "01 03 20", "02 02 29", "02 03 01",
    ]);
    let listing = "form 1 last 0 count 7\n\
                   cfu 0 1 u 7 -\n\
                   cfu 0 42 u 7 -\n\
                   cfu 1 2 u 7 -\n\
                   cfb 0 5 u 7 -\n\
                   cfb 3 32 u 7 -\n\
                   cfnr 2 41 u 7 -\n\
                   cfnr 3 1 u 7 -\n";
    sheet_dialogue("listing: several instances in order", &sample_profile()).lists(&sheet, listing)
}

/// The sixteen, of which a profile holds at most six.
fn every_service() -> Dialogue {
    let of_cfu = [1, 2, 3, 4, 5, 32, 33, 34];
    let of_cfb = [35, 36, 37, 38, 39, 40, 41, 42];
    let fields = |procedure: &str, services: [i32; 8]| {
        services.map(|service| format!("{procedure} 00 {service:02X}"))
    };
    let first_threes = [fields("00", of_cfu), fields("01", of_cfb)].concat();
    let first_threes: Vec<&str> = first_threes.iter().map(String::as_str).collect();
    let sheet = to_seven(&first_threes);
    let lines = |procedure: &str, services: [i32; 8]| {
        services
            .map(|service| format!("{procedure} 0 {service} u 7 -\n"))
            .concat()
    };
    let listing = format!(
        "form 1 last 0 count 16\n{}{}",
        lines("cfu", of_cfu),
        lines("cfb", of_cfb)
    );
    sheet_dialogue(
        "listing: services that no one profile could hold together",
        &sample_profile(),
    )
    .lists(&sheet, &listing)
    .read_refused(9, &sheet)
}
