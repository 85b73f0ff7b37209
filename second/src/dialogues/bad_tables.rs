//! Tables that break one rule each, refusal 4, and tables that just keep them.

use crate::codes::{CFB, CFU};
use crate::samples::instance;
use crate::table_record::{
    place, place_of, Place, TableRecord, DIGITS, DIGIT_COUNT, FORM, SUBADDRESS_COUNT, TYPE,
};

use super::script::{dialogue, Dialogue};
use super::words::{
    all_numbers, clean, every_pair, interrogation, list, listed, narrow_access, refused, silent,
    to, to_public, with_subaddress, TWENTY,
};

pub fn dialogues() -> Vec<Dialogue> {
    let mut all = vec![bad_identifiers()];
    all.extend(not_the_profiles());
    all.extend(bad_octets());
    all.push(nine_instances());
    all.extend(just_good());
    all
}

fn refuses(name: &str, records: Vec<TableRecord>) -> Dialogue {
    let talk = dialogue(format!("bad table: {name}"), &narrow_access());
    records.into_iter().fold(talk, |talk, record| {
        talk.record(record).hears_hex("A2 00", refused(4))
    })
}

fn bad_identifiers() -> Dialogue {
    let records = [32_768, 65_535].map(|last| TableRecord::holding(last, &[]));
    refuses("last handled identifier over 32,767", records.to_vec())
}

/// A good address, but the profile has no such procedure, number or service.
fn not_the_profiles() -> Vec<Dialogue> {
    let alone = |place: &Place| TableRecord::holding(0, &[*place]);
    // The last one is no service at all.
    let services = [clean(1, 0, 42), clean(0, 1, 33), clean(0, 2, 6)];
    let talks: [(_, &[Place]); 3] = [
        ("a procedure not subscribed", &[clean(2, 0, 1)]),
        ("a number that the profile has not", &[clean(1, 3, 1)]),
        ("a service that the profile has not (A5)", &services),
    ];
    let talks = talks.map(|(name, places)| refuses(name, places.iter().map(alone).collect()));
    talks.into()
}

/// One octet of an instance changed: where it stands, and what is put there.
const BAD_OCTETS: [(&str, &[(usize, u8)]); 5] = [
    ("a number of another kind or form", &[(FORM, 2), (FORM, 3)]),
    ("public type 5 or 7", &[(TYPE, 5), (TYPE, 7)]),
    (
        "a number of 0, 21 or 255 digits",
        &[(DIGIT_COUNT, 0), (DIGIT_COUNT, 21), (DIGIT_COUNT, 255)],
    ),
    (
        "a digit that is no digit character",
        &[(DIGITS, 0), (DIGITS + 4, b':')],
    ),
    (
        "a subaddress of 21 or 255 octets",
        &[(SUBADDRESS_COUNT, 21), (SUBADDRESS_COUNT, 255)],
    ),
];

fn bad_octets() -> Vec<Dialogue> {
    let with = |address, changed: &(usize, u8)| {
        let mut bad = place(CFB, 1, 2, &address);
        bad[changed.0] = changed.1;
        TableRecord::holding(0, &[bad])
    };
    let talks = BAD_OCTETS.iter().map(|(name, changes)| {
        let records = changes.iter().map(|one| with(to_public(4, "24680"), one));
        refuses(name, records.collect())
    });
    let typed = with(to("24680"), &(TYPE, 1));
    let unknown_with_type = refuses("an unknown number with a type (A7)", vec![typed]);
    talks.chain([unknown_with_type]).collect()
}

fn nine_instances() -> Dialogue {
    let nine = every_pair(CFB, &[0, 1, 2], &[1, 2, 3], "1");
    let nine: Vec<Place> = nine.iter().map(place_of).collect();
    let record = TableRecord::holding(0, &nine);
    refuses("nine instances of a procedure", vec![record])
}

fn just_good() -> Vec<Dialogue> {
    let eight_of = |procedure| every_pair(procedure, &[0, 1], &[1, 2, 3, 32], "1");
    let mut longest = instance(CFB, 2, 32, "1");
    longest.address = with_subaddress(to(TWENTY), &[0; 20]);
    let entry = listed(&narrow_access().numbers[2], &longest);
    vec![
        dialogue(
            "good table: eight of each procedure, last 32,767",
            &narrow_access(),
        )
        .table(32_767, &[eight_of(CFU), eight_of(CFB)].concat())
        .hears_hex("A2 00", silent()),
        dialogue(
            "good table: 20 digits, subaddress of 20 octets",
            &narrow_access(),
        )
        .table(0, &[longest])
        .asks(1, &interrogation(CFB, 0, all_numbers()), list(1, &[entry])),
    ]
}
