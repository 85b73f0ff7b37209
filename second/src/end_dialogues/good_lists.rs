//! Good lists: they replace what the picture has of their procedure, and make it known.

use crate::dialogues::script::{dialogue, Dialogue};
use crate::dialogues::words::nine_pairs;
use crate::end_step::EntryRecord;
use crate::profile::Profile;
use crate::samples::sample_profile;
use crate::table_record::Place;

use super::words::{
    asking, empty_list, entry, held_24680, idle, interrogation_sent, list_of, list_of_24680,
    listed, place, shown_24680, CFB, CFB_IN_DOUBT, CFU, CFU_IN_DOUBT,
};

pub fn dialogues() -> Vec<Dialogue> {
    let mut all = vec![replaced(), emptied(), needless_lengths(), not_subscribed()];
    all.extend(in_any_order());
    all.extend(judged_at_activation_alone());
    all
}

/// cfb of the profile's first number, speech, to 7.
fn held_seven() -> Place {
    place("01 00 01 00 00 01 37 00*19 00 00*20")
}

fn replaced() -> Dialogue {
    let holds = |used| idle(used).holds(&[held_seven()]).marked(CFB_IN_DOUBT);
    dialogue(
        "a good list replaces another address in the picture, and makes a doubtful one known",
        &sample_profile(),
    )
    .end(holds(4))
    .shows_doubt(CFB)
    .interrogates(CFB, &interrogation_sent(5, CFB))
    .then_end(holds(5).waits_for(11, 0, asking(CFB)))
    .takes(&list_of_24680(5))
    .then_end(idle(5).holds(&[held_24680()]))
    .shows(CFB, &[shown_24680()])
}

fn emptied() -> Dialogue {
    dialogue(
        "an empty list empties the picture, be it one that was known",
        &sample_profile(),
    )
    .end(idle(4).holds(&[held_24680()]))
    .shows(CFB, &[shown_24680()])
    .interrogates(CFB, &interrogation_sent(5, CFB))
    .then_end(idle(5).holds(&[held_24680()]).waits_for(11, 1, asking(CFB)))
    .takes(&empty_list(5))
    .then_end(idle(5))
    .shows(CFB, &[])
}

fn needless_lengths() -> Dialogue {
    dialogue("a good list with needless lengths", &sample_profile())
        .end(idle(4))
        .interrogates(CFB, &interrogation_sent(5, CFB))
        .then_end(idle(5).waits_for(11, 1, asking(CFB)))
        .takes(
            "A2 82 00 2C 02 81 01 05 30 81 25 02 82 00 01 0B 31 82 00 1C 30 81 19 \
             80 81 05 31 33 35 37 39 0A 81 01 01 0A 01 01 30 81 07 80 05 32 34 36 38 30",
        )
        .then_end(idle(5).holds(&[held_24680()]))
        .shows(CFB, &[shown_24680()])
}

/// A60: the exchange should have sent error 0, but a picture may be empty.
fn not_subscribed() -> Dialogue {
    dialogue(
        "an empty list of a procedure that is not subscribed makes it known",
        &sample_profile(),
    )
    .end(idle(4).marked(CFU_IN_DOUBT))
    .shows_doubt(CFU)
    .interrogates(CFU, &interrogation_sent(5, CFU))
    .then_end(idle(5).waits_for(11, 0, asking(CFU)).marked(CFU_IN_DOUBT))
    .takes(&empty_list(5))
    .then_end(idle(5))
    .shows(CFU, &[])
}

/// The numbers 501, 502 and 503 by their place, and a service, to 7.
fn cfu_of(number: u8, service: u8) -> (Vec<u8>, Place, EntryRecord) {
    let digits = format!("35 30 3{}", number + 1);
    let address = "00 00 01 37 00*19 00 00*20";
    (
        listed(&format!("80 03 {digits}"), service, CFU, "80 01 37"),
        place(&format!("00 {number:02X} {service:02X} {address}")),
        entry(&format!(
            "00 00 03 {digits} 00*17 {service:02X} 00 {address}"
        )),
    )
}

/// cfb of the second number stays; the picture and what is shown have their own order.
fn in_any_order() -> Vec<Dialogue> {
    let of_cfb = place("01 01 20 00 00 05 32 34 36 38 30 00*15 00 00*20");
    let former = place("00 02 20 00 00 01 39 00*19 00 00*20");
    let talk = |name: &str, order: &[usize], pairs: &[(u8, u8)]| {
        let parts: Vec<_> = pairs.iter().map(|(n, s)| cfu_of(*n, *s)).collect();
        let entries: Vec<Vec<u8>> = order.iter().map(|at| parts[*at].0.clone()).collect();
        let places: Vec<Place> = parts.iter().map(|part| part.1).collect();
        let shown: Vec<EntryRecord> = parts.iter().map(|part| part.2).collect();
        let before = |used| idle(used).holds(&[former, of_cfb]);
        dialogue(name, &nine_pairs())
            .end(before(4))
            .interrogates(CFU, &interrogation_sent(5, CFU))
            .then_end(before(5).waits_for(11, 1, asking(CFU)))
            .takes_octets(list_of(5, &entries))
            .then_end(idle(5).holds(&[&places[..], &[of_cfb]].concat()))
            .shows(CFU, &shown)
    };
    let three = [(0, 32), (1, 1), (1, 3)];
    let eight = [
        (0, 1),
        (0, 3),
        (0, 32),
        (1, 1),
        (1, 3),
        (1, 32),
        (2, 1),
        (2, 3),
    ];
    vec![
        talk("a good list in order", &[0, 1, 2], &three),
        talk("a good list in another order", &[2, 0, 1], &three),
        talk(
            "a good list of eight entries, the last first",
            &[7, 6, 5, 4, 3, 2, 1, 0],
            &eight,
        ),
    ]
}

/// A6: errors 12, 14 and 15 are judged at activation alone. The name, the address as it is listed,
/// and as it is held.
const LISTED: [(&str, &str, &str); 4] = [
    (
        "a good list with a number that begins with a special prefix",
        "80 05 31 31 32 35 35",
        "00 00 05 31 31 32 35 35 00*15 00 00*20",
    ),
    (
        "a good list with the served number itself",
        "80 05 31 33 35 37 39",
        "00 00 05 31 33 35 37 39 00*15 00 00*20",
    ),
    (
        "a good list with a number of type 1 and 16 digits",
        "A1 15 0A 01 01 12 10 34 34 34 34 34 34 34 34 34 34 34 34 34 34 34 34",
        "01 01 10 34*16 00*4 00 00*20",
    ),
    (
        "a good list with a number of type 1, 20 digits and a subaddress",
        "A1 19 0A 01 01 12 14 34 34 34 34 34 34 34 34 34 34 34 34 34 34 34 34 34 34 34 34 \
         04 02 C8 00",
        "01 01 14 34*20 02 C8 00 00*18",
    ),
];

fn judged_at_activation_alone() -> Vec<Dialogue> {
    let access = Profile {
        prefixes: vec![b"112".to_vec()],
        ..sample_profile()
    };
    let talks = LISTED.iter().map(|(name, coded, held)| {
        let listed = listed("80 05 31 33 35 37 39", 1, CFB, coded);
        let shown = entry(&format!("00 00 05 31 33 35 37 39 00*15 01 01 {held}"));
        dialogue(*name, &access)
            .end(idle(4))
            .interrogates(CFB, &interrogation_sent(5, CFB))
            .then_end(idle(5).waits_for(11, 1, asking(CFB)))
            .takes_octets(list_of(5, &[listed]))
            .then_end(idle(5).holds(&[place(&format!("01 00 01 {held}"))]))
            .shows(CFB, &[shown])
    });
    talks.collect()
}
