//! Lists of the right shape that no picture may take; each gives doubt and leaves the picture as it
//! was.

use crate::dialogues::script::{dialogue, Dialogue};
use crate::dialogues::words::nine_pairs;
use crate::end_step::EntryRecord;
use crate::samples::sample_profile;
use crate::table_record::Place;

use super::doubt_of_shapes::doubted;
use super::words::{
    asking, entry, idle, interrogation_sent, list_of, listed, place, CFB, CFNR, CFU, CFU_IN_DOUBT,
};

const OWN: &str = "80 05 31 33 35 37 39";
/// The contents of an address: unknown 7.
const TO_SEVEN: &str = "80 01 37";
const TWENTY: &str = "30 31 32 33 34 35 36 37 38 39 30 31 32 33 34 35 36 37 38 39";

pub fn dialogues() -> Vec<Dialogue> {
    let mut all = codes();
    all.extend(numbers());
    all.extend(addresses());
    all.extend(entries());
    all.extend(of_three_numbers());
    all
}

fn alone(name: &str, entry: Vec<u8>) -> Dialogue {
    doubted(name, list_of(5, &[entry]))
}

fn codes() -> Vec<Dialogue> {
    let with = |service, procedure| listed(OWN, service, procedure, TO_SEVEN);
    vec![
        alone("an entry of another procedure", with(1, CFU)),
        alone("an entry of no procedure", with(1, 3)),
        alone("an entry of a service not subscribed", with(2, CFB)),
        alone("an entry of all services", with(0, CFB)),
        alone("an entry of a service that there is none of", with(6, CFB)),
        doubted(
            "a good entry, then one of another procedure",
            list_of(5, &[with(1, CFB), with(1, CFNR)]),
        ),
    ]
}

fn numbers() -> Vec<Dialogue> {
    let with = |number| listed(number, 1, CFB, TO_SEVEN);
    vec![
        alone("a number not in the profile", with("80 05 31 33 35 37 38")),
        alone(
            "the profile's digits as a public number",
            with("A1 0A 0A 01 00 12 05 31 33 35 37 39"),
        ),
        alone("NULL as a number", with("05 00")),
        alone(
            "a served number of another kind",
            with("82 05 31 33 35 37 39"),
        ),
        alone("a served number without digits", with("80 00")),
    ]
}

/// "An address no table holds."
fn addresses() -> Vec<Dialogue> {
    let with = |contents: &str| listed(OWN, 1, CFB, contents);
    vec![
        alone("an address of 0 digits", with("80 00")),
        alone(
            "an address of 21 digits",
            with(&format!("80 15 {TWENTY} 30")),
        ),
        alone("an address with a space", with("80 02 37 20")),
        alone(
            "an address of public type 5",
            with("A1 06 0A 01 05 12 01 37"),
        ),
        alone("an address of another kind, tag 82", with("82 01 37")),
        alone("an address of another kind, tag A5", with("A5 00")),
        alone("an address of another kind, tag 88", with("88 01 37")),
        alone(
            "a user-specified subaddress",
            with("80 01 37 30 03 04 01 C8"),
        ),
        alone("a subaddress of 0 octets", with("80 01 37 04 00")),
        alone(
            "a subaddress of 21 octets",
            with(&format!("80 01 37 04 15 {TWENTY} 30")),
        ),
        alone("an address without a number", with("")),
        alone("a private element in an address", with("80 01 37 C0 00")),
    ]
}

fn entries() -> Vec<Dialogue> {
    let good = || listed(OWN, 1, CFB, TO_SEVEN);
    let to_eight = listed(OWN, 1, CFB, "80 01 38");
    let mut followed = good();
    followed[1] += 2;
    followed.extend([0xC0, 0x00]);
    let mut a_set = good();
    a_set[0] = 0x31;
    vec![
        doubted("the same entry twice", list_of(5, &[good(), good()])),
        doubted(
            "the same number and service twice, to two addresses",
            list_of(5, &[good(), to_eight]),
        ),
        alone("a private element in an entry", followed),
        alone("an entry that is a set", a_set),
        alone("an empty entry", vec![0x30, 0x00]),
        doubted(
            "a private element beside an entry",
            list_of(5, &[good(), vec![0xC0, 0x00]]),
        ),
    ]
}

/// cfu of 502, service 3, to 7; the access has 501, 502 and 503, services 1, 3 and 32.
fn held_seven() -> Place {
    place("00 01 03 00 00 01 37 00*19 00 00*20")
}

fn shown_seven() -> EntryRecord {
    entry("00 00 03 35 30 32 00*17 03 00 00 00 01 37 00*19 00 00*20")
}

const NUMBERS: [&str; 3] = ["80 03 35 30 31", "80 03 35 30 32", "80 03 35 30 33"];

fn of_three_numbers() -> Vec<Dialogue> {
    let with = |number: usize, service| listed(NUMBERS[number], service, CFU, TO_SEVEN);
    let pairs = [0, 1, 2].map(|number| [1, 3, 32].map(|service| with(number, service)));
    let nine = pairs.concat();
    let mut one_foreign = nine[..3].to_vec();
    one_foreign[1] = listed("80 03 35 30 34", 3, CFU, TO_SEVEN);
    let mut one_of_cfb = nine[..8].to_vec();
    one_of_cfb[7] = listed(NUMBERS[2], 3, CFB, TO_SEVEN);
    let mut seven_and_a_repeat = nine[..7].to_vec();
    seven_and_a_repeat.push(nine[2].clone());
    let lists = [
        ("nine entries", nine),
        ("two good entries and a foreign number", one_foreign),
        (
            "seven good entries and one of another procedure",
            one_of_cfb,
        ),
        (
            "seven good entries and one of them again",
            seven_and_a_repeat,
        ),
    ];
    let holds = |used| idle(used).holds(&[held_seven()]);
    let talk = |(name, entries): (&str, Vec<Vec<u8>>)| {
        dialogue(format!("three numbers, doubt: {name}"), &nine_pairs())
            .end(holds(4))
            .shows(CFU, &[shown_seven()])
            .interrogates(CFU, &interrogation_sent(5, CFU))
            .then_end(holds(5).waits_for(11, 1, asking(CFU)))
            .takes_octets(list_of(5, &entries))
            .then_end(holds(5).marked(CFU_IN_DOUBT))
            .shows_doubt(CFU)
    };
    let mut talks: Vec<Dialogue> = lists.into_iter().map(talk).collect();
    talks.push(not_subscribed());
    talks
}

/// A60: no picture may hold it.
fn not_subscribed() -> Dialogue {
    dialogue(
        "doubt: a list with an entry of a procedure that is not subscribed",
        &sample_profile(),
    )
    .end(idle(4))
    .shows(CFU, &[])
    .interrogates(CFU, &interrogation_sent(5, CFU))
    .then_end(idle(5).waits_for(11, 1, asking(CFU)))
    .takes_octets(list_of(5, &[listed(OWN, 1, CFU, TO_SEVEN)]))
    .then_end(idle(5).marked(CFU_IN_DOUBT))
    .shows_doubt(CFU)
}
