//! The rows of the reply table that ask for the component's shape: not one element, silence,
//! another outer tag, identifier unreadable, operation unreadable, unknown operation.

use crate::answer::Problem::{General, Invoke};
use crate::elements::{element, integer};
use crate::hexadecimal::octets;
use crate::request::TAG_INVOKE;
use crate::samples::{sample_profile, INTERROGATION_OF_CFB};

use super::script::{dialogue, Dialogue};
use super::words::{invoke, reject, reject_null, silent};

pub fn dialogues() -> Vec<Dialogue> {
    let mut all = not_one_element();
    all.extend(outer_tags());
    all.push(identifier_unreadable());
    all.extend(operation_unreadable());
    all.push(unknown_operation());
    all
}

fn each(hex: &[&str]) -> Vec<Vec<u8>> {
    hex.iter().map(|one| octets(one)).collect()
}

fn not_one_element() -> Vec<Dialogue> {
    let access = sample_profile();
    let rejected = reject_null(General(2));
    let sample = octets(INTERROGATION_OF_CFB);
    let talk = |name, components| dialogue(name, &access).hears_each(components, &rejected);
    vec![
        talk("not one element: empty input", vec![vec![]]),
        talk(
            "not one element: no length, or a length cut short",
            each(&["A1", "A1 81", "A1 82", "A1 82 00"]),
        ),
        talk(
            "not one element: the last octet missing, an octet too many, two elements",
            vec![
                sample[..sample.len() - 1].to_vec(),
                [&sample[..], &[0]].concat(),
                sample.repeat(2),
            ],
        ),
        talk(
            "not one element: lengths 80 and 83 upward",
            each(&[
                "A1 80 02 01 01 02 01 0B 00 00",
                "A1 83 00 00 03 02 01 01",
                "A1 84 00 00 00 03 02 01 01",
                "A1 FF",
            ]),
        ),
        talk(
            "not one element: a tag with its low five bits all ones (A9)",
            each(&["BF 00", "BF 21 00", "1F 00", "FF 00", "5F 22 00"]),
        ),
        talk(
            "not one element: a broken length before silence (A11)",
            each(&["A2 01", "A3 80 00 00", "A4 03 02 01", "A2 00 00"]),
        ),
    ]
}

fn outer_tags() -> Vec<Dialogue> {
    let access = sample_profile();
    let whole = each(&[
        "A2 00",
        "A3 00",
        "A4 00",
        "A2 03 02 01 01",
        "A3 06 02 01 01 02 01 00",
        "A4 05 05 00 80 01 02",
    ]);
    let unread = each(&["A2 03 FF FF FF", "A3 81 01 80", "A4 82 00 02 1F 1F"]);
    let others = each(&[
        "A0 00",
        "A5 10 02 01 01 02 01 0B 30 08 0A 01 01 0A 01 00 05 00",
        "30 00",
        "02 01 01",
        "81 00",
        "21 00",
        "61 00",
        "E1 00",
    ]);
    vec![
        dialogue("silence: A2, A3 and A4", &access).hears_each(whole, &silent()),
        dialogue("silence: nothing is read inside", &access).hears_each(unread, &silent()),
        dialogue("another outer tag but A1", &access).hears_each(others, &reject_null(General(0))),
    ]
}

fn identifier_unreadable() -> Dialogue {
    // After each of these stands a good operation.
    let identifiers = [
        "05 00",
        "0A 01 01",
        "22 03 02 01 01",
        "02 00",
        "02 02 00 7F",
        "02 02 FF 80",
        "02 03 00 80 00",
        "02 80",
        "02 83 00 00 01 01",
        "1F 01 01",
        "02 7F",
    ];
    let components = identifiers.map(|one| invoke(&format!("{one} 02 01 0B")));
    dialogue("identifier unreadable", &sample_profile())
        .hears_each(components.to_vec(), &reject_null(General(1)))
        .hears_hex("A1 00", reject_null(General(1)))
}

fn operation_unreadable() -> Vec<Dialogue> {
    let access = sample_profile();
    let after = [
        "",
        "02 00",
        "02 02 00 0B",
        "02 02 FF FF",
        "02 03 00 00 0B",
        "0A 01 0B",
        "22 03 02 01 0B",
        "06 01 2A",
        "02 02 0B",
        "02 80",
        "05 00",
        "1F 01 0B",
    ];
    let linked = ["80 01 00 02 01 0B", "80 01 00", "80 00 02 01 0B"];
    let read = |after: &str| invoke(&format!("02 01 01 {after}"));
    let mut own = dialogue("operation unreadable: each reject carries its own", &access);
    for identifier in [127, 128, 32_767, -1, -128, -129, -32_768, 0] {
        let component = element(TAG_INVOKE, &integer(identifier));
        own = own.hears(component, reject(identifier, General(1)));
    }
    vec![
        dialogue("operation unreadable, identifier 1 (A13, A14)", &access)
            .hears_each(after.map(read).to_vec(), &reject(1, General(1))),
        dialogue("operation unreadable: a linked identifier (A13)", &access)
            .hears_each(linked.map(read).to_vec(), &reject(1, General(1))),
        own,
    ]
}

fn unknown_operation() -> Dialogue {
    let mut talk = dialogue("operation not 7, 8, 11", &sample_profile());
    for operation in [0, 6, 9, 10, 12, 127, 128, 300, 32_767, -1, -249, -32_768] {
        let contents = [integer(1), integer(operation)].concat();
        talk = talk.hears(element(TAG_INVOKE, &contents), reject(1, Invoke(1)));
    }
    talk
}
