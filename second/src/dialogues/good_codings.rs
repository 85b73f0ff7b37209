//! Unusual but good codings, and how deep skipped elements may lie.

use crate::answer::Problem::Invoke;
use crate::codes::{CFB, PUBLIC_TYPES};
use crate::elements::{element, enumerated, TAG_SEQUENCE};
use crate::request::TAG_INVOKE;
use crate::samples::instance;

use super::script::{dialogue, Dialogue};
use super::words::{
    activation, all_numbers, error, held, invoke_with, list, listed, open_access, reject, result,
    to, to_public, with_subaddress, SPEECH, TWENTY,
};

pub fn dialogues() -> Vec<Dialogue> {
    vec![
        needless_lengths(),
        service_omitted(),
        fewest_and_most(),
        every_public_type(),
        other_kinds(),
        user_specified_contents(),
        private_elements(),
        depth_of_elements(),
        skipped_contents(),
    ]
}

fn needless_lengths() -> Dialogue {
    dialogue(
        "lengths 81 and 82 also for small values (A12, A24)",
        &open_access(),
    )
    .hears_hex(
        "A1 81 1C 02 81 01 01 02 82 00 01 07 \
             30 82 00 0F 0A 81 01 01 0A 01 01 30 03 80 01 35 05 81 00",
        result(1),
    )
    .then_holds(0, &[instance(CFB, 0, SPEECH, "5")])
    .hears_hex(
        "A1 82 00 1D 02 01 02 02 01 07 \
             30 81 14 0A 01 01 0A 01 01 30 82 00 06 80 82 00 02 36 37 05 82 00 00",
        result(2),
    )
    .then_holds(0, &[instance(CFB, 0, SPEECH, "67")])
}

fn service_omitted() -> Dialogue {
    let active = instance(CFB, 0, SPEECH, "24680");
    let own = &open_access().numbers[0];
    let listed = list(1, &[listed(own, &active)]);
    dialogue(
        "an interrogation may omit the basic service (A25)",
        &open_access(),
    )
    .table(0, std::slice::from_ref(&active))
    .hears(invoke_with("0B", "0A 01 01 05 00"), listed.clone())
    .hears(invoke_with("0B", "0A 01 01 0A 01 00 05 00"), listed.clone())
    .hears(invoke_with("0B", "0A 01 01 80 01 35"), listed)
}

fn fewest_and_most() -> Dialogue {
    let fewest = with_subaddress(to("0"), &[0xFF]);
    let most = with_subaddress(to(TWENTY), &[0xA5; 20]);
    let longest_public = with_subaddress(to_public(6, TWENTY), &[0; 20]);
    let mut talk = dialogue(
        "1 and 20 digits, subaddress of 1 and 20 octets",
        &open_access(),
    );
    for address in [fewest, most, longest_public] {
        let request = activation(CFB, SPEECH, address.clone(), all_numbers());
        talk = talk
            .asks(1, &request, result(1))
            .then_holds(0, &[held(CFB, 0, SPEECH, address)]);
    }
    talk
}

fn every_public_type() -> Dialogue {
    let mut talk = dialogue(
        "public numbers of types 0, 1, 2, 3, 4 and 6",
        &open_access(),
    );
    for number_type in PUBLIC_TYPES {
        let address = to_public(number_type, "4930");
        let request = activation(CFB, SPEECH, address.clone(), all_numbers());
        talk = talk
            .asks(1, &request, result(1))
            .then_holds(0, &[held(CFB, 0, SPEECH, address)]);
    }
    talk
}

fn other_kinds() -> Dialogue {
    let mut talk = dialogue(
        "other kinds of number: whole, contents not read (A20)",
        &open_access(),
    );
    for number in [
        "82 00",
        "83 01 FF",
        "84 02 1F 80",
        "A5 01 80",
        "88 81 01 00",
    ] {
        let length = number.split_whitespace().count();
        let argument = format!("0A 01 01 0A 01 01 30 {length:02X} {number} 05 00");
        talk = talk.hears(invoke_with("07", &argument), error(1, 12));
    }
    talk
}

fn user_specified_contents() -> Dialogue {
    let mut talk = dialogue(
        "user-specified subaddress: contents not read (A21)",
        &open_access(),
    );
    for subaddress in ["30 00", "30 01 80", "30 02 1F FF", "30 81 01 00"] {
        let length = 3 + subaddress.split_whitespace().count();
        let argument = format!("0A 01 01 0A 01 01 30 {length:02X} 80 01 35 {subaddress} 05 00");
        talk = talk.hears(invoke_with("07", &argument), error(1, 11));
    }
    talk
}

fn private_elements() -> Dialogue {
    let empty = list(1, &[]);
    let mut talk = dialogue(
        "private-class elements after the last known one",
        &open_access(),
    );
    for private in [
        "C0 00",
        "C1 02 05 00 DE 00",
        "E0 00 C0 01 80",
        "FE 82 00 02 04 00",
    ] {
        let argument = format!("0A 01 01 0A 01 00 05 00 {private}");
        talk = talk.hears(invoke_with("0B", &argument), empty.clone());
    }
    let after_address = "0A 01 01 0A 01 01 30 03 80 01 35 80 01 36 C0 00";
    talk.hears(
        invoke_with("08", "0A 01 01 0A 01 00 05 00 E1 02 05 00"),
        error(1, 46),
    )
    .hears(invoke_with("07", after_address), result(1))
    .then_holds(0, &[instance(CFB, 0, SPEECH, "5")])
}

/// An interrogation of cfb with a private-class element, inside which others lie to this depth.
/// The innermost is primitive or constructed.
fn nested(depth: usize, innermost: u8) -> Vec<u8> {
    let mut skipped = element(
        if depth == 1 {
            innermost | 0xC0
        } else {
            innermost
        },
        &[],
    );
    for level in (1..depth).rev() {
        skipped = element(if level == 1 { 0xE0 } else { 0x30 }, &skipped);
    }
    let known = [enumerated(CFB), enumerated(0), vec![0x05, 0x00]].concat();
    let argument = element(TAG_SEQUENCE, &[known, skipped].concat());
    let before = vec![0x02, 0x01, 0x01, 0x02, 0x01, 0x0B];
    element(TAG_INVOKE, &[before, argument].concat())
}

fn depth_of_elements() -> Dialogue {
    let mut talk = dialogue(
        "skipped elements to a depth of 8, not 9 (A18)",
        &open_access(),
    );
    for innermost in [0x04, 0x20] {
        for depth in [1, 2, 7, 8] {
            talk = talk.hears(nested(depth, innermost), list(1, &[]));
        }
        for depth in [9, 10, 60] {
            talk = talk.hears(nested(depth, innermost), reject(1, Invoke(2)));
        }
    }
    talk
}

fn skipped_contents() -> Dialogue {
    let asked = |private: &str| invoke_with("0B", &format!("0A 01 01 0A 01 00 05 00 {private}"));
    let name = "skipped elements: contents of constructed ones are elements (A17, A19)";
    let mut talk = dialogue(name, &open_access());
    // Two deep ones beside each other; every class inside; a primitive one holds anything.
    for good in [
        "E0 04 30 00 30 00",
        "E0 06 04 00 41 00 81 00",
        "C0 03 FF 80 1F",
    ] {
        talk = talk.hears(asked(good), list(1, &[]));
    }
    for bad in [
        "E0 01 80",
        "E0 02 04 01",
        "E0 02 1F 00",
        "E0 02 04 80",
        "E0 03 30 01 04",
    ] {
        talk = talk.hears(asked(bad), reject(1, Invoke(2)));
    }
    talk
}
