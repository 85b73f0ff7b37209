//! Interrogations: the order of a list, whose number each entry carries, the longest list, and
//! tables that hold what an activation would not let in.

use crate::answer::Entry;
use crate::codes::{CFB, CFNR, CFU};
use crate::numbers::{Address, Number};
use crate::profile::Profile;
use crate::samples::{instance, wide_profile};
use crate::table::Instance;

use super::script::{dialogue, Dialogue};
use super::words::{
    activation, all_numbers, error, held, individual, interrogation, list, listed, open_access, to,
    to_public, with_subaddress, SPEECH, TWENTY,
};

pub fn dialogues() -> Vec<Dialogue> {
    let mut all = vec![whole_list(), parts_of_the_list(), nothing_listed()];
    all.extend(own_number());
    all.push(longest());
    all.extend(held_though_an_error());
    all
}

/// Instances of cfb on the wide access, by profile number, then service code.
fn in_order() -> Vec<Instance> {
    vec![
        instance(CFB, 0, 5, "2"),
        instance(CFB, 0, 42, "3"),
        held(CFB, 1, 32, with_subaddress(to_public(2, "6"), &[7, 8])),
        instance(CFB, 2, 1, "4"),
        instance(CFB, 2, 33, "5"),
        instance(CFB, 3, 1, "1"),
    ]
}

/// Each as a list carries it on this access.
fn entries(access: &Profile, instances: &[Instance]) -> Vec<Entry> {
    let entry = |held: &Instance| Some(listed(access.number(held.number)?, held));
    instances.iter().filter_map(entry).collect()
}

/// The table holds them in another order, and one of cfu.
fn on_wide(name: &str) -> Dialogue {
    let of_cfu = instance(CFU, 1, 2, "9");
    let mixed: Vec<_> = in_order().into_iter().rev().chain([of_cfu]).collect();
    dialogue(name, &wide_profile()).table(0, &mixed)
}

fn whole_list() -> Dialogue {
    let all = entries(&wide_profile(), &in_order());
    on_wide("a list by profile number, then service code").asks(
        1,
        &interrogation(CFB, 0, all_numbers()),
        list(1, &all),
    )
}

fn parts_of_the_list() -> Dialogue {
    let access = wide_profile();
    let [second, third] = [1, 2].map(|at| &access.numbers[at]);
    let all = entries(&access, &in_order());
    let speech = [all[3].clone(), all[5].clone()];
    on_wide("a list of one number, of one service, of both")
        .asks(
            1,
            &interrogation(CFB, 0, individual(third)),
            list(1, &all[3..5]),
        )
        .asks(
            2,
            &interrogation(CFB, SPEECH, all_numbers()),
            list(2, &speech),
        )
        .asks(
            3,
            &interrogation(CFB, 32, individual(second)),
            list(3, &all[2..3]),
        )
}

fn nothing_listed() -> Dialogue {
    let access = wide_profile();
    let third = individual(&access.numbers[2]);
    let of_cfu = entries(&access, &[instance(CFU, 1, 2, "9")]);
    on_wide("an empty list where nothing selected is active")
        .asks(1, &interrogation(CFB, 2, all_numbers()), list(1, &[]))
        .asks(2, &interrogation(CFB, 32, third), list(2, &[]))
        .asks(3, &interrogation(CFNR, 0, all_numbers()), list(3, &[]))
        .asks(4, &interrogation(CFU, 0, all_numbers()), list(4, &of_cfu))
}

/// The profile's own number with shortest lengths, however the request's lengths are written.
fn own_number() -> Vec<Dialogue> {
    let access = wide_profile();
    let third = &access.numbers[2];
    let active = instance(CFB, 2, SPEECH, "4");
    let entry = listed(third, &active);
    let talk = |name| dialogue(name, &access).table(0, std::slice::from_ref(&active));
    vec![
        talk("a served number with needless lengths is the same number").hears_hex(
            "A1 23 02 01 01 02 01 0B 30 1B 0A 01 01 0A 01 01 \
                 A1 82 00 0F 0A 81 01 01 12 82 00 07 34 39 31 32 33 34 35 C0 00",
            list(1, std::slice::from_ref(&entry)),
        ),
        talk("the same digits with another type are another number").hears_hex(
            "A1 1C 02 01 01 02 01 0B 30 14 0A 01 01 0A 01 01 \
                 A1 0C 0A 01 02 12 07 34 39 31 32 33 34 35",
            error(1, 6),
        ),
    ]
}

/// Eight entries of 20 digits, public, with 20 octets of subaddress, and an identifier of two
/// octets: 707 octets, all that is lent.
fn longest() -> Dialogue {
    let digits = ["1", "2", "3", "4"].map(|last| format!("{}{last}", &TWENTY[..19]));
    let access = Profile {
        numbers: digits.map(|digits| Number::public(6, &digits)).to_vec(),
        services: vec![41, 42],
        ..wide_profile()
    };
    let address = with_subaddress(to_public(0, TWENTY), &[0xEE; 20]);
    let pairs = [0, 1, 2, 3].map(|number| [41, 42].map(|service| (number, service)));
    let eight: Vec<Instance> = pairs
        .iter()
        .flatten()
        .map(|(number, service)| held(CFNR, *number, *service, address.clone()))
        .collect();
    let all = entries(&access, &eight);
    let ask = interrogation(CFNR, 0, all_numbers());
    dialogue("the longest list takes 707 octets", &access)
        .table(0, &eight)
        .asks(-32_768, &ask, list(-32_768, &all))
        .output(1_024)
        .asks(1, &ask, list(1, &all))
}

/// A6: errors 12, 14 and 15 are judged at activation alone.
fn held_though_an_error() -> Vec<Dialogue> {
    let access = Profile {
        prefixes: vec![b"112".to_vec()],
        ..open_access()
    };
    let own = &access.numbers[0];
    let talk = |name: &str, address: Address, code| {
        let active = held(CFB, 0, SPEECH, address.clone());
        dialogue(name, &access)
            .table(0, std::slice::from_ref(&active))
            .asks(
                1,
                &interrogation(CFB, 0, all_numbers()),
                list(1, &[listed(own, &active)]),
            )
            .asks(
                2,
                &activation(CFB, SPEECH, address, all_numbers()),
                error(2, code),
            )
    };
    vec![
        talk(
            "a table may hold a public type 1 number of 16 digits",
            to_public(1, "1234567890123456"),
            12,
        ),
        talk(
            "a table may hold a public type 1 number of 20 digits",
            to_public(1, TWENTY),
            12,
        ),
        talk(
            "a table may hold a number that begins with a prefix",
            to("11288"),
            14,
        ),
        talk("a table may hold the served number itself", to("13579"), 15),
    ]
}
