//! Forwarded-to addresses and served numbers of every form, handed on whole.

use crate::calls::{Call, Diverted, Notice};
use crate::codes::CFU;
use crate::dialogues::script::{dialogue, Dialogue};
use crate::dialogues::words::{held, to, to_public, with_subaddress, TWENTY};
use crate::numbers::{Address, Number};
use crate::profile::Profile;
use crate::samples::wide_profile;

use super::words::{diverted, first_call, first_diversion, talk, talk_on, SERVICE, THIRD};

pub fn dialogues() -> Vec<Dialogue> {
    let subaddress = with_subaddress(to("24680"), &[0x00]);
    let longest = with_subaddress(to_public(6, TWENTY), &[0xFF; 20]);
    vec![
        forwards_to(
            talk("called with a subaddress, which the notice has not"),
            subaddress,
        ),
        forwards_to(
            talk("called with twenty digits and a subaddress of twenty octets"),
            longest,
        ),
        served_numbers(),
        longest_served_number(),
        judged_at_activation_alone(),
    ]
}

/// The first call is diverted to this address.
fn forwards_to(talk: Dialogue, address: Address) -> Dialogue {
    let diversion = Diverted {
        called: address.clone(),
        notice: Notice::DivertingTo(address.number.clone()),
        ..first_diversion()
    };
    talk.table(0, &[held(CFU, THIRD, SERVICE, address)])
        .calls(&first_call(), diverted(&diversion))
}

/// A49: the redirecting number has form and type, the original digits alone.
fn served_numbers() -> Dialogue {
    let numbers = [
        (0, Number::unknown("100"), "100"),
        (1, Number::public(0, "100"), "100"),
        (2, Number::public(1, "4912345"), "4912345"),
        (3, Number::public(6, "7"), "7"),
    ];
    let all = [0, 1, 2, 3].map(|number| held(CFU, number, SERVICE, to("24680")));
    let talk = dialogue(
        "served numbers: unknown, and public of types 0, 1 and 6",
        &wide_profile(),
    )
    .table(0, &all);
    numbers
        .into_iter()
        .fold(talk, |talk, (number, served, digits)| {
            let call = Call {
                number,
                ..first_call()
            };
            let diversion = Diverted {
                redirecting: served,
                original: digits.as_bytes().to_vec(),
                ..first_diversion()
            };
            talk.calls(&call, diverted(&diversion))
        })
}

fn longest_served_number() -> Dialogue {
    let mut access = wide_profile();
    access.numbers[2] = Number::unknown(TWENTY);
    let diversion = Diverted {
        redirecting: Number::unknown(TWENTY),
        original: TWENTY.as_bytes().to_vec(),
        ..first_diversion()
    };
    talk_on("a served number of twenty digits", &access).calls(&first_call(), diverted(&diversion))
}

/// A6: what errors 12, 14 and 15 shut out of an activation, a table may still hold.
fn judged_at_activation_alone() -> Dialogue {
    let access = Profile {
        prefixes: vec![b"246".to_vec()],
        ..wide_profile()
    };
    let name = "diverted to a special number, to a long international one, to itself (A6)";
    let addresses = [
        to("24680"),
        to_public(1, "1234567890123456"),
        to_public(1, "4912345"),
    ];
    let talk = talk_on(name, &access);
    addresses.into_iter().fold(talk, forwards_to)
}
