//! The last handled identifier: what is a duplicate, what moves it and what does not.

use crate::answer::Problem::{General, Invoke};
use crate::codes::{CFB, CFU};
use crate::profile::Profile;
use crate::samples::{instance, sample_profile};

use super::script::{dialogue, Dialogue};
use super::words::{
    activation, all_numbers, deactivation, error, interrogation, invoke, list, reject, result,
    silent, to, SPEECH,
};

pub fn dialogues() -> Vec<Dialogue> {
    let mut all = counted();
    all.push(what_moves_it());
    all.push(what_does_not());
    all.extend(not_counted());
    all
}

fn ask() -> crate::request::Request {
    interrogation(CFB, 0, all_numbers())
}

fn duplicates(talk: Dialogue, identifiers: &[i32]) -> Dialogue {
    let ones = identifiers.iter();
    ones.fold(talk, |talk, one| {
        talk.asks(*one, &ask(), reject(*one, Invoke(0)))
    })
}

/// Each above the one before.
fn listed(talk: Dialogue, identifiers: &[u16]) -> Dialogue {
    let ones = identifiers.iter();
    ones.fold(talk, |talk, one| {
        let identifier = i32::from(*one);
        talk.asks(identifier, &ask(), list(identifier, &[]))
            .then_last(*one)
    })
}

fn counted() -> Vec<Dialogue> {
    let access = sample_profile();
    let at = |name, last| dialogue(name, &access).table(last, &[]);
    let fresh = at("counted, fresh: 0 and below are duplicates (A27)", 0);
    let fresh = duplicates(fresh, &[0, -1, -128, -129, -32_768]);
    let around = at(
        "counted, last handled 300: 299 and 300 are duplicates, 301 is not",
        300,
    );
    let around = listed(duplicates(around, &[299, 300, -300]), &[301]);
    let gaps = at(
        "counted: gaps are welcome, at every length of identifier",
        0,
    );
    let gaps = listed(gaps, &[1, 2, 9, 126, 127, 128, 129, 255, 256, 257, 32_766]);
    let greatest = listed(at("counted: 32,767 and then none", 32_766), &[32_767]);
    let greatest = duplicates(greatest, &[32_767, 32_766, 1, 0, -1, -32_768]);
    vec![
        listed(fresh, &[1]),
        duplicates(around, &[301, 300, 1]),
        gaps,
        greatest,
        duplicates(
            at("counted, last handled 32,767", 32_767),
            &[32_767, 5, -32_768],
        ),
    ]
}

/// A result, an error and a list move it.
fn what_moves_it() -> Dialogue {
    let active = [instance(CFB, 0, SPEECH, "24680")];
    dialogue(
        "counted: results, lists and every error move it (A36)",
        &sample_profile(),
    )
    .asks(
        1,
        &activation(CFB, SPEECH, to("24680"), all_numbers()),
        result(1),
    )
    .then_holds(1, &active)
    .asks(3, &interrogation(CFU, 0, all_numbers()), error(3, 0))
    .then_holds(3, &active)
    .asks(
        3,
        &deactivation(CFB, 0, all_numbers()),
        reject(3, Invoke(0)),
    )
    .asks(
        4,
        &activation(CFB, SPEECH, to("13579"), all_numbers()),
        error(4, 15),
    )
    .then_holds(4, &active)
    .asks(200, &deactivation(CFB, 0, all_numbers()), result(200))
    .then_holds(200, &[])
    .asks(201, &deactivation(CFB, 0, all_numbers()), error(201, 46))
    .then_holds(201, &[])
    .asks(
        201,
        &activation(CFB, SPEECH, to("24680"), all_numbers()),
        reject(201, Invoke(0)),
    )
}

/// A rejected identifier isn't used up and may come again.
fn what_does_not() -> Dialogue {
    dialogue(
        "counted: rejects and silence change nothing (A28)",
        &sample_profile(),
    )
    .table(5, &[instance(CFB, 0, SPEECH, "24680")])
    .hears(invoke("02 01 06"), reject(6, General(1)))
    .hears(invoke("02 01 06 02 01 09"), reject(6, Invoke(1)))
    .hears(invoke("02 01 06 02 01 08 30 00"), reject(6, Invoke(2)))
    .hears_hex("A2 03 02 01 06", silent())
    .hears_hex("A3 06 02 01 06 02 01 00", silent())
    .asks(
        5,
        &deactivation(CFB, 0, all_numbers()),
        reject(5, Invoke(0)),
    )
    .asks(6, &deactivation(CFB, 0, all_numbers()), result(6))
    .then_holds(6, &[])
}

fn not_counted() -> Vec<Dialogue> {
    let access = Profile {
        counted: 0,
        ..sample_profile()
    };
    let mut talk = dialogue(
        "not counted: every identifier is welcome, the last never moves",
        &access,
    )
    .table(300, &[]);
    for identifier in [
        301, 300, 299, 300, 1, 0, -1, -128, -129, -32_768, 32_767, 32_767,
    ] {
        talk = talk.asks(identifier, &ask(), list(identifier, &[]));
    }
    let activated = activation(CFB, SPEECH, to("24680"), all_numbers());
    let again = dialogue(
        "not counted: the same request again is handled again",
        &access,
    )
    .asks(-7, &activated, result(-7))
    .then_holds(0, &[instance(CFB, 0, SPEECH, "24680")])
    .asks(-7, &activated, result(-7))
    .asks(-7, &deactivation(CFB, 0, all_numbers()), result(-7))
    .then_holds(0, &[])
    .asks(-7, &deactivation(CFB, 0, all_numbers()), error(-7, 46));
    let full_range = dialogue("not counted: a table's last 32,767 stays (A4)", &access)
        .table(32_767, &[])
        .asks(1, &activated, result(1))
        .then_holds(32_767, &[instance(CFB, 0, SPEECH, "24680")]);
    vec![talk, again, full_range]
}
