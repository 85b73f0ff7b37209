//! Two faults at once: each row of the reply table before the next ones, and every reject before
//! every error.

use crate::answer::Problem::{General, Invoke};
use crate::codes::CFB;
use crate::profile::Profile;
use crate::samples::{instance, sample_profile};

use super::script::{dialogue, Dialogue};
use super::words::{
    activation, all_numbers, error, invoke, invoke_with, reject, reject_null, result, silent, to,
    to_other_kind, user_specified, SPEECH,
};

pub fn dialogues() -> Vec<Dialogue> {
    let mut all = among_rejects();
    all.extend(duplicate_first());
    all.extend(before_error_3());
    all.extend(before_other_errors());
    all
}

/// Argument of an interrogation that can't be read: procedure 3.
const BAD_ARGUMENT: &str = "30 08 0A 01 03 0A 01 00 05 00";

/// The sample access, last handled 5.
fn handled_five(name: &str) -> Dialogue {
    dialogue(name, &sample_profile()).table(5, &[])
}

fn among_rejects() -> Vec<Dialogue> {
    vec![
        handled_five("not one element before another outer tag")
            .hears_hex("A5 01", reject_null(General(2)))
            .hears_hex("A5 00", reject_null(General(0))),
        handled_five("another outer tag before an unreadable identifier")
            .hears_hex("A6 02 05 00", reject_null(General(0)))
            .hears_hex("A1 02 05 00", reject_null(General(1))),
        handled_five("silence before an unreadable identifier")
            .hears_hex("A4 02 02 00", silent())
            .hears_hex("A1 02 02 00", reject_null(General(1))),
        handled_five("identifier unreadable before operation unreadable")
            .hears(invoke("02 02 00 05 80 01 01"), reject_null(General(1)))
            .hears(invoke("02 01 05 80 01 01"), reject(5, General(1))),
        handled_five("operation unreadable before duplicate (A28)")
            .hears(invoke("02 01 05"), reject(5, General(1)))
            .hears(invoke("02 01 FF 02 02 00 07"), reject(-1, General(1)))
            .hears(invoke("02 01 05 02 01 09"), reject(5, Invoke(0))),
        handled_five("unknown operation before an unreadable argument")
            .hears(
                invoke(&format!("02 01 06 02 01 09 {BAD_ARGUMENT}")),
                reject(6, Invoke(1)),
            )
            .hears(
                invoke(&format!("02 01 06 02 01 0B {BAD_ARGUMENT}")),
                reject(6, Invoke(2)),
            ),
    ]
}

fn duplicate_first() -> Vec<Dialogue> {
    let not_subscribed = invoke("02 01 05 02 01 0B 30 08 0A 01 00 0A 01 00 05 00");
    let mended = invoke("02 01 06 02 01 0B 30 08 0A 01 00 0A 01 00 05 00");
    let good = activation(CFB, SPEECH, to("24680"), all_numbers());
    vec![
        handled_five("duplicate before unknown operation")
            .hears(invoke("02 01 05 02 01 0A"), reject(5, Invoke(0)))
            .hears(invoke("02 01 06 02 01 0A"), reject(6, Invoke(1))),
        handled_five("duplicate before an unreadable argument")
            .hears(
                invoke(&format!("02 01 05 02 01 0B {BAD_ARGUMENT}")),
                reject(5, Invoke(0)),
            )
            .hears(invoke("02 01 05 02 01 07"), reject(5, Invoke(0)))
            .hears(
                invoke(&format!("02 01 06 02 01 0B {BAD_ARGUMENT}")),
                reject(6, Invoke(2)),
            ),
        handled_five("duplicate before error 0")
            .hears(not_subscribed, reject(5, Invoke(0)))
            .hears(mended, error(6, 0))
            .then_last(6),
        handled_five("duplicate of a good request changes nothing")
            .asks(5, &good, reject(5, Invoke(0)))
            .asks(6, &good, result(6))
            .then_holds(6, &[instance(CFB, 0, SPEECH, "24680")]),
    ]
}

fn before_error_3() -> Vec<Dialogue> {
    let not_in_use = Profile {
        in_use: 0,
        ..sample_profile()
    };
    let argument = "0A 01 01 0A 01 00 05 00";
    let unreadable = vec![
        invoke_with("0B", "0A 01 01 0A 01 06 05 00"),
        invoke_with("0B", "0A 01 01 0A 01 00 05 01 00"),
    ];
    vec![
        dialogue("unknown operation before error 3", &not_in_use)
            .hears(invoke_with("09", argument), reject(1, Invoke(1)))
            .hears(invoke_with("0B", argument), error(1, 3))
            .then_last(1),
        dialogue("argument unreadable before error 3", &not_in_use)
            .hears_each(unreadable, &reject(1, Invoke(2))),
    ]
}

fn before_other_errors() -> Vec<Dialogue> {
    let before_0 = vec![
        invoke_with("0B", "0A 01 00 0A 01 06 05 00"),
        invoke_with("0B", "0A 01 03 0A 01 00 05 00"),
    ];
    // No digits and an unsubscribed service; no served number after another kind of number and a
    // user-specified subaddress; something after the served number, with both.
    let before_8_11_12 = vec![
        invoke_with("07", "0A 01 01 0A 01 02 30 02 80 00 05 00"),
        invoke_with("07", "0A 01 01 0A 01 01 30 04 82 00 30 00"),
        invoke_with("07", "0A 01 01 0A 01 01 30 04 82 00 30 00 05 00 05 00"),
    ];
    let both = user_specified(to_other_kind());
    vec![
        dialogue("argument unreadable before error 0", &sample_profile())
            .hears_each(before_0, &reject(1, Invoke(2)))
            .hears(invoke_with("0B", "0A 01 00 0A 01 00 05 00"), error(1, 0))
            .then_last(1),
        dialogue(
            "argument unreadable before errors 8, 11 and 12",
            &sample_profile(),
        )
        .hears_each(before_8_11_12, &reject(1, Invoke(2)))
        .asks(
            1,
            &activation(CFB, SPEECH, both, all_numbers()),
            error(1, 11),
        )
        .then_last(1),
    ]
}
