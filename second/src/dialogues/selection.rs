//! Which numbers and services a request selects: MSN or not, the "all numbers" option, individual
//! numbers, one service or all.

use crate::answer::Problem::Invoke;
use crate::codes::{CFB, CFNR, CFU};
use crate::numbers::Number;
use crate::profile::Profile;
use crate::request::{Request, Served};
use crate::samples::{instance, sample_profile, wide_profile};
use crate::table::Instance;
use crate::transcript::Said;

use super::script::{dialogue, Dialogue};
use super::words::{
    activation, all_numbers, deactivation, error, individual, interrogation, invoke_with, list,
    listed, nine_pairs, reject, result, to, SPEECH,
};

pub fn dialogues() -> Vec<Dialogue> {
    let mut all = all_numbers_without_msn();
    all.push(ignored_number());
    all.push(own_number_without_msn());
    all.push(unreadable_number());
    all.push(in_the_profile());
    all.push(not_in_the_profile());
    all.extend(all_numbers_with_msn());
    all.push(msn_with_one_number());
    all.extend(activations());
    all.push(unsubscribed_service());
    all.push(each_procedure());
    all
}

fn uncounted_sample() -> Profile {
    Profile {
        counted: 0,
        ..sample_profile()
    }
}

fn to_777() -> Instance {
    instance(CFB, 0, SPEECH, "777")
}

/// The list of cfb forwarded to 777, with the sample's own number.
fn list_of_777(identifier: i32) -> Said {
    let own = &sample_profile().numbers[0];
    list(identifier, &[listed(own, &to_777())])
}

fn all_numbers_without_msn() -> Vec<Dialogue> {
    let option_on = Profile {
        all_numbers: 1,
        ..uncounted_sample()
    };
    let ask = activation(CFB, SPEECH, to("777"), all_numbers());
    let names = [
        ("no MSN: all numbers without the option", uncounted_sample()),
        (
            "no MSN: all numbers with the option, which has no effect (A2)",
            option_on,
        ),
    ];
    let talks = names.map(|(name, access)| {
        dialogue(name, &access)
            .asks(1, &ask, result(1))
            .then_holds(0, &[to_777()])
            .asks(2, &interrogation(CFB, 0, all_numbers()), list_of_777(2))
    });
    talks.into()
}

fn ignored_number() -> Dialogue {
    let name = "no MSN: any served number is read but ignored (A29, A33, A74)";
    let foreign = individual(&Number::public(3, "777"));
    let other_kind = individual(&Number::other_kind());
    let ask = activation(CFB, SPEECH, to("777"), foreign.clone());
    dialogue(name, &uncounted_sample())
        .asks(1, &ask, result(1))
        .then_holds(0, &[to_777()])
        .asks(2, &interrogation(CFB, 0, foreign), list_of_777(2))
        .asks(
            3,
            &interrogation(CFB, 0, other_kind.clone()),
            list_of_777(3),
        )
        .asks(4, &deactivation(CFB, 0, other_kind), result(4))
        .then_holds(0, &[])
}

fn own_number_without_msn() -> Dialogue {
    let name = "no MSN: 15 compares with the profile's number, not the one named (A29)";
    let named = individual(&Number::unknown("777"));
    let to_own = activation(CFB, SPEECH, to("13579"), named.clone());
    let to_named = activation(CFB, SPEECH, to("777"), named);
    dialogue(name, &uncounted_sample())
        .asks(1, &to_own, error(1, 15))
        .asks(2, &to_named, result(2))
        .then_holds(0, &[to_777()])
}

fn unreadable_number() -> Dialogue {
    let name = "no MSN: a served number that can't be read is still invoke 2 (A23)";
    dialogue(name, &uncounted_sample()).hears(
        invoke_with("0B", "0A 01 01 0A 01 00 80 01 3A"),
        reject(1, Invoke(2)),
    )
}

fn of_cfu(served: Served) -> Request {
    interrogation(CFU, 0, served)
}

fn in_the_profile() -> Dialogue {
    let access = wide_profile();
    let talk = dialogue("MSN: every individual number of the profile", &access);
    let numbers = access.numbers.iter();
    numbers.fold(talk, |talk, number| {
        talk.asks(1, &of_cfu(individual(number)), list(1, &[]))
    })
}

fn not_in_the_profile() -> Dialogue {
    let name = "MSN: individual numbers not in the profile, 6 (A29, A74)";
    let numbers = [
        Number::unknown("1"),
        Number::unknown("1000"),
        Number::unknown("4912345"),
        Number::public(1, "100"),
        Number::public(0, "7"),
        Number::other_kind(),
    ];
    let talk = dialogue(name, &wide_profile());
    numbers.iter().fold(talk, |talk, number| {
        talk.asks(1, &of_cfu(individual(number)), error(1, 6))
    })
}

fn without_option() -> Profile {
    Profile {
        all_numbers: 0,
        ..wide_profile()
    }
}

fn all_numbers_with_msn() -> Vec<Dialogue> {
    let access = without_option();
    let third = individual(&access.numbers[2]);
    let activated = activation(CFU, SPEECH, to("5"), all_numbers());
    vec![
        dialogue("MSN: all numbers with the option", &wide_profile()).asks(
            1,
            &of_cfu(all_numbers()),
            list(1, &[]),
        ),
        dialogue("MSN: all numbers without the option, 6", &access)
            .asks(1, &of_cfu(all_numbers()), error(1, 6))
            .asks(1, &activated, error(1, 6))
            .asks(1, &deactivation(CFU, SPEECH, all_numbers()), error(1, 6))
            .asks(1, &of_cfu(third), list(1, &[])),
    ]
}

fn msn_with_one_number() -> Dialogue {
    let number = Number::unknown("100");
    let access = Profile {
        numbers: vec![number.clone()],
        ..without_option()
    };
    dialogue("MSN with one number (A2)", &access)
        .asks(1, &of_cfu(all_numbers()), error(1, 6))
        .asks(2, &of_cfu(individual(&number)), list(2, &[]))
        .asks(3, &of_cfu(individual(&Number::unknown("101"))), error(3, 6))
}

/// Of nine pairs: cfb of the first number's service 3 and the second's, cfu of the second's.
fn three_held() -> [Instance; 3] {
    [
        instance(CFB, 0, 3, "2"),
        instance(CFU, 1, 3, "3"),
        instance(CFB, 1, 3, "1"),
    ]
}

fn on_three(name: &str) -> Dialogue {
    dialogue(name, &nine_pairs()).table(0, &three_held())
}

fn second_number() -> Served {
    individual(&nine_pairs().numbers[1])
}

fn activations() -> Vec<Dialogue> {
    let ask = |service, served| activation(CFB, service, to("9"), served);
    let new = |number, service| instance(CFB, number, service, "9");
    let [first, of_cfu, old] = three_held();
    let one = [first.clone(), of_cfu.clone(), new(1, 3)];
    let of_number = [
        new(1, 1),
        new(1, 3),
        new(1, 32),
        first.clone(),
        of_cfu.clone(),
    ];
    let of_service = [new(0, 32), new(1, 32), new(2, 32), first, of_cfu, old];
    vec![
        on_three("activation of one number and service replaces the older address")
            .asks(1, &ask(3, second_number()), result(1))
            .then_holds(1, &one),
        on_three("activation of all services of one number")
            .asks(1, &ask(0, second_number()), result(1))
            .then_holds(1, &of_number),
        on_three("activation of one service of all numbers")
            .asks(1, &ask(32, all_numbers()), result(1))
            .then_holds(1, &of_service),
    ]
}

fn unsubscribed_service() -> Dialogue {
    on_three("8 is for an activation alone; an interrogation's list is empty (A30)")
        .asks(
            1,
            &activation(CFB, 42, to("9"), second_number()),
            error(1, 8),
        )
        .then_last(1)
        .asks(2, &interrogation(CFB, 42, second_number()), list(2, &[]))
        .then_last(2)
        .asks(3, &deactivation(CFB, 42, second_number()), error(3, 46))
        .then_last(3)
}

fn each_procedure() -> Dialogue {
    let third = individual(&nine_pairs().numbers[2]);
    let after = [&three_held()[..], &[instance(CFNR, 2, 1, "9")]].concat();
    on_three("each procedure by itself")
        .asks(1, &activation(CFNR, 1, to("9"), third), result(1))
        .then_holds(1, &after)
        .asks(2, &interrogation(CFNR, 0, second_number()), list(2, &[]))
        .then_last(2)
}
