//! At most 8 instances for each procedure, all or nothing.

use crate::codes::{CFB, CFNR, CFU};
use crate::numbers::Number;
use crate::profile::Profile;
use crate::samples::instance;
use crate::table::Instance;

use super::script::{dialogue, Dialogue};
use super::words::{
    activation, all_numbers, deactivation, error, every_pair, individual, instances, nine_pairs,
    result, to,
};

pub fn dialogues() -> Vec<Dialogue> {
    let mut all = fits_exactly();
    all.extend(one_too_many());
    all.push(number_by_number());
    all.extend(replacing());
    all.push(each_procedure_by_itself());
    all
}

/// Two numbers of four services: eight pairs for each procedure.
fn eight_pairs() -> Profile {
    Profile {
        numbers: nine_pairs().numbers[..2].to_vec(),
        services: vec![1, 2, 3, 4],
        ..nine_pairs()
    }
}

fn fits_exactly() -> Vec<Dialogue> {
    let eight = every_pair(CFB, &[0, 1], &[1, 2, 3, 4], "9");
    let everything = activation(CFB, 0, to("9"), all_numbers());
    let some = instances(CFB, &[(0, 1), (0, 4), (1, 2)], "1");
    vec![
        dialogue("all services, all numbers: 8 fit exactly", &eight_pairs())
            .asks(1, &everything, result(1))
            .then_holds(1, &eight),
        dialogue(
            "all services, all numbers: replacing existing ones does not count twice",
            &eight_pairs(),
        )
        .table(0, &some)
        .asks(1, &everything, result(1))
        .then_holds(1, &eight)
        .asks(2, &activation(CFB, 0, to("8"), all_numbers()), result(2))
        .then_holds(2, &every_pair(CFB, &[0, 1], &[1, 2, 3, 4], "8")),
    ]
}

fn one_too_many() -> Vec<Dialogue> {
    let everything = activation(CFB, 0, to("9"), all_numbers());
    let some = instances(CFB, &[(0, 1), (2, 32)], "1");
    let six = every_pair(CFB, &[0, 1], &[1, 3, 32], "1");
    let third = individual(&nine_pairs().numbers[2]);
    vec![
        dialogue(
            "all services, all numbers: 9 are one too many, nothing is kept",
            &nine_pairs(),
        )
        .asks(1, &everything, error(1, 11))
        .then_last(1),
        dialogue(
            "all services, all numbers: one too many, older addresses stay",
            &nine_pairs(),
        )
        .table(0, &some)
        .asks(1, &everything, error(1, 11))
        .then_last(1),
        dialogue(
            "all services of one number: 9 afterwards, none is kept",
            &nine_pairs(),
        )
        .table(0, &six)
        .asks(1, &activation(CFB, 0, to("9"), third), error(1, 11))
        .then_last(1),
    ]
}

/// The table grows one by one to 8; the ninth is refused, and welcome once one is gone.
fn number_by_number() -> Dialogue {
    let access = nine_pairs();
    let one = |service, number: &Number| activation(CFU, service, to("9"), individual(number));
    let [first, second, third] = [0, 1, 2].map(|at| &access.numbers[at]);
    let six = every_pair(CFU, &[0, 1], &[1, 3, 32], "9");
    let seven = [&six[..], &instances(CFU, &[(2, 1)], "9")].concat();
    let eight = [&seven[..], &instances(CFU, &[(2, 32)], "9")].concat();
    let moved = [&eight[1..], &instances(CFU, &[(2, 3)], "9")].concat();
    dialogue("the table grows to 8 and no further", &access)
        .asks(1, &one(0, first), result(1))
        .then_holds(1, &six[..3])
        .asks(2, &one(0, second), result(2))
        .then_holds(2, &six)
        .asks(3, &one(0, third), error(3, 11))
        .then_last(3)
        .asks(4, &one(1, third), result(4))
        .then_holds(4, &seven)
        .asks(5, &one(32, third), result(5))
        .then_holds(5, &eight)
        .asks(6, &one(3, third), error(6, 11))
        .then_last(6)
        .asks(7, &deactivation(CFU, 1, individual(first)), result(7))
        .then_holds(7, &eight[1..])
        .asks(8, &one(3, third), result(8))
        .then_holds(8, &moved)
}

/// Every pair of cfb but service 32 of the third number.
fn eight() -> Vec<Instance> {
    let of_first_two = every_pair(CFB, &[0, 1], &[1, 3, 32], "1");
    [of_first_two, every_pair(CFB, &[2], &[1, 3], "1")].concat()
}

/// The eight with some of them forwarded to 9.
fn eight_with(replaced: fn(&Instance) -> bool) -> Vec<Instance> {
    let held = eight().into_iter();
    held.map(|one| match replaced(&one) {
        true => instance(CFB, one.number, one.service, "9"),
        false => one,
    })
    .collect()
}

fn replacing() -> Vec<Dialogue> {
    let [first, third] = [0, 2].map(|at| individual(&nine_pairs().numbers[at]));
    let ask = |service, served| activation(CFB, service, to("9"), served);
    let talk = |name| dialogue(name, &nine_pairs()).table(0, &eight());
    vec![
        talk("8 held: one replaced")
            .asks(1, &ask(3, third.clone()), result(1))
            .then_holds(1, &eight_with(|one| one.number == 2 && one.service == 3)),
        talk("8 held: all services of a number replaced")
            .asks(1, &ask(0, first), result(1))
            .then_holds(1, &eight_with(|one| one.number == 0)),
        talk("8 held: a service of all numbers replaced")
            .asks(1, &ask(1, all_numbers()), result(1))
            .then_holds(1, &eight_with(|one| one.service == 1)),
        talk("8 held: two replaced and one new are one too many")
            .asks(1, &ask(0, third), error(1, 11))
            .then_last(1)
            .asks(2, &ask(32, all_numbers()), error(2, 11))
            .then_last(2),
    ]
}

fn each_procedure_by_itself() -> Dialogue {
    let all_of = |procedure| activation(procedure, 0, to("9"), all_numbers());
    let of = |procedure| every_pair(procedure, &[0, 1], &[1, 2, 3, 4], "9");
    dialogue("8 for each procedure: 24 in all", &eight_pairs())
        .asks(1, &all_of(CFNR), result(1))
        .then_holds(1, &of(CFNR))
        .asks(2, &all_of(CFU), result(2))
        .then_holds(2, &[of(CFU), of(CFNR)].concat())
        .asks(3, &all_of(CFB), result(3))
        .then_holds(3, &[of(CFU), of(CFB), of(CFNR)].concat())
}
