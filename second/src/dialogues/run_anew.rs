//! The run written anew by a result: what is made or removed may stand anywhere in it, and what
//! stays keeps every octet wherever it comes to stand.

use crate::codes::{CFB, CFNR, CFU};
use crate::samples::wide_profile;
use crate::table_record::{place, Place, TableRecord};

use super::script::{dialogue, Dialogue};
use super::words::{
    activation, all_numbers, deactivation, error, individual, result, scribbled, to,
};

pub fn dialogues() -> Vec<Dialogue> {
    let mut all = made_among_others();
    all.extend(removed_among_others());
    all.push(from_full_to_none());
    all
}

/// cfu of the second number's service 5, and cfb of its services 2 and 33, with rubbish.
fn three() -> [Place; 3] {
    [
        scribbled(CFU, 1, 5),
        scribbled(CFB, 1, 2),
        scribbled(CFB, 1, 33),
    ]
}

fn run(places: &[Place]) -> TableRecord {
    TableRecord::holding(0, places)
}

fn on_three(name: &str) -> Dialogue {
    dialogue(name, &wide_profile()).record(run(&three()))
}

fn made(procedure: i32, number: i32, service: i32) -> Place {
    place(procedure, number, service, &to("9"))
}

fn made_among_others() -> Vec<Dialogue> {
    let numbers = wide_profile().numbers;
    let [of_cfu, second, third] = three();
    let activated = |procedure, number: usize, service| {
        let served = individual(&numbers[number]);
        activation(procedure, service, to("9"), served)
    };
    let of_second = [1, 2, 5, 32, 33, 42].map(|service| made(CFB, 1, service));
    vec![
        on_three("run anew: made in front")
            .asks(1, &activated(CFU, 0, 42), result(1))
            .then_record(run(&[made(CFU, 0, 42), of_cfu, second, third])),
        on_three("run anew: made between, by number and by service")
            .asks(1, &activated(CFB, 0, 42), result(1))
            .then_record(run(&[of_cfu, made(CFB, 0, 42), second, third]))
            .asks(2, &activated(CFB, 1, 5), result(2))
            .then_record(run(&[
                of_cfu,
                made(CFB, 0, 42),
                second,
                made(CFB, 1, 5),
                third,
            ])),
        on_three("run anew: made at the end")
            .asks(1, &activated(CFB, 2, 1), result(1))
            .then_record(run(&[of_cfu, second, third, made(CFB, 2, 1)]))
            .asks(2, &activated(CFNR, 0, 1), result(2))
            .then_record(run(&[
                of_cfu,
                second,
                third,
                made(CFB, 2, 1),
                made(CFNR, 0, 1),
            ])),
        on_three("run anew: one of the middle made again, the others stay")
            .asks(1, &activated(CFB, 1, 2), result(1))
            .then_record(run(&[of_cfu, made(CFB, 1, 2), third])),
        on_three("run anew: all services of a number, two of them made again")
            .asks(1, &activated(CFB, 1, 0), result(1))
            .then_record(run(&[&[of_cfu], &of_second[..]].concat())),
        on_three("run anew: a service of all numbers, made around what stays")
            .asks(1, &activation(CFB, 5, to("9"), all_numbers()), result(1))
            .then_record(run(&[
                of_cfu,
                made(CFB, 0, 5),
                second,
                made(CFB, 1, 5),
                third,
                made(CFB, 2, 5),
                made(CFB, 3, 5),
            ])),
    ]
}

fn removed_among_others() -> Vec<Dialogue> {
    let [of_cfu, second, third] = three();
    let removed = |procedure, service| deactivation(procedure, service, all_numbers());
    vec![
        on_three("run anew: removed from the front")
            .asks(1, &removed(CFU, 5), result(1))
            .then_record(run(&[second, third])),
        on_three("run anew: removed from the middle")
            .asks(1, &removed(CFB, 2), result(1))
            .then_record(run(&[of_cfu, third])),
        on_three("run anew: removed from the end")
            .asks(1, &removed(CFB, 33), result(1))
            .then_record(run(&[of_cfu, second])),
        on_three("run anew: two removed, one after the other")
            .asks(1, &removed(CFB, 2), result(1))
            .then_record(run(&[of_cfu, third]))
            .asks(2, &removed(CFB, 2), error(2, 46))
            .asks(3, &removed(CFU, 0), result(3))
            .then_record(run(&[third])),
    ]
}

/// Eight of each procedure, with rubbish.
fn from_full_to_none() -> Dialogue {
    let of = |procedure| {
        let numbers = [0, 1, 2, 3];
        let pairs = numbers.map(|number| [1, 42].map(|service| (number, service)));
        let places = pairs.concat().into_iter();
        places.map(move |(number, service)| scribbled(procedure, number, service))
    };
    let all: Vec<Place> = of(CFU).chain(of(CFB)).chain(of(CFNR)).collect();
    let removed = |procedure, service| deactivation(procedure, service, all_numbers());
    let of_speech: Vec<Place> = of(CFB).step_by(2).collect();
    dialogue("run anew: from 24 instances to none", &wide_profile())
        .record(run(&all))
        .asks(1, &removed(CFU, 0), result(1))
        .then_record(run(&all[8..]))
        .asks(2, &removed(CFNR, 0), result(2))
        .then_record(run(&all[8..16]))
        .asks(3, &removed(CFB, 42), result(3))
        .then_record(run(&of_speech))
        .asks(4, &removed(CFB, 1), result(4))
        .then_record(run(&[]))
}
