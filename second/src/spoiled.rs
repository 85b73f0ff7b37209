//! Records spoiled at random: each change breaks one rule of document 01 for certain, so that a
//! good record spoiled once must be refused by its number.

use crate::calls::Call;
use crate::end::{End, Outstanding};
use crate::numbers::{Address, Number, Subaddress};
use crate::profile::Profile;
use crate::random::Random;
use crate::request::{Request, Served};
use crate::table::{Instance, Table};

const NO_FLAGS: [i32; 4] = [-1, 2, 200, i32::MAX];
const NO_SERVICES: [i32; 6] = [-1, 6, 31, 43, 255, i32::MIN];
const NO_PROCEDURES: [i32; 4] = [-1, 3, 200, i32::MAX];

pub fn spoil_number(random: &mut Random, number: &mut Number) {
    match random.below(6) {
        0 => number.form = random.one_of(&[-1, 2, 3, 200]),
        1 => {
            number.number_type = random.one_of(&[5, 7, -1, 200]);
        }
        2 => number.digits.clear(),
        3 => number.digits = vec![b'5'; random.one_of(&[21, 25, 300])],
        4 => {
            let bad = random.one_of(b" */:a\x00\xFF");
            match random.pick(&number.digits).copied() {
                Some(digit) => number.digits = vec![digit, bad],
                None => number.digits = vec![bad],
            }
        }
        _ => {
            // A7: a type with an unknown form.
            number.form = 0;
            number.number_type = random.one_of(&[1, 2, 3, 4, 6]);
        }
    }
}

pub fn spoil_address(random: &mut Random, address: &mut Address) {
    match random.below(4) {
        0 => address.subaddress = Subaddress::UserSpecified,
        1 => address.subaddress = Subaddress::Octets(Vec::new()),
        2 => address.subaddress = Subaddress::Octets(vec![7; random.one_of(&[21, 22, 255])]),
        _ => spoil_number(random, &mut address.number),
    }
}

pub fn spoil_profile(random: &mut Random, profile: &mut Profile) {
    match random.below(12) {
        0 => spoil_numbers(random, profile),
        1 => spoil_services(random, profile),
        2 => profile.subscribed[random.below(3)] = random.one_of(&NO_FLAGS),
        3 => profile.msn = random.one_of(&NO_FLAGS),
        4 => profile.all_numbers = random.one_of(&NO_FLAGS),
        5 => profile.in_use = random.one_of(&NO_FLAGS),
        6 => profile.counted = random.one_of(&NO_FLAGS),
        7 => profile.notification = random.one_of(&[-1, 3, 255]),
        8 => profile.release_own_number = random.one_of(&NO_FLAGS),
        9 => profile.diversion_limit = random.one_of(&[-1, 0, 6, 255]),
        10 => profile.prefixes = vec![vec![b'1']; 17],
        _ => {
            let bad = random.one_of(&[&b""[..], b"1 2", b"x", b"123456789012345678901"]);
            profile.prefixes = vec![bad.to_vec()];
        }
    }
}

fn spoil_numbers(random: &mut Random, profile: &mut Profile) {
    match random.below(5) {
        0 => profile.numbers.clear(),
        1 => {
            let four = [0, 1, 2, 3].map(|digit| Number::public(0, &format!("99{digit}")));
            profile.numbers = [&four[..], &[Number::unknown("77")]].concat();
        }
        2 => {
            profile.msn = 0;
            profile.numbers = vec![Number::unknown("1"), Number::unknown("2")];
        }
        3 => {
            profile.msn = 1;
            profile.numbers = vec![Number::unknown("1"); 2];
        }
        _ => {
            if let Some(number) = profile.numbers.first_mut() {
                spoil_number(random, number);
            }
        }
    }
}

fn spoil_services(random: &mut Random, profile: &mut Profile) {
    match random.below(5) {
        0 => profile.services.clear(),
        1 => profile.services = vec![1, 2, 3, 4, 5, 32, 33],
        2 => profile.services = vec![2, 1],
        3 => profile.services = vec![3, 3],
        _ => profile.services = vec![random.one_of(&[0, 6, 31, 43, -1])],
    }
}

/// Breaks a table, good for this profile, with one instance or its last handled identifier.
pub fn spoil_table(random: &mut Random, profile: &Profile, table: &mut Table) {
    if random.once_in(5) {
        table.last = random.one_of(&[-1, 32_768, i32::MIN, i32::MAX]);
    } else {
        spoil_instances(random, profile, &mut table.instances);
    }
}

pub fn spoil_instances(random: &mut Random, profile: &Profile, instances: &mut Vec<Instance>) {
    let mut bad = match random.pick(instances) {
        Some(held) => held.clone(),
        None => Instance {
            procedure: 0,
            number: 0,
            service: profile.services.first().copied().unwrap_or(1),
            address: Address {
                number: Number::unknown("1"),
                subaddress: Subaddress::Absent,
            },
        },
    };
    let unsubscribed = (0..3).find(|procedure| !profile.subscribes(*procedure));
    match random.below(6) {
        0 => bad.procedure = random.one_of(&NO_PROCEDURES),
        1 => bad.number = random.one_of(&[-1, 4, 200, profile.numbers.len() as i32]),
        2 => bad.service = random.one_of(&[0, 6, 31, 43, -1, 200]),
        3 => spoil_address(random, &mut bad.address),
        4 => bad.procedure = unsubscribed.unwrap_or(3),
        // A8: a repeated instance, be it the same address.
        _ => instances.push(bad.clone()),
    }
    instances.push(bad);
}

pub fn spoil_call(random: &mut Random, profile: &Profile, call: &mut Call) {
    match random.below(8) {
        0 => call.number = random.one_of(&[-1, 4, 200, profile.numbers.len() as i32]),
        1 => call.service = random.one_of(&[0, 6, 31, 43, -1]),
        2 => call.event = random.one_of(&NO_PROCEDURES),
        3 => call.counter = random.one_of(&[-1, 6, 255]),
        4 => call.option = random.one_of(&[-1, 3, 255]),
        5 => call.original_allowed = random.one_of(&NO_FLAGS),
        6 => call.preference = random.one_of(&[-1, 3, 255]),
        _ => {
            let bad = random.one_of(&[&b"1 2"[..], b"x", b"123456789012345678901", b"1\x002"]);
            call.original = bad.to_vec();
        }
    }
}

/// Breaks what refusal 10 asks of a request.
pub fn spoil_request(random: &mut Random, request: &mut Request) {
    let part = random.below(4);
    match request {
        Request::Activation { address, .. } if part == 0 => {
            spoil_address(random, address);
        }
        Request::Activation {
            procedure,
            service,
            served,
            ..
        }
        | Request::Deactivation {
            procedure,
            service,
            served,
        }
        | Request::Interrogation {
            procedure,
            service,
            served,
        } => match part {
            0 | 1 => *procedure = random.one_of(&NO_PROCEDURES),
            2 => *service = random.one_of(&NO_SERVICES),
            _ => {
                let mut bad = Number::unknown("1");
                spoil_number(random, &mut bad);
                *served = Served::Individual(bad);
            }
        },
    }
}

/// Breaks an end's record, good for this profile.
pub fn spoil_end(random: &mut Random, profile: &Profile, end: &mut End) {
    match random.below(6) {
        0 => end.last_used = random.one_of(&[-1, 32_768, i32::MIN]),
        1 => end.marks[random.below(3)] = random.one_of(&NO_FLAGS),
        2 => spoil_instances(random, profile, &mut end.picture),
        _ => {
            let mut bad = Outstanding {
                request: Request::Deactivation {
                    procedure: 0,
                    service: 0,
                    served: Served::AllNumbers,
                },
                mark_before: 0,
            };
            spoil_outstanding(random, end, &mut bad);
            end.outstanding = Some(bad);
        }
    }
}

fn spoil_outstanding(random: &mut Random, end: &mut End, bad: &mut Outstanding) {
    match random.below(4) {
        0 => end.last_used = 0,
        1 => bad.mark_before = random.one_of(&NO_FLAGS),
        2 => {
            let (service, served) = random.one_of(&[(1, true), (0, false), (42, false)]);
            bad.request = Request::Interrogation {
                procedure: 1,
                service,
                served: if served {
                    Served::AllNumbers
                } else {
                    Served::Individual(Number::unknown("1"))
                },
            };
        }
        _ => spoil_request(random, &mut bad.request),
    }
}
