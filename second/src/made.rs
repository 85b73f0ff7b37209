//! Good records made at random: profiles, tables, requests, calls. Small alphabets and short
//! numbers, so that sameness, prefixes and full tables come about often.

use crate::calls::Call;
use crate::codes::{ALL_SERVICES, PROCEDURES, PUBLIC_TYPES, SERVICES};
use crate::numbers::{Address, Number, Subaddress};
use crate::profile::Profile;
use crate::random::Random;
use crate::request::{Request, Served};
use crate::table::{count, Instance, Table, MOST_INSTANCES};

pub fn digits(random: &mut Random) -> Vec<u8> {
    let most = random.one_of(&[1, 2, 3, 6, 15, 16, 20]);
    let length = random.below(most) + 1;
    let symbols = random.one_of(&[2, 3, 10]);
    (0..length)
        .map(|_| b'0' + random.below(symbols) as u8)
        .collect()
}

pub fn number(random: &mut Random) -> Number {
    let digits = digits(random);
    if random.once_in(2) {
        Number {
            form: 0,
            number_type: 0,
            digits,
        }
    } else {
        let type_one = random.once_in(3);
        Number {
            form: 1,
            number_type: if type_one {
                1
            } else {
                random.one_of(&PUBLIC_TYPES)
            },
            digits,
        }
    }
}

fn subaddress(random: &mut Random) -> Subaddress {
    if !random.once_in(3) {
        return Subaddress::Absent;
    }
    let length = random.below(20) + 1;
    Subaddress::Octets((0..length).map(|_| random.octet()).collect())
}

/// An address any table may hold.
pub fn address(random: &mut Random) -> Address {
    Address {
        number: number(random),
        subaddress: subaddress(random),
    }
}

pub fn profile(random: &mut Random) -> Profile {
    let msn = random.mostly(3);
    let count = if msn == 1 { random.below(4) + 1 } else { 1 };
    let prefixes = random.one_of(&[0, 0, 1, 3, 16]);
    Profile {
        numbers: different_numbers(random, count),
        services: services(random),
        subscribed: [random.mostly(8), random.mostly(8), random.mostly(8)],
        msn,
        all_numbers: random.mostly(4),
        in_use: random.mostly(10),
        counted: random.mostly(3),
        notification: random.between(0, 2),
        release_own_number: random.flag(),
        diversion_limit: random.between(1, 5),
        prefixes: (0..random.below(prefixes + 1))
            .map(|_| digits(random))
            .collect(),
    }
}

/// One with more pairs of number and service than a procedure may have instances.
pub fn roomy_profile(random: &mut Random) -> Profile {
    let mut roomy = profile(random);
    while roomy.numbers.len() * roomy.services.len() <= MOST_INSTANCES {
        roomy = profile(random);
    }
    roomy
}

fn different_numbers(random: &mut Random, count: usize) -> Vec<Number> {
    let mut numbers: Vec<Number> = Vec::new();
    while numbers.len() < count {
        let one = number(random);
        if !numbers.contains(&one) {
            numbers.push(one);
        }
    }
    numbers
}

fn services(random: &mut Random) -> Vec<i32> {
    let count = random.below(6) + 1;
    let mut services: Vec<i32> = Vec::new();
    while services.len() < count {
        let one = random.one_of(&SERVICES);
        if !services.contains(&one) {
            services.push(one);
        }
    }
    services.sort_unstable();
    services
}

/// A good table for this profile, in no particular order (A8).
pub fn table(random: &mut Random, profile: &Profile) -> Table {
    Table {
        last: random.one_of(&[0, 1, 2, 127, 128, 300, 32_766, 32_767]),
        instances: instances(random, profile),
    }
}

pub fn instances(random: &mut Random, profile: &Profile) -> Vec<Instance> {
    let mut instances: Vec<Instance> = Vec::new();
    for _ in 0..random.one_of(&[0, 2, 8, 30, 60]) {
        let one = Instance {
            procedure: random.one_of(&PROCEDURES),
            number: random.below(profile.numbers.len()) as i32,
            service: profile_service(random, profile),
            address: forwarded_to(random, profile),
        };
        let free = instances.iter().all(|held| held.key() != one.key());
        let room = count(&instances, one.procedure) < MOST_INSTANCES;
        if profile.subscribes(one.procedure) && free && room {
            instances.push(one);
        }
    }
    instances
}

fn profile_service(random: &mut Random, profile: &Profile) -> i32 {
    random.pick(&profile.services).copied().unwrap_or(1)
}

/// A good address, at times one of the profile's numbers or one that begins with a prefix (A6).
pub fn forwarded_to(random: &mut Random, profile: &Profile) -> Address {
    let mut address = address(random);
    match random.below(8) {
        0 => {
            if let Some(number) = random.pick(&profile.numbers) {
                address.number = number.clone();
            }
        }
        1 => {
            if let Some(prefix) = random.pick(&profile.prefixes) {
                address.number.digits = prefix.clone();
                if prefix.len() < 20 && random.once_in(2) {
                    address.number.digits.push(b'7');
                }
            }
        }
        _ => {}
    }
    address
}

/// All, one of the profile's, or any of the sixteen.
pub fn asked_service(random: &mut Random, profile: &Profile) -> i32 {
    match random.below(8) {
        0 => random.one_of(&SERVICES),
        1..=3 => ALL_SERVICES,
        _ => profile_service(random, profile),
    }
}

/// All, one of the profile's, or any number.
pub fn asked_number(random: &mut Random, profile: &Profile) -> Served {
    match random.below(8) {
        0 => Served::Individual(number(random)),
        1..=3 => Served::AllNumbers,
        _ => match random.pick(&profile.numbers) {
            Some(number) => Served::Individual(number.clone()),
            None => Served::AllNumbers,
        },
    }
}

/// A request that may be sent, though it may earn an error.
pub fn request(random: &mut Random, profile: &Profile) -> Request {
    let procedure = random.one_of(&PROCEDURES);
    let service = asked_service(random, profile);
    let served = asked_number(random, profile);
    let choice = random.below(4);
    no_activation(choice, procedure, service, &served).unwrap_or_else(|| Request::Activation {
        procedure,
        service,
        address: forwarded_to(random, profile),
        served,
    })
}

/// A deactivation by choice 0, an interrogation by choice 1; any other leaves an activation.
pub fn no_activation(
    choice: usize,
    procedure: i32,
    service: i32,
    served: &Served,
) -> Option<Request> {
    let served = served.clone();
    match choice {
        0 => Some(Request::Deactivation {
            procedure,
            service,
            served,
        }),
        1 => Some(Request::Interrogation {
            procedure,
            service,
            served,
        }),
        _ => None,
    }
}

/// A good call, most often one that some instance applies to.
pub fn call(random: &mut Random, profile: &Profile, table: &Table) -> Call {
    let mut call = Call {
        number: random.below(profile.numbers.len()) as i32,
        service: random.one_of(&SERVICES),
        event: random.between(0, 2),
        counter: random.between(0, 5),
        option: random.between(0, 2),
        original: Vec::new(),
        original_allowed: random.flag(),
        preference: random.between(0, 2),
    };
    if random.once_in(2) {
        call.original = digits(random);
    }
    if let Some(instance) = random.pick(&table.instances) {
        if !random.once_in(4) {
            (call.event, call.number, call.service) = instance.key();
        }
    }
    call
}
