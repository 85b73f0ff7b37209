//! The rules of profile and table (refusals 3 and 4), and the order of refusals 1 to 4.

mod common;

use common::*;
use second::exchange::arrive;
use second::numbers::{Address, Number, Subaddress};
use second::profile::Profile;
use second::table::{Instance, Table};

/// The refusal's number of a whole, harmless component, or 0.
fn refusal(profile: &Profile, table: &Table) -> u8 {
    refusal_of(707, &octets("A2 00"), profile, table)
}

fn refusal_of(output: usize, component: &[u8], profile: &Profile, table: &Table) -> u8 {
    let mut lent = vec![0xEE; output];
    match arrive(&mut lent, component, profile, table) {
        Ok(_) => 0,
        Err(refusal) => {
            assert!(lent.iter().all(|octet| *octet == 0xEE), "writes nothing");
            refusal.number()
        }
    }
}

fn changed(change: impl FnOnce(&mut Profile)) -> u8 {
    let mut profile = wide_profile();
    change(&mut profile);
    refusal(&profile, &Table::fresh())
}

#[test]
fn one_to_four_served_numbers_all_different() {
    assert_eq!(changed(|profile| profile.numbers.truncate(1)), 0);
    assert_eq!(changed(|_| ()), 0);
    assert_eq!(changed(|profile| profile.numbers.clear()), 3);
    assert_eq!(
        changed(|profile| profile.numbers.push(Number::unknown("9"))),
        3
    );
    assert_eq!(
        changed(|profile| profile.numbers[3] = Number::unknown("100")),
        3
    );
    assert_eq!(
        changed(|profile| profile.numbers[3] = Number::unknown("0100")),
        0
    );
}

#[test]
fn a_served_number_is_unknown_or_public_with_one_to_twenty_digits() {
    for (number, good) in [
        (Number::unknown("12345678901234567890"), true),
        (Number::unknown("123456789012345678901"), false),
        (Number::unknown("1234567890123456789012345"), false),
        (Number::unknown(""), false),
        (Number::unknown("1 2"), false),
        (Number::unknown("*21"), false),
        (Number::public(6, "1"), true),
        (Number::public(5, "1"), false),
        (Number::public(7, "1"), false),
        (Number::public(-1, "1"), false),
        (Number::public(256, "1"), false),
        (Number::public(1, "12345678901234567890"), true),
        (Number::other_kind(), false),
    ] {
        let refused = changed(|profile| profile.numbers[0] = number.clone());
        assert_eq!(refused, if good { 0 } else { 3 }, "{number:?}");
    }
    for (form, number_type) in [(0, 1), (0, 6), (2, 0), (-1, 0), (256, 0), (i32::MAX, 0)] {
        let refused = changed(|profile| {
            profile.numbers[0] = Number {
                form,
                number_type,
                digits: b"1".to_vec(),
            };
        });
        assert_eq!(refused, 3, "form {form} type {number_type}");
    }
}

#[test]
fn one_to_six_services_strictly_ascending_from_the_sixteen() {
    for (services, good) in [
        (vec![1], true),
        (vec![1, 2, 3, 4, 5, 32], true),
        (vec![37, 38, 39, 40, 41, 42], true),
        (vec![], false),
        (vec![1, 2, 3, 4, 5, 32, 33], false),
        (vec![2, 1], false),
        (vec![2, 2], false),
        (vec![0], false),
        (vec![0, 1], false),
        (vec![6], false),
        (vec![31], false),
        (vec![43], false),
        (vec![-1], false),
        (vec![257], false),
    ] {
        let refused = changed(|profile| profile.services = services.clone());
        assert_eq!(refused, if good { 0 } else { 3 }, "{services:?}");
    }
}

#[test]
fn yes_or_no_and_no_msn_needs_exactly_one_number() {
    for nonsense in [-1, 2, 255, i32::MIN] {
        for procedure in 0..3 {
            assert_eq!(
                changed(|profile| profile.subscribed[procedure] = nonsense),
                3
            );
        }
        assert_eq!(changed(|profile| profile.msn = nonsense), 3);
        assert_eq!(changed(|profile| profile.all_numbers = nonsense), 3);
        assert_eq!(changed(|profile| profile.in_use = nonsense), 3);
        assert_eq!(changed(|profile| profile.counted = nonsense), 3);
        assert_eq!(changed(|profile| profile.release_own_number = nonsense), 3);
    }
    assert_eq!(changed(|profile| profile.msn = 0), 3);
    // A2: one number with or without MSN, the option without MSN, nothing subscribed.
    for msn in [0, 1] {
        for option in [0, 1] {
            let refused = changed(|profile| {
                profile.numbers.truncate(1);
                profile.msn = msn;
                profile.all_numbers = option;
                profile.subscribed = [0; 3];
            });
            assert_eq!(refused, 0);
        }
    }
}

#[test]
fn option_0_to_2_and_limit_1_to_5() {
    for value in -2..8 {
        let option = changed(|profile| profile.notification = value);
        assert_eq!(option, if (0..=2).contains(&value) { 0 } else { 3 });
        let limit = changed(|profile| profile.diversion_limit = value);
        assert_eq!(limit, if (1..=5).contains(&value) { 0 } else { 3 });
    }
}

#[test]
fn up_to_sixteen_prefixes_of_one_to_twenty_digits() {
    let one = b"112".to_vec();
    assert_eq!(
        changed(|profile| profile.prefixes = vec![one.clone(); 16]),
        0
    );
    assert_eq!(
        changed(|profile| profile.prefixes = vec![one.clone(); 17]),
        3
    );
    assert_eq!(
        changed(|profile| profile.prefixes = vec![vec![b'9'; 20]]),
        0
    );
    assert_eq!(
        changed(|profile| profile.prefixes = vec![vec![b'9'; 21]]),
        3
    );
    assert_eq!(changed(|profile| profile.prefixes = vec![vec![]]), 3);
    assert_eq!(
        changed(|profile| profile.prefixes = vec![b"1#".to_vec()]),
        3
    );
}

fn with(instances: &[Instance]) -> u8 {
    refusal(&wide_profile(), &table(0, instances))
}

#[test]
fn the_last_handled_identifier_is_0_to_32767_counted_or_not() {
    for counted in [0, 1] {
        let mut profile = wide_profile();
        profile.counted = counted;
        for (last, refused) in [(0, 0), (32_767, 0), (-1, 4), (32_768, 4), (i32::MIN, 4)] {
            assert_eq!(refusal(&profile, &table(last, &[])), refused);
        }
    }
}

#[test]
fn instances_are_of_subscribed_procedures_and_services_and_profile_numbers() {
    assert_eq!(with(&[instance(2, 3, 42, "1")]), 0);
    assert_eq!(with(&[instance(3, 3, 42, "1")]), 4);
    assert_eq!(with(&[instance(-1, 3, 42, "1")]), 4);
    assert_eq!(with(&[instance(2, 4, 42, "1")]), 4);
    assert_eq!(with(&[instance(2, 200, 42, "1")]), 4);
    assert_eq!(with(&[instance(2, -1, 42, "1")]), 4);
    assert_eq!(with(&[instance(2, 3, 41, "1")]), 4);
    assert_eq!(with(&[instance(2, 3, 0, "1")]), 4);
    let mut profile = wide_profile();
    profile.subscribed = [1, 1, 0];
    assert_eq!(refusal(&profile, &table(0, &[instance(2, 3, 42, "1")])), 4);
    profile.numbers.truncate(3);
    assert_eq!(refusal(&profile, &table(0, &[instance(1, 3, 42, "1")])), 4);
    // While the access is not in use its table may still hold instances.
    profile.in_use = 0;
    assert_eq!(refusal(&profile, &table(0, &[instance(1, 2, 42, "1")])), 0);
}

#[test]
fn at_most_one_for_each_key_and_eight_for_each_procedure() {
    let held = instance(2, 3, 42, "1");
    assert_eq!(with(&[held.clone(), held.clone()]), 4);
    assert_eq!(with(&[held.clone(), instance(2, 3, 42, "2")]), 4);
    let services = wide_profile().services;
    let mut many: Vec<Instance> = Vec::new();
    for procedure in 0..3 {
        let some = (0..8).map(|at| instance(procedure, at % 4, services[at as usize / 4], "1"));
        many.extend(some);
    }
    // A8: order is free.
    many.reverse();
    assert_eq!(with(&many), 0);
    many.push(instance(1, 0, services[5], "1"));
    assert_eq!(with(&many), 4);
}

#[test]
fn addresses_obey_the_rules_for_numbers() {
    let held = |number: Number, subaddress| Instance {
        procedure: 0,
        number: 0,
        service: 1,
        address: Address { number, subaddress },
    };
    let absent = || Subaddress::Absent;
    let some = |length| Subaddress::Octets(vec![0; length]);
    let one = || Number::unknown("1");
    for (instance, good) in [
        (held(one(), some(1)), true),
        (held(one(), some(20)), true),
        (held(one(), some(0)), false),
        (held(one(), some(21)), false),
        (held(one(), Subaddress::UserSpecified), false),
        (held(Number::other_kind(), absent()), false),
        (held(Number::public(5, "1"), absent()), false),
        (
            held(Number::unknown("1234567890123456789012345"), absent()),
            false,
        ),
        // A6: errors 12, 14 and 15 are judged at activation alone.
        (
            held(Number::public(1, "12345678901234567890"), absent()),
            true,
        ),
        (held(Number::unknown("112"), absent()), true),
        (held(Number::unknown("100"), absent()), true),
    ] {
        let mut profile = wide_profile();
        profile.prefixes = vec![b"11".to_vec()];
        let refused = refusal(&profile, &table(0, std::slice::from_ref(&instance)));
        assert_eq!(refused, if good { 0 } else { 4 }, "{instance:?}");
    }
}

#[test]
fn lowest_number_first() {
    let (good, mut bad) = (sample_profile(), sample_profile());
    bad.msn = 2;
    let (fresh, broken) = (Table::fresh(), table(-1, &[]));
    let (whole, long) = (octets("A2 00"), vec![0; 1_025]);
    assert_eq!(refusal_of(706, &long, &bad, &broken), 1);
    assert_eq!(refusal_of(706, &whole, &good, &fresh), 1);
    assert_eq!(refusal_of(0, &whole, &good, &fresh), 1);
    assert_eq!(refusal_of(707, &long, &bad, &broken), 2);
    assert_eq!(refusal_of(707, &long, &good, &fresh), 2);
    assert_eq!(refusal_of(707, &long[..1_024], &good, &fresh), 0);
    assert_eq!(refusal_of(707, &whole, &bad, &broken), 3);
    assert_eq!(refusal_of(707, &whole, &good, &broken), 4);
    assert_eq!(refusal_of(5_000, &whole, &good, &fresh), 0);
}
