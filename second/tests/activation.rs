//! Activation: every error in its order, and what it does.

mod common;

use common::*;
use second::numbers::{Address, Number, Subaddress};
use second::profile::Profile;
use second::request::{Request, Served};
use second::table::{Instance, Table};

const SIXTEEN: &str = "1111222233334444";

/// The code of the error, which leaves every registration as it was, or `None` for a result.
fn earns(profile: &Profile, before: &Table, request: &Request) -> Option<u8> {
    let (next, reply) = ask(profile, before, &request.written(before.last + 1));
    match reply[0] {
        0xA3 => {
            assert_eq!(next.instances, before.instances);
            reply.last().copied()
        }
        0xA2 => None,
        other => panic!("neither result nor error: {other:02X}"),
    }
}

fn activation(procedure: i32, service: i32, address: Address, served: Served) -> Request {
    Request::Activation {
        procedure,
        service,
        address,
        served,
    }
}

fn served(number: &Number) -> Served {
    Served::Individual(number.clone())
}

fn eight(procedure: i32) -> Vec<Instance> {
    let services = [1, 2, 5, 32, 33, 42];
    (0..8)
        .map(|at| instance(procedure, at / 6, services[at as usize % 6], "24680"))
        .collect()
}

/// Every fault at once, then one mended after the other.
#[test]
fn every_error_of_an_activation_in_its_order() {
    let mut profile = wide_profile();
    profile.numbers[3] = Number::public(1, SIXTEEN);
    profile.prefixes = vec![b"1111".to_vec()];
    profile.in_use = 0;
    profile.subscribed = [1, 0, 1];
    let mut address = Address {
        number: Number::public(1, SIXTEEN),
        subaddress: Subaddress::UserSpecified,
    };
    let foreign = Served::Individual(Number::unknown("555"));
    let ask = |profile: &Profile, table: &Table, service, address: &Address, served: &Served| {
        let request = activation(1, service, address.clone(), served.clone());
        earns(profile, table, &request)
    };
    // No table may hold cfb while it isn't subscribed, so the first two rows see a fresh one.
    let (fresh, full) = (Table::fresh(), table(0, &eight(1)));
    assert_eq!(ask(&profile, &fresh, 41, &address, &foreign), Some(3));
    profile.in_use = 1;
    assert_eq!(ask(&profile, &fresh, 41, &address, &foreign), Some(0));
    profile.subscribed = [1, 1, 1];
    assert_eq!(ask(&profile, &full, 41, &address, &foreign), Some(6));
    let own = Served::Individual(Number::public(1, SIXTEEN));
    assert_eq!(ask(&profile, &full, 41, &address, &own), Some(8));
    assert_eq!(ask(&profile, &full, 42, &address, &own), Some(11));
    address.subaddress = Subaddress::Absent;
    assert_eq!(ask(&profile, &full, 42, &address, &own), Some(12));
    // The same digits as a type that may have sixteen.
    profile.numbers[3] = Number::public(2, SIXTEEN);
    address.number = Number::public(2, SIXTEEN);
    let own = Served::Individual(Number::public(2, SIXTEEN));
    assert_eq!(ask(&profile, &full, 42, &address, &own), Some(14));
    profile.prefixes = vec![b"1112".to_vec(), b"11112222333344445".to_vec()];
    assert_eq!(ask(&profile, &full, 42, &address, &own), Some(15));
    address.number = Number::unknown(SIXTEEN);
    assert_eq!(ask(&profile, &full, 42, &address, &own), Some(11));
    let seven = table(0, &eight(1)[1..]);
    assert_eq!(ask(&profile, &seven, 42, &address, &own), None);
}

#[test]
fn user_specified_subaddress_comes_before_another_kind() {
    let profile = wide_profile();
    let mut address = Address {
        number: Number::other_kind(),
        subaddress: Subaddress::UserSpecified,
    };
    let all = Served::AllNumbers;
    let request = activation(0, 1, address.clone(), all.clone());
    assert_eq!(earns(&profile, &Table::fresh(), &request), Some(11));
    for subaddress in [Subaddress::Absent, Subaddress::Octets(vec![1])] {
        address.subaddress = subaddress;
        let request = activation(0, 1, address.clone(), all.clone());
        assert_eq!(earns(&profile, &Table::fresh(), &request), Some(12));
    }
}

#[test]
fn public_type_1_ends_at_fifteen_digits() {
    let mut profile = wide_profile();
    profile.services = vec![1, 2];
    for (number, error) in [
        (Number::public(1, &SIXTEEN[..15]), None),
        (Number::public(1, SIXTEEN), Some(12)),
        (Number::public(1, "12345678901234567890"), Some(12)),
        (Number::public(0, SIXTEEN), None),
        (Number::public(6, "12345678901234567890"), None),
        (Number::unknown("12345678901234567890"), None),
    ] {
        let request = activation(0, 0, to(number), Served::AllNumbers);
        assert_eq!(earns(&profile, &Table::fresh(), &request), error);
    }
}

#[test]
fn a_prefix_is_of_digits_alone_and_may_be_the_whole_number() {
    let mut profile = sample_profile();
    profile.prefixes = vec![b"112".to_vec()];
    for (number, error) in [
        (Number::unknown("112"), Some(14)),
        (Number::public(4, "1120"), Some(14)),
        (Number::unknown("11"), None),
        (Number::unknown("0112"), None),
    ] {
        let request = activation(1, 1, to(number), Served::AllNumbers);
        assert_eq!(earns(&profile, &Table::fresh(), &request), error);
    }
}

#[test]
fn only_a_selected_served_number_is_error_15() {
    let profile = wide_profile();
    let [first, second, ..] = &profile.numbers[..] else {
        panic!("four numbers")
    };
    let fresh = Table::fresh();
    // A29: exact sameness; unknown 100 and public type 0 100 differ.
    let own = activation(0, 1, to(first.clone()), served(first));
    assert_eq!(earns(&profile, &fresh, &own), Some(15));
    let other = activation(0, 1, to(second.clone()), served(first));
    assert_eq!(earns(&profile, &fresh, &other), None);
    let all = activation(0, 1, to(second.clone()), Served::AllNumbers);
    assert_eq!(earns(&profile, &fresh, &all), Some(15));
    // Without MSN the profile's only number is selected, whatever is named.
    let named = Number::unknown("777");
    let own = activation(1, 1, to(Number::unknown("13579")), served(&named));
    assert_eq!(earns(&sample_profile(), &fresh, &own), Some(15));
    let named = activation(1, 1, to(named.clone()), served(&named));
    assert_eq!(earns(&sample_profile(), &fresh, &named), None);
}

#[test]
fn room_counts_replaced_instances_once_and_keeps_no_half() {
    let mut profile = wide_profile();
    profile.services = vec![1, 2];
    let number = to(Number::unknown("9"));
    let all = activation(1, 0, number.clone(), Served::AllNumbers);
    let (next, _) = ask(&profile, &Table::fresh(), &all.written(1));
    assert_eq!(next.instances.len(), 8);
    // Replacing all eight needs no room.
    let again = activation(1, 0, to(Number::unknown("8")), Served::AllNumbers);
    let (next, reply) = ask(&profile, &next, &again.written(1));
    assert_eq!(hex(&reply), "A2 03 02 01 01");
    assert!(next
        .instances
        .iter()
        .all(|held| held.address.number.digits == b"8"));
    // Nine are one too many; the table stays as it was.
    profile.services = vec![1, 2, 3];
    assert_eq!(earns(&profile, &Table::fresh(), &all), Some(11));
    let one = table(0, &[instance(1, 3, 3, "1")]);
    let all_of_speech = activation(1, 1, number.clone(), Served::AllNumbers);
    assert_eq!(earns(&profile, &one, &all_of_speech), None);
    // Other procedures take no room.
    let full = table(0, &next.instances);
    let of_cfu = activation(0, 1, number, Served::AllNumbers);
    assert_eq!(earns(&profile, &full, &of_cfu), None);
}

#[test]
fn activation_selects_numbers_and_services_and_replaces() {
    let profile = wide_profile();
    let before = table(
        7,
        &[
            instance(1, 1, 5, "1"),
            instance(1, 0, 1, "2"),
            instance(2, 1, 1, "3"),
        ],
    );
    let address = Address {
        number: Number::public(6, "42"),
        subaddress: Subaddress::Octets(vec![0, 255]),
    };
    let request = activation(1, 0, address.clone(), served(&Number::public(0, "100")));
    let (next, reply) = ask(&profile, &before, &request.written(-3));
    assert_eq!(hex(&reply), "A2 03 02 01 FD");
    let mut expected: Vec<Instance> = [1, 2, 5, 32, 33, 42]
        .map(|service| Instance {
            procedure: 1,
            number: 1,
            service,
            address: address.clone(),
        })
        .to_vec();
    expected.extend([instance(1, 0, 1, "2"), instance(2, 1, 1, "3")]);
    assert_eq!(next.sorted(), table(7, &expected).sorted());
}
