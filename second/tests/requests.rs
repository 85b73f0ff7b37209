//! Deactivation, interrogation, and the last handled identifier.

mod common;

use common::*;
use second::numbers::{Address, Number, Subaddress};
use second::request::{Request, Served};
use second::table::{Instance, Table};

fn served(number: &Number) -> Served {
    Served::Individual(number.clone())
}

#[test]
fn deactivation_removes_what_is_active_and_46_exactly_if_none() {
    let profile = wide_profile();
    let held = [
        instance(1, 0, 1, "1"),
        instance(1, 0, 42, "2"),
        instance(1, 2, 1, "3"),
        instance(0, 0, 1, "4"),
    ];
    let before = table(0, &held);
    let left = |service, served: Served| {
        let request = Request::Deactivation {
            procedure: 1,
            service,
            served,
        };
        let (next, reply) = ask(&profile, &before, &request.written(1));
        match reply[0] {
            0xA2 => Some(next.sorted().instances),
            _ => {
                assert_eq!(hex(&reply), "A3 06 02 01 01 02 01 2E");
                assert_eq!(next, before);
                None
            }
        }
    };
    let first = || served(&profile.numbers[0]);
    let kept = |kept: &[usize]| {
        let chosen: Vec<Instance> = kept.iter().map(|at| held[*at].clone()).collect();
        Some(table(0, &chosen).sorted().instances)
    };
    assert_eq!(left(0, Served::AllNumbers), kept(&[3]));
    assert_eq!(left(0, first()), kept(&[2, 3]));
    assert_eq!(left(1, Served::AllNumbers), kept(&[1, 3]));
    assert_eq!(left(42, first()), kept(&[0, 2, 3]));
    assert_eq!(left(2, Served::AllNumbers), None);
    assert_eq!(left(0, served(&profile.numbers[1])), None);
    // A30: an unsubscribed service selects nothing active.
    assert_eq!(left(41, Served::AllNumbers), None);
}

#[test]
fn interrogation_lists_by_profile_number_then_service_code() {
    let profile = wide_profile();
    let before = table(
        0,
        &[
            instance(2, 3, 1, "4"),
            instance(2, 0, 42, "2"),
            instance(1, 0, 1, "9"),
            instance(2, 0, 5, "1"),
            instance(2, 1, 2, "3"),
        ],
    );
    let ask_for = |service, served: Served| {
        let request = Request::Interrogation {
            procedure: 2,
            service,
            served,
        };
        let (next, reply) = ask(&profile, &before, &request.written(1));
        assert_eq!(next, before);
        hex(&reply)
    };
    assert_eq!(
        ask_for(0, Served::AllNumbers),
        "A2 5A 02 01 01 30 55 02 01 0B 31 50 \
         30 10 80 03 31 30 30 0A 01 05 0A 01 02 30 03 80 01 31 \
         30 10 80 03 31 30 30 0A 01 2A 0A 01 02 30 03 80 01 32 \
         30 15 A1 08 0A 01 00 12 03 31 30 30 0A 01 02 0A 01 02 30 03 80 01 33 \
         30 13 A1 06 0A 01 06 12 01 37 0A 01 01 0A 01 02 30 03 80 01 34"
    );
    assert_eq!(
        ask_for(42, served(&profile.numbers[0])),
        "A2 1C 02 01 01 30 17 02 01 0B 31 12 \
         30 10 80 03 31 30 30 0A 01 2A 0A 01 02 30 03 80 01 32"
    );
    let none = "A2 0A 02 01 01 30 05 02 01 0B 31 00";
    assert_eq!(ask_for(0, served(&profile.numbers[2])), none);
    assert_eq!(ask_for(41, Served::AllNumbers), none);
}

#[test]
fn results_and_errors_move_the_last_handled_identifier_on_a_counted_end_alone() {
    let mut profile = sample_profile();
    let component = octets(INTERROGATION_OF_CFB);
    let of_cfu = octets(&INTERROGATION_OF_CFB.replace("0A 01 01", "0A 01 00"));
    assert_eq!(ask(&profile, &Table::fresh(), &component).0.last, 1);
    assert_eq!(ask(&profile, &Table::fresh(), &of_cfu).0.last, 1);
    profile.counted = 0;
    assert_eq!(ask(&profile, &Table::fresh(), &component).0.last, 0);
    assert_eq!(ask(&profile, &Table::fresh(), &of_cfu).0.last, 0);
}

#[test]
fn the_longest_list_takes_707_octets() {
    let digits = "12345678901234567890";
    let mut profile = wide_profile();
    profile.numbers = vec![
        Number::public(6, digits),
        Number::public(4, digits),
        Number::public(3, digits),
        Number::public(2, digits),
    ];
    profile.services = vec![41, 42];
    let address = Address {
        number: Number::public(0, digits),
        subaddress: Subaddress::Octets(vec![9; 20]),
    };
    let all = Request::Activation {
        procedure: 2,
        service: 0,
        address,
        served: Served::AllNumbers,
    };
    let (next, _) = ask(&profile, &Table::fresh(), &all.written(1));
    let whole = Request::Interrogation {
        procedure: 2,
        service: 0,
        served: Served::AllNumbers,
    };
    assert_eq!(ask(&profile, &next, &whole.written(-32_768)).1.len(), 707);
}
