//! Calls: diverted, not diverted, refused (001, 2.5.2.5.1.2).

mod common;

use common::*;
use second::calls::{call, original, Call, CallOutcome, Diverted, Notice};
use second::made;
use second::numbers::{Address, Number, Subaddress};
use second::profile::Profile;
use second::random::Random;
use second::refusal::Refusal;
use second::spoiled;
use second::table::{Instance, Table};

fn offered() -> Call {
    Call {
        number: 2,
        service: 42,
        event: 0,
        counter: 0,
        option: 2,
        original: b"999".to_vec(),
        original_allowed: 1,
        preference: 1,
    }
}

fn forwarded_to() -> Address {
    Address {
        number: Number::public(6, "246"),
        subaddress: Subaddress::Octets(vec![1, 2]),
    }
}

fn held(procedure: i32) -> Instance {
    Instance {
        procedure,
        number: 2,
        service: 42,
        address: forwarded_to(),
    }
}

fn full() -> Table {
    table(3, &[held(0), held(1), held(2)])
}

fn outcome(profile: &Profile, table: &Table, lent: &Call) -> Result<Option<Diverted>, u8> {
    let stretch = original(profile, table, lent).to_vec();
    match call(profile, table, lent) {
        Ok(CallOutcome::Diverted(diverted)) => {
            assert_eq!(stretch, diverted.original);
            Ok(Some(*diverted))
        }
        Ok(CallOutcome::NotDiverted) => {
            assert!(stretch.is_empty());
            Ok(None)
        }
        Err(refusal) => {
            assert!(stretch.is_empty());
            Err(refusal.number())
        }
    }
}

fn diverted(profile: &Profile, lent: &Call) -> Diverted {
    outcome(profile, &full(), lent)
        .expect("good")
        .expect("diverted")
}

#[test]
fn the_first_diversion() {
    let expected = Diverted {
        counter: 1,
        reason: 1,
        called: forwarded_to(),
        redirecting: Number::public(1, "4912345"),
        redirecting_allowed: 1,
        original: b"4912345".to_vec(),
        original_allowed: 1,
        preference: 0,
        option: 2,
        notice: Notice::DivertingTo(Number::public(6, "246")),
    };
    assert_eq!(diverted(&wide_profile(), &offered()), expected);
}

#[test]
fn a_later_diversion() {
    let mut profile = wide_profile();
    profile.release_own_number = 0;
    let mut later = offered();
    later.counter = 2;
    later.event = 1;
    let expected = Diverted {
        counter: 3,
        reason: 2,
        called: forwarded_to(),
        redirecting: Number::public(1, "4912345"),
        redirecting_allowed: 0,
        original: b"999".to_vec(),
        original_allowed: 1,
        preference: 1,
        option: 2,
        notice: Notice::DivertingTo(Number::public(6, "246")),
    };
    assert_eq!(diverted(&profile, &later), expected);
    // A48: an absent original is handed on absent, its presentation as received.
    later.original.clear();
    later.original_allowed = 0;
    let absent = diverted(&profile, &later);
    assert!(absent.original.is_empty());
    assert_eq!(absent.original_allowed, 0);
}

#[test]
fn presentation_is_allowed_only_if_released() {
    for released in [0, 1] {
        let mut profile = wide_profile();
        profile.release_own_number = released;
        let first = diverted(&profile, &offered());
        assert_eq!(first.redirecting_allowed, released);
        assert_eq!(first.original_allowed, released);
    }
}

#[test]
fn preference_1_becomes_0_on_the_first_diversion_only() {
    for (counter, preference, expected) in [
        (0, 0, 0),
        (0, 1, 0),
        (0, 2, 2),
        (1, 0, 0),
        (1, 1, 1),
        (1, 2, 2),
        (4, 1, 1),
    ] {
        let mut lent = offered();
        lent.counter = counter;
        lent.preference = preference;
        assert_eq!(diverted(&wide_profile(), &lent).preference, expected);
    }
}

#[test]
fn the_option_and_the_notice_of_every_pair() {
    for received in 0..=2 {
        for own in 0..=2 {
            let mut profile = wide_profile();
            profile.notification = own;
            let mut lent = offered();
            lent.option = received;
            assert_eq!(diverted(&profile, &lent).option, own);
            lent.counter = 1;
            let later = diverted(&profile, &lent);
            let smaller = received.min(own);
            assert_eq!(later.option, smaller);
            let notice = match smaller {
                0 => Notice::None,
                1 => Notice::Diverting,
                _ => Notice::DivertingTo(Number::public(6, "246")),
            };
            assert_eq!(later.notice, notice);
        }
    }
}

#[test]
fn each_event_looks_at_its_procedure_number_and_service() {
    for event in 0..3 {
        for procedure in 0..3 {
            let mut lent = offered();
            lent.event = event;
            let one = table(0, &[held(procedure)]);
            let found = outcome(&wide_profile(), &one, &lent).expect("good");
            let reason = found.map(|diverted| diverted.reason);
            assert_eq!(reason, (event == procedure).then_some(event + 1));
        }
    }
    for (number, service) in [(1, 42), (2, 1), (2, 41), (2, 3)] {
        let mut lent = offered();
        (lent.number, lent.service) = (number, service);
        // A47: one of the sixteen but not subscribed has no instance.
        assert_eq!(outcome(&wide_profile(), &full(), &lent), Ok(None));
    }
}

#[test]
fn the_limit_blocks_only_a_call_that_has_an_instance() {
    for limit in 1..=5 {
        for counter in 0..=5 {
            let mut profile = wide_profile();
            profile.diversion_limit = limit;
            let mut lent = offered();
            lent.counter = counter;
            let result = outcome(&profile, &full(), &lent);
            if counter < limit {
                let diverted = result.expect("good").expect("diverted");
                assert_eq!(diverted.counter, counter + 1);
            } else {
                assert_eq!(result, Err(6));
            }
            assert_eq!(outcome(&profile, &Table::fresh(), &lent), Ok(None));
            profile.in_use = 0;
            assert_eq!(outcome(&profile, &full(), &lent), Ok(None));
        }
    }
}

#[test]
fn a_bad_call_record_is_refusal_5() {
    let refused = |change: &dyn Fn(&mut Call)| {
        let mut lent = offered();
        change(&mut lent);
        outcome(&wide_profile(), &full(), &lent).err().unwrap_or(0)
    };
    for nonsense in [-1, 6, 200, i32::MAX, i32::MIN] {
        assert_eq!(refused(&|call| call.number = nonsense), 5);
        assert_eq!(refused(&|call| call.service = nonsense), 5);
        assert_eq!(refused(&|call| call.event = nonsense), 5);
        assert_eq!(refused(&|call| call.counter = nonsense), 5);
        assert_eq!(refused(&|call| call.option = nonsense), 5);
        assert_eq!(refused(&|call| call.original_allowed = nonsense), 5);
        assert_eq!(refused(&|call| call.preference = nonsense), 5);
    }
    assert_eq!(refused(&|call| call.number = 4), 5);
    assert_eq!(refused(&|call| call.service = 0), 5);
    assert_eq!(refused(&|call| call.event = 3), 5);
    assert_eq!(refused(&|call| call.option = 3), 5);
    assert_eq!(refused(&|call| call.original_allowed = 2), 5);
    assert_eq!(refused(&|call| call.preference = 3), 5);
    assert_eq!(refused(&|call| call.original = vec![b'1'; 21]), 5);
    assert_eq!(refused(&|call| call.original = b"1 2".to_vec()), 5);
    assert_eq!(refused(&|call| call.original = vec![b'1'; 20]), 0);
    assert_eq!(refused(&|call| call.original.clear()), 0);
    // Checked even where the call would not be diverted at all.
    let mut lent = offered();
    lent.counter = 6;
    assert_eq!(outcome(&wide_profile(), &Table::fresh(), &lent), Err(5));
}

#[test]
fn lowest_number_first_and_6_last() {
    let mut bad = wide_profile();
    bad.diversion_limit = 0;
    let broken = table(-1, &full().instances);
    let mut wrong = offered();
    wrong.counter = 5;
    wrong.option = 3;
    assert_eq!(outcome(&bad, &broken, &wrong), Err(3));
    assert_eq!(outcome(&wide_profile(), &broken, &wrong), Err(4));
    assert_eq!(outcome(&wide_profile(), &full(), &wrong), Err(5));
    wrong.option = 2;
    assert_eq!(outcome(&wide_profile(), &full(), &wrong), Err(6));
}

#[test]
fn random_calls_keep_withheld_digits_withheld() {
    let mut random = Random::seeded(5);
    let mut withheld = 0;
    for _ in 0..20_000 {
        let profile = made::profile(&mut random);
        let mut one = made::table(&mut random, &profile);
        let lent = made::call(&mut random, &profile, &one);
        let mut other = one.clone();
        let key = lent.key();
        for (held, swapped) in one.instances.iter_mut().zip(&mut other.instances) {
            if held.key() == key {
                swapped.address.number.digits = made::digits(&mut random);
                swapped.address.subaddress = Subaddress::Octets(vec![1, 2, 3]);
            }
        }
        match (call(&profile, &one, &lent), call(&profile, &other, &lent)) {
            (Ok(CallOutcome::Diverted(one)), Ok(CallOutcome::Diverted(other))) => {
                if one.option < 2 {
                    withheld += 1;
                    assert_eq!(one.notice, other.notice);
                }
                assert_eq!((one.counter, one.reason), (other.counter, other.reason));
                assert_eq!(one.counter, lent.counter + 1);
            }
            (one, other) => assert_eq!(one, other),
        }
    }
    assert!(withheld > 1_000);
}

#[test]
fn random_spoiled_calls_are_refused() {
    let mut random = Random::seeded(6);
    for _ in 0..20_000 {
        let profile = made::profile(&mut random);
        let table = made::table(&mut random, &profile);
        let mut lent = made::call(&mut random, &profile, &table);
        spoiled::spoil_call(&mut random, &profile, &mut lent);
        assert_eq!(call(&profile, &table, &lent), Err(Refusal::BadCall));
    }
}
