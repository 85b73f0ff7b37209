//! The customer end sends, gives up, and judges its own record.

mod common;

use common::waiting::{activating, deactivating, interrogating};
use common::*;
use second::end::{self, End, Event, Outstanding, IN_DOUBT, KNOWN};
use second::numbers::{Address, Number, Subaddress};
use second::profile::Profile;
use second::refusal::Refusal;
use second::request::{Request, Served};

fn number(result: Result<usize, Refusal>) -> u8 {
    result.err().map_or(0, |refusal| refusal.number())
}

#[test]
fn fresh_all_known_empty_and_identifiers_1_2_3() {
    let profile = sample_profile();
    let mut end = End::fresh();
    for procedure in 0..3 {
        assert_eq!(end::shown(&profile, &end, procedure), Ok(Some(vec![])));
    }
    for identifier in 1..=300_i32 {
        let sent = interrogate(&profile, &mut end, 1);
        let [.., high, low] = identifier.to_be_bytes();
        let written = if identifier < 128 {
            vec![0x02, 0x01, low]
        } else {
            vec![0x02, 0x02, high, low]
        };
        assert_eq!(sent[2..2 + written.len()], written);
        assert_eq!(end::give_up(&profile, &mut end), Ok(true));
    }
    assert_eq!(end::shown(&profile, &end, 1), Ok(None));
    assert_eq!(end::shown(&profile, &end, 0), Ok(Some(vec![])));
    let refused = end::shown(&profile, &end, 3).map_err(|refusal| refusal.number());
    assert_eq!(refused, Err(10));
}

#[test]
fn sending_writes_what_was_meant() {
    let profile = wide_profile();
    let mut end = End::fresh();
    end.last_used = 127;
    let mut output = [0xEE; 707];
    let address = Address {
        number: Number::public(1, "49"),
        subaddress: Subaddress::Octets(vec![0xAA]),
    };
    let served = Served::Individual(Number::public(2, "8"));
    let length = end::send_activation(&mut output, &profile, &mut end, (0, 42), address, served);
    let length = length.expect("sent");
    assert_eq!(
        hex(&output[..length]),
        "A1 25 02 02 00 80 02 01 07 30 1C 0A 01 00 0A 01 2A \
         30 0C A1 07 0A 01 01 12 02 34 39 04 01 AA A1 06 0A 01 02 12 01 38"
    );
    assert!(output[length..].iter().all(|octet| *octet == 0xEE));
    end.outstanding = None;
    let sent = deactivate(&profile, &mut end, (2, 0), Served::AllNumbers);
    assert_eq!(
        hex(&sent),
        "A1 11 02 02 00 81 02 01 08 30 08 0A 01 02 0A 01 00 05 00"
    );
}

#[test]
fn sending_is_refused_1_3_4_7_8_10_in_this_order() {
    let (good, mut bad) = (sample_profile(), sample_profile());
    bad.notification = 3;
    let mut end = interrogating(KNOWN);
    end.last_used = 32_767;
    let mut broken = end.clone();
    broken.marks[2] = 2;
    let send = |size: usize, profile: &Profile, end: &mut End, procedure| {
        let before = end.clone();
        let mut output = vec![0xEE; size];
        let refused = number(end::send_interrogation(
            &mut output,
            profile,
            end,
            procedure,
        ));
        if refused > 0 {
            assert_eq!(*end, before);
            assert!(output.iter().all(|octet| *octet == 0xEE));
        }
        refused
    };
    assert_eq!(send(706, &bad, &mut broken, 3), 1);
    assert_eq!(send(707, &bad, &mut broken, 3), 3);
    assert_eq!(send(707, &good, &mut broken, 3), 4);
    assert_eq!(send(707, &good, &mut end, 3), 7);
    end.outstanding = None;
    assert_eq!(send(707, &good, &mut end, 3), 8);
    end.last_used = 32_766;
    assert_eq!(send(707, &good, &mut end, 3), 10);
    assert_eq!(send(707, &good, &mut end, 2), 0);
    assert_eq!(end.last_used, 32_767);
    // A44: 7 while 32,767 is outstanding, 8 for ever after.
    assert_eq!(send(707, &good, &mut end, 0), 7);
    assert_eq!(comes(&good, &mut end, "A4 04 02 02 7F FF"), Event::Rejected);
    assert_eq!(send(707, &good, &mut end, 0), 8);
}

/// The refusals of an activation and a deactivation with these parts.
fn refused(what: (i32, i32), address: Address, served: Served) -> (u8, u8) {
    let profile = wide_profile();
    let mut output = [0; 707];
    let (mut first, mut second) = (End::fresh(), End::fresh());
    let also = served.clone();
    let activation = end::send_activation(&mut output, &profile, &mut first, what, address, served);
    let deactivation = end::send_deactivation(&mut output, &profile, &mut second, what, also);
    (number(activation), number(deactivation))
}

#[test]
fn refusal_10_looks_at_codes() {
    let one = || to(Number::unknown("1"));
    for code in [-1, 3, 200] {
        assert_eq!(refused((code, 1), one(), Served::AllNumbers), (10, 10));
    }
    for code in [-1, 6, 31, 43, 256] {
        assert_eq!(refused((1, code), one(), Served::AllNumbers), (10, 10));
    }
    for code in [0, 1, 5, 32, 41, 42] {
        assert_eq!(refused((1, code), one(), Served::AllNumbers), (0, 0));
    }
}

#[test]
fn refusal_10_looks_at_numbers_and_subaddresses() {
    let one = || Number::unknown("1");
    let all = || Served::AllNumbers;
    for bad in [
        Number::other_kind(),
        Number::unknown(""),
        Number::unknown("123456789012345678901"),
        Number::unknown("1 "),
        Number::public(5, "1"),
    ] {
        assert_eq!(refused((1, 1), to(bad.clone()), all()), (10, 0));
        let served = Served::Individual(bad);
        assert_eq!(refused((1, 1), to(one()), served), (10, 10));
    }
    for subaddress in [
        Subaddress::UserSpecified,
        Subaddress::Octets(vec![]),
        Subaddress::Octets(vec![0; 21]),
    ] {
        let address = Address {
            number: one(),
            subaddress,
        };
        assert_eq!(refused((1, 1), address, all()), (10, 0));
    }
    // What would earn errors 6, 8, 12 or 15 is still sent.
    let long = to(Number::public(1, "12345678901234567890"));
    let foreign = Served::Individual(Number::unknown("5"));
    assert_eq!(refused((1, 41), long, foreign), (0, 0));
    assert_eq!(refused((1, 1), to(Number::unknown("100")), all()), (0, 0));
}

#[test]
fn giving_up_closes_with_doubt_and_with_none_changes_nothing() {
    let profile = sample_profile();
    for mut end in [interrogating(KNOWN), activating(KNOWN), deactivating(KNOWN)] {
        let picture = end.picture.clone();
        assert_eq!(end::give_up(&profile, &mut end), Ok(true));
        assert_eq!(end.marks, [KNOWN, IN_DOUBT, KNOWN]);
        assert_eq!(
            (end.outstanding.clone(), end.picture.clone()),
            (None, picture)
        );
        let before = end.clone();
        assert_eq!(end::give_up(&profile, &mut end), Ok(false));
        assert_eq!(end, before);
    }
}

fn waiting(request: Request, mark_before: i32) -> End {
    let mut end = End::fresh();
    end.last_used = 1;
    end.outstanding = Some(Outstanding {
        request,
        mark_before,
    });
    end
}

fn interrogation(procedure: i32, service: i32, served: Served) -> Request {
    Request::Interrogation {
        procedure,
        service,
        served,
    }
}

fn deactivation(service: i32) -> Request {
    Request::Deactivation {
        procedure: 0,
        service,
        served: Served::Individual(Number::unknown("5")),
    }
}

/// A bad record is refusal 4 from every function of the end, and stays as it was.
fn refused_4(mut end: End) {
    let profile = sample_profile();
    let before = end.clone();
    let mut output = [0xEE; 707];
    let sent = end::send_interrogation(&mut output, &profile, &mut end, 9);
    assert_eq!(sent, Err(Refusal::BadRecord), "{before:?}");
    let gave_up = end::give_up(&profile, &mut end);
    assert_eq!(gave_up, Err(Refusal::BadRecord));
    let arrived = end::arrived(&[], &profile, &mut end);
    assert_eq!(arrived, Err(Refusal::BadRecord));
    let shown = end::shown(&profile, &end, 9);
    assert_eq!(shown, Err(Refusal::BadRecord));
    assert_eq!(end, before);
}

#[test]
fn what_refusal_4_judges_of_identifier_marks_and_picture() {
    for last_used in [-1, 32_768, i32::MAX] {
        let mut end = End::fresh();
        end.last_used = last_used;
        refused_4(end);
    }
    for mark in [-1, 2, 255] {
        let mut end = End::fresh();
        end.marks[2] = mark;
        refused_4(end);
    }
    let held = instance(1, 0, 1, "1");
    for picture in [
        vec![instance(0, 0, 1, "1")],
        vec![instance(1, 1, 1, "1")],
        vec![instance(1, 0, 2, "1")],
        vec![instance(1, 0, 1, "")],
        vec![held.clone(), held],
    ] {
        let mut end = End::fresh();
        end.picture = picture;
        refused_4(end);
    }
}

#[test]
fn what_refusal_4_judges_of_the_outstanding_request() {
    let all = || Served::AllNumbers;
    let mut unsent = waiting(interrogation(1, 0, all()), KNOWN);
    unsent.last_used = 0;
    refused_4(unsent);
    let own = Served::Individual(Number::unknown("13579"));
    refused_4(waiting(interrogation(1, 1, all()), KNOWN));
    refused_4(waiting(interrogation(1, 0, own), KNOWN));
    refused_4(waiting(interrogation(3, 0, all()), KNOWN));
    refused_4(waiting(interrogation(1, 0, all()), 2));
    refused_4(waiting(deactivation(6), IN_DOUBT));
    // A41: the mark of an outstanding 7 or 8 is not judged.
    for request in [
        deactivation(0),
        deactivation(42),
        interrogation(2, 0, all()),
    ] {
        let mut end = waiting(request, IN_DOUBT);
        let arrived = end::arrived(&[], &sample_profile(), &mut end);
        assert_eq!(arrived, Ok(Event::Dropped));
    }
}
