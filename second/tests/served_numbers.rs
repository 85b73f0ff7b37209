//! The rows every request shares: not in use, not subscribed, served number invalid.

mod common;

use common::*;
use second::numbers::Number;
use second::profile::Profile;
use second::request::{Request, Served};
use second::table::Table;

fn error(profile: &Profile, before: &Table, request: &Request) -> (Table, i32) {
    let identifier = before.last + 1;
    let (next, reply) = ask(profile, before, &request.written(identifier));
    let mut expected = before.clone();
    expected.last = if profile.counted == 1 {
        identifier
    } else {
        before.last
    };
    assert_eq!(next, expected, "an error alters no registration");
    assert_eq!(reply[..2], [0xA3, reply.len() as u8 - 2]);
    (next, i32::from(reply[reply.len() - 1]))
}

fn each_operation(procedure: i32, service: i32, served: &Served) -> [Request; 3] {
    [
        Request::Activation {
            procedure,
            service,
            address: to(Number::unknown("24680")),
            served: served.clone(),
        },
        Request::Deactivation {
            procedure,
            service,
            served: served.clone(),
        },
        Request::Interrogation {
            procedure,
            service,
            served: served.clone(),
        },
    ]
}

#[test]
fn not_in_use_is_error_3_before_all_others() {
    let mut profile = sample_profile();
    profile.in_use = 0;
    profile.msn = 1;
    for request in each_operation(0, 42, &Served::AllNumbers) {
        let (next, code) = error(&profile, &Table::fresh(), &request);
        assert_eq!(code, 3);
        assert_eq!(next.last, 1);
    }
}

#[test]
fn procedure_not_subscribed_is_error_0_before_the_served_number() {
    let mut profile = sample_profile();
    profile.msn = 1;
    for procedure in [0, 2] {
        for request in each_operation(procedure, 42, &Served::AllNumbers) {
            assert_eq!(error(&profile, &Table::fresh(), &request).1, 0);
        }
    }
}

#[test]
fn served_number_invalid_is_error_6_before_the_service() {
    let mut profile = wide_profile();
    profile.all_numbers = 0;
    for served in [
        Served::AllNumbers,
        Served::Individual(Number::unknown("101")),
        Served::Individual(Number::public(2, "100")),
        Served::Individual(Number::unknown("7")),
        // A74.
        Served::Individual(Number::other_kind()),
    ] {
        for request in each_operation(1, 41, &served) {
            assert_eq!(error(&profile, &Table::fresh(), &request).1, 6);
        }
    }
}

#[test]
fn without_msn_the_served_number_is_read_but_ignored() {
    let before = table(0, &[instance(1, 0, 1, "1")]);
    for served in [
        Served::AllNumbers,
        Served::Individual(Number::unknown("13579")),
        Served::Individual(Number::public(4, "2")),
        Served::Individual(Number::other_kind()),
    ] {
        let [activation, deactivation, interrogation] = each_operation(1, 0, &served);
        let profile = sample_profile();
        let (next, reply) = ask(&profile, &before, &activation.written(1));
        assert_eq!(hex(&reply), "A2 03 02 01 01");
        assert_eq!(next, table(1, &[instance(1, 0, 1, "24680")]));
        let (next, reply) = ask(&profile, &before, &deactivation.written(1));
        assert_eq!(hex(&reply), "A2 03 02 01 01");
        assert_eq!(next, table(1, &[]));
        // A33: the profile's own number, not "allNumbers".
        let (_, reply) = ask(&profile, &before, &interrogation.written(1));
        assert_eq!(
            hex(&reply),
            "A2 1E 02 01 01 30 19 02 01 0B 31 14 30 12 80 05 31 33 35 37 39 \
             0A 01 01 0A 01 01 30 03 80 01 31"
        );
    }
    // A23: but it must be readable.
    let bad = "A1 11 02 01 01 02 01 0B 30 09 0A 01 01 0A 01 00 80 01 20";
    assert_eq!(sample_reply(bad), "A4 06 02 01 01 81 01 02");
}
