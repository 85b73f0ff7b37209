//! What replies, and everything that is none, do to the end's marks and picture.

mod common;

use common::waiting::{activating, deactivating, interrogating, taken, EMPTY_LIST, LIST};
use common::*;
use second::end::{self, End, Event, IN_DOUBT, KNOWN};
use second::profile::Profile;

#[test]
fn an_error_restores_the_mark_from_before() {
    // A57: any one readable value.
    for error in [
        "02 01 00",
        "02 01 2E",
        "02 02 01 2C",
        "02 01 FF",
        "02 81 01 03",
    ] {
        let reply = format!("A3 {:02X} 02 01 01 {error}", 3 + octets(error).len());
        for mark in [KNOWN, IN_DOUBT] {
            let (event, after, picture) = taken(interrogating(mark), &reply);
            assert_eq!((event, after, picture), (Event::Restored, mark, vec![]));
            let (event, after, picture) = taken(activating(mark), &reply);
            assert_eq!((event, after, picture), (Event::Restored, mark, vec![]));
            let (event, after, picture) = taken(deactivating(mark), &reply);
            assert_eq!((event, after, picture.len()), (Event::Restored, mark, 1));
        }
    }
}

#[test]
fn an_error_of_the_wrong_shape_gives_doubt() {
    for error in [
        "",
        "02 00",
        "02 02 00 01",
        "02 03 00 00 01",
        "06 01 01",
        "05 00",
        "02 01 00 05 00",
        "02 01 00 C0 00",
        "02 01 00 00",
        "02 02 00",
        "0A 01 00",
    ] {
        let reply = format!("A3 {:02X} 02 01 01 {error}", 3 + octets(error).len());
        for end in [interrogating(KNOWN), activating(KNOWN)] {
            let after = taken(end, &reply);
            assert_eq!(after, (Event::WrongShape, IN_DOUBT, vec![]), "{error}");
        }
    }
}

#[test]
fn a_reject_gives_doubt_whatever_its_shape() {
    for reply in [
        "A4 06 02 01 01 81 01 00",
        "A4 06 02 01 01 80 01 01",
        "A4 03 02 01 01",
        "A4 05 02 01 01 FF FF",
    ] {
        for end in [
            interrogating(KNOWN),
            activating(KNOWN),
            activating(IN_DOUBT),
        ] {
            assert_eq!(taken(end, reply), (Event::Rejected, IN_DOUBT, vec![]));
        }
        let (event, mark, picture) = taken(deactivating(KNOWN), reply);
        assert_eq!((event, mark, picture.len()), (Event::Rejected, IN_DOUBT, 1));
    }
}

#[test]
fn a_result_applies_the_request_with_the_mark_from_before() {
    for reply in ["A2 03 02 01 01", "A2 81 04 02 81 01 01"] {
        for mark in [KNOWN, IN_DOUBT] {
            let held = vec![instance(1, 0, 1, "24680")];
            assert_eq!(taken(activating(mark), reply), (Event::Applied, mark, held));
            assert_eq!(
                taken(deactivating(mark), reply),
                (Event::Applied, mark, vec![])
            );
        }
    }
}

#[test]
fn where_the_rules_give_an_error_on_the_picture_no_change_and_doubt() {
    let reply = "A2 03 02 01 01";
    let mut end = deactivating(KNOWN);
    end.picture.clear();
    assert_eq!(taken(end, reply), (Event::NotApplicable, IN_DOUBT, vec![]));
    // A62: every rule from "not in use" on.
    let mut end = activating(KNOWN);
    let mut profile = sample_profile();
    profile.in_use = 0;
    assert_eq!(comes(&profile, &mut end, reply), Event::NotApplicable);
    assert_eq!((end.marks[1], end.picture.len()), (IN_DOUBT, 0));
    let mut end = activating(KNOWN);
    profile.in_use = 1;
    profile.prefixes = vec![b"24".to_vec()];
    assert_eq!(comes(&profile, &mut end, reply), Event::NotApplicable);
}

#[test]
fn a_result_of_7_or_8_with_contents_is_the_wrong_shape() {
    for after in ["30 05 02 01 07 05 00", "05 00", "30 00", "C0 00", "00"] {
        let reply = format!("A2 {:02X} 02 01 01 {after}", 3 + octets(after).len());
        let wrong = (Event::WrongShape, IN_DOUBT, vec![]);
        assert_eq!(taken(activating(KNOWN), &reply), wrong);
        let (event, mark, picture) = taken(deactivating(KNOWN), &reply);
        assert_eq!(
            (event, mark, picture.len()),
            (Event::WrongShape, IN_DOUBT, 1)
        );
    }
    assert_eq!(taken(activating(KNOWN), EMPTY_LIST).0, Event::WrongShape);
}

#[test]
fn anything_else_is_dropped() {
    let profile = sample_profile();
    for component in [
        "",
        "00",
        "A1 03 02 01 01",
        "A0 03 02 01 01",
        "A5 03 02 01 01",
        "82 03 02 01 01",
        "A2 04 02 01 01",
        "A2 03 02 01 01 00",
        "A2 03 02 01 00",
        "A2 03 02 01 02",
        "A4 06 02 01 02 81 01 00",
        "A3 06 02 01 FF 02 01 00",
        // A55: not "for" the identifier.
        "A4 05 05 00 80 01 02",
        "A2 00",
        "A4 04 02 02 00 01",
        "A2 05 02 03 00 00 01",
        "A2 03 0A 01 01",
        "A2 03 22 01 01",
        "A2 80",
        "BF 03 02 01 01",
    ] {
        for before in [
            interrogating(KNOWN),
            activating(KNOWN),
            deactivating(IN_DOUBT),
        ] {
            let mut end = before.clone();
            assert_eq!(
                comes(&profile, &mut end, component),
                Event::Dropped,
                "{component}"
            );
            assert_eq!(end, before);
        }
    }
}

#[test]
fn a_late_reply_is_not_the_current_one() {
    let profile = sample_profile();
    let mut end = activating(KNOWN);
    assert_eq!(end::give_up(&profile, &mut end), Ok(true));
    let given_up = end.clone();
    assert_eq!(given_up.marks[1], IN_DOUBT);
    assert_eq!(comes(&profile, &mut end, "A2 03 02 01 01"), Event::Dropped);
    assert_eq!(end, given_up);
    interrogate(&profile, &mut end, 1);
    let waiting = end.clone();
    assert_eq!(comes(&profile, &mut end, "A2 03 02 01 01"), Event::Dropped);
    assert_eq!(comes(&profile, &mut end, LIST), Event::Dropped);
    assert_eq!(end, waiting);
    let current = LIST.replacen("02 01 01", "02 01 02", 1);
    assert_eq!(comes(&profile, &mut end, &current), Event::Listed);
    // The same reply again finds nothing outstanding.
    let closed = end.clone();
    assert_eq!(comes(&profile, &mut end, &current), Event::Dropped);
    assert_eq!(end, closed);
}

#[test]
fn an_over_long_arrival_is_refusal_2_and_the_request_stays() {
    let profile = sample_profile();
    let mut bad = sample_profile();
    bad.counted = 2;
    let mut end = interrogating(KNOWN);
    let before = end.clone();
    let mut long = octets("A4 82 03 FD 02 01 01");
    long.resize(1_025, 0);
    let refused = |component: &[u8], profile: &Profile, end: &mut End| {
        end::arrived(component, profile, end).map_err(|refusal| refusal.number())
    };
    assert_eq!(refused(&long, &bad, &mut end), Err(2));
    assert_eq!(refused(&long, &profile, &mut end), Err(2));
    assert_eq!(refused(&long[..1_024], &bad, &mut end), Err(3));
    assert_eq!(end, before);
    // 1,024 octets are looked at: this one isn't whole.
    assert_eq!(
        refused(&long[..1_024], &profile, &mut end),
        Ok(Event::Dropped)
    );
    long[3] = 0xFC;
    assert_eq!(
        refused(&long[..1_024], &profile, &mut end),
        Ok(Event::Rejected)
    );
}
