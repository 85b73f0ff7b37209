//! The list of an interrogation's result as the end takes it.

mod common;

use common::waiting::{interrogating, taken, EMPTY_LIST, LIST};
use common::*;
use second::end::{self, End, Event, IN_DOUBT, KNOWN};
use second::table::Instance;

#[test]
fn a_good_list_replaces_the_picture_and_makes_it_known() {
    let held = vec![instance(1, 0, 1, "24680")];
    for mark in [KNOWN, IN_DOUBT] {
        let mut end = interrogating(mark);
        assert_eq!(
            taken(end.clone(), LIST),
            (Event::Listed, KNOWN, held.clone())
        );
        end.picture = vec![instance(1, 0, 1, "7")];
        assert_eq!(
            taken(end.clone(), LIST),
            (Event::Listed, KNOWN, held.clone())
        );
        assert_eq!(taken(end, EMPTY_LIST), (Event::Listed, KNOWN, vec![]));
    }
    // Needless lengths are fine.
    let long = "A2 81 26 02 01 01 30 81 20 02 81 01 0B 31 81 19 30 81 16 80 05 31 33 35 37 39 \
                0A 01 01 0A 01 01 30 07 80 05 32 34 36 38 30";
    assert_eq!(
        taken(interrogating(IN_DOUBT), long),
        (Event::Listed, KNOWN, held)
    );
}

/// A reply to identifier 1 whose set holds these entries, in hex.
fn list_of(entries: &[String]) -> String {
    use second::elements::element;
    let set = element(0x31, &octets(&entries.join(" ")));
    let inside = element(0x30, &[&[0x02, 0x01, 0x0B], &set[..]].concat());
    hex(&element(0xA2, &[&[0x02, 0x01, 0x01], &inside[..]].concat()))
}

fn entry(number: &str, service: &str, procedure: &str, address: &str) -> String {
    let contents = format!("{number} 0A 01 {service} 0A 01 {procedure} {address}");
    format!("30 {:02X} {contents}", octets(&contents).len())
}

const OWN: &str = "80 05 31 33 35 37 39";
const TO: &str = "30 03 80 01 31";

fn sample_list(entries: &[String]) -> (Event, i32, Vec<Instance>) {
    let mut end = interrogating(KNOWN);
    end.picture = vec![instance(1, 0, 1, "7")];
    taken(end, &list_of(entries))
}

#[test]
fn a_list_no_picture_may_take_gives_doubt_and_leaves_the_picture() {
    assert_eq!(sample_list(&[entry(OWN, "01", "01", TO)]).0, Event::Listed);
    for bad in [
        // A wrong procedure, a service or number not in the profile.
        entry(OWN, "01", "00", TO),
        entry(OWN, "01", "03", TO),
        entry(OWN, "02", "01", TO),
        entry(OWN, "00", "01", TO),
        entry("80 01 31", "01", "01", TO),
        entry("A1 0A 0A 01 00 12 05 31 33 35 37 39", "01", "01", TO),
        entry("05 00", "01", "01", TO),
        entry("82 05 31 33 35 37 39", "01", "01", TO),
        // An address no table holds.
        entry(OWN, "01", "01", "30 03 82 01 31"),
        entry(OWN, "01", "01", "30 03 80 01 20"),
        entry(OWN, "01", "01", "30 05 80 01 31 30 00"),
        entry(OWN, "01", "01", "30 05 80 01 31 04 00"),
        entry(OWN, "01", "01", "30 05 80 01 31 C0 00"),
        entry(OWN, "01", "01", "30 00"),
        // The wrong shape.
        entry(OWN, "01", "01", &format!("{TO} C0 00")),
        entry(OWN, "01", "01", ""),
        "30 00".to_string(),
        "C0 00".to_string(),
        "05 00".to_string(),
        entry(OWN, "01", "01", TO).replacen("30", "31", 1),
        // A repeated instance.
        format!("{0} {0}", entry(OWN, "01", "01", TO)),
    ] {
        let (event, mark, picture) = sample_list(std::slice::from_ref(&bad));
        assert_eq!((event, mark), (Event::WrongShape, IN_DOUBT), "{bad}");
        assert_eq!(picture, vec![instance(1, 0, 1, "7")]);
    }
}

#[test]
fn a_result_of_an_interrogation_of_another_shape_gives_doubt() {
    for after in [
        "",
        "05 00",
        "31 00",
        "30 00",
        "30 03 02 01 0B",
        "30 02 31 00",
        "30 05 02 01 07 31 00",
        "30 05 02 01 0C 31 00",
        "30 06 02 02 00 0B 31 00",
        "30 05 02 01 0B 30 00",
        "30 07 02 01 0B 31 00 C0 00",
        "30 05 02 01 0B 31 00 C0 00",
        "30 05 02 01 0B 31 00 05 00",
        "31 05 02 01 0B 31 00",
        "30 05 02 01 0B 31 01",
        "30 05 06 01 0B 31 00",
    ] {
        let reply = format!("A2 {:02X} 02 01 01 {after}", 3 + octets(after).len());
        let wrong = (Event::WrongShape, IN_DOUBT, vec![]);
        assert_eq!(taken(interrogating(KNOWN), &reply), wrong, "{after}");
    }
}

#[test]
fn up_to_eight_instances_in_any_order() {
    let mut profile = wide_profile();
    profile.services = vec![1, 2, 5, 32, 33, 42];
    let services = ["2A", "21", "20", "05", "02", "01"];
    let numbers = ["80 03 31 30 30", "A1 08 0A 01 00 12 03 31 30 30"];
    let entries: Vec<String> = (0..9)
        .map(|at| entry(numbers[at / 6], services[at % 6], "02", TO))
        .collect();
    let mut end = End::fresh();
    end.picture = vec![instance(0, 0, 1, "5"), instance(2, 3, 42, "6")];
    interrogate(&profile, &mut end, 2);
    let mut same = end.clone();
    assert_eq!(
        comes(&profile, &mut end, &list_of(&entries[..8])),
        Event::Listed
    );
    assert_eq!(end.picture.len(), 9);
    assert!(end.picture.contains(&instance(0, 0, 1, "5")));
    assert!(end.picture.contains(&instance(2, 1, 33, "1")));
    assert!(!end.picture.contains(&instance(2, 3, 42, "6")));
    assert_eq!(
        end::shown(&profile, &end, 2).map(|one| one.map(|all| all.len())),
        Ok(Some(8))
    );
    assert_eq!(
        comes(&profile, &mut same, &list_of(&entries)),
        Event::WrongShape
    );
    assert_eq!(same.marks, [KNOWN, KNOWN, IN_DOUBT]);
}

#[test]
fn a_list_for_an_unsubscribed_procedure() {
    let profile = sample_profile();
    let mut end = End::fresh();
    end.marks[0] = IN_DOUBT;
    interrogate(&profile, &mut end, 0);
    let mut other = end.clone();
    assert_eq!(comes(&profile, &mut end, EMPTY_LIST), Event::Listed);
    assert_eq!(end.marks[0], KNOWN);
    let filled = list_of(&[entry(OWN, "01", "00", TO)]);
    assert_eq!(comes(&profile, &mut other, &filled), Event::WrongShape);
    assert_eq!(other.marks[0], IN_DOUBT);
}
