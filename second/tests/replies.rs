//! The rows of the reply table that silence or reject, in the order checked.

mod common;

use common::*;

const GENERAL_2: &str = "A4 05 05 00 80 01 02";
const GENERAL_0: &str = "A4 05 05 00 80 01 00";
const GENERAL_1: &str = "A4 05 05 00 80 01 01";

/// An A1 around contents in hex.
fn invoke(contents: &str) -> String {
    format!("A1 {:02X} {contents}", octets(contents).len())
}

#[test]
fn not_one_element_filling_the_input() {
    for component in [
        "",
        "A1",
        "A1 80 00 00",
        "A1 83 00 00 00",
        "A1 84 00 00 00 00",
        "A1 FF",
        "A1 81",
        "A1 82 00",
        "A1 01",
        "A1 00 00",
        // A9: refused as an element, before its tag is asked.
        "1F 00",
        "3F 00",
        "5F 00",
        "BF 00",
        "FF 00",
        // A11: silence only for a whole element.
        "A2 05 02 01 01",
        "A3 00 00",
        "A4 80",
    ] {
        assert_eq!(sample_reply(component), GENERAL_2, "{component}");
    }
}

#[test]
fn outer_tag_a2_a3_a4_is_silence() {
    let before = table(5, &[instance(1, 0, 1, "24680")]);
    for component in [
        "A2 00",
        "A3 03 02 01 01",
        "A4 82 00 01 FF",
        "A2 81 02 1F 80",
    ] {
        let (next, reply) = ask(&sample_profile(), &before, &octets(component));
        assert!(reply.is_empty(), "{component}");
        assert_eq!(next, before);
    }
}

#[test]
fn another_outer_tag_but_a1() {
    for tag in [
        "A0", "A5", "81", "82", "83", "84", "30", "02", "E1", "21", "00", "BE",
    ] {
        assert_eq!(sample_reply(&format!("{tag} 00")), GENERAL_0, "{tag}");
    }
}

#[test]
fn identifier_unreadable() {
    for contents in [
        "",
        "05 00 02 01 07",
        "02 00 02 01 07",
        "02 03 00 00 01",
        "02 02 FF 80",
        "02 02 00 7F",
        "02 05 01",
        "02 80",
        "22 01 01 02 01 07",
        "0A 01 01 02 01 07",
        "80 01 01 02 01 07",
        "02 02 01",
    ] {
        assert_eq!(sample_reply(&invoke(contents)), GENERAL_1, "{contents}");
    }
}

#[test]
fn operation_unreadable_a_linked_identifier_too() {
    for after in [
        "",
        "80 01 01 02 01 07",
        "80 00",
        "06 01 07 30 00",
        "02 00",
        "02 03 00 00 07",
        "02 02 00 07",
        "02 02 FF FF",
        "02 05 07",
        "05 00",
        "1F 01 07",
        "22 01 07",
    ] {
        let component = invoke(&format!("02 01 05 {after}"));
        assert_eq!(
            sample_reply(&component),
            "A4 06 02 01 05 80 01 01",
            "{after}"
        );
    }
}

#[test]
fn the_rejected_identifier_is_written_in_shortest_form() {
    for (written, back) in [
        ("02 02 00 80", "A4 07 02 02 00 80 80 01 01"),
        ("02 02 80 00", "A4 07 02 02 80 00 80 01 01"),
        ("02 81 01 80", "A4 06 02 01 80 80 01 01"),
        ("02 82 00 02 7F FF", "A4 07 02 02 7F FF 80 01 01"),
    ] {
        assert_eq!(sample_reply(&invoke(written)), back);
    }
}

#[test]
fn counted_end_identifier_not_above_last_handled() {
    let last = table(5, &[]);
    // A28: rubbish after the operation, or an unknown one, doesn't matter.
    for (identifier, back) in [
        ("02 01 05", "02 01 05"),
        ("02 01 04", "02 01 04"),
        ("02 01 00", "02 01 00"),
        ("02 01 FF", "02 01 FF"),
    ] {
        for after in [
            "02 01 0B",
            "02 01 63",
            "02 01 07 FF FF FF",
            "02 02 01 2C 30 00",
        ] {
            let component = invoke(&format!("{identifier} {after}"));
            let reply = format!("A4 06 {back} 81 01 00");
            assert_eq!(reply_to(&sample_profile(), &last, &component), reply);
        }
    }
    // An unreadable operation comes first.
    assert_eq!(
        reply_to(
            &sample_profile(),
            &last,
            &invoke("02 01 05 80 01 01 02 01 0B")
        ),
        "A4 06 02 01 05 80 01 01"
    );
}

#[test]
fn an_uncounted_end_welcomes_every_identifier() {
    let mut profile = sample_profile();
    profile.counted = 0;
    let last = table(5, &[]);
    for identifier in ["02 01 05", "02 01 00", "02 01 FF", "02 02 80 00"] {
        let component = invoke(&format!(
            "{identifier} 02 01 0B 30 08 0A 01 01 0A 01 00 05 00"
        ));
        let (next, reply) = ask(&profile, &last, &octets(&component));
        let back = hex(&reply);
        assert!(
            back.starts_with("A2") && back.contains(identifier),
            "{back}"
        );
        assert_eq!(next, last);
    }
}

#[test]
fn operation_not_7_8_11() {
    for operation in [
        "02 01 00", "02 01 09", "02 01 0A", "02 01 0C", "02 01 11", "02 01 F9",
    ] {
        for after in ["", "30 00", "FF"] {
            let component = invoke(&format!("02 01 01 {operation} {after}"));
            assert_eq!(sample_reply(&component), "A4 06 02 01 01 81 01 01");
        }
    }
    // A14: 300 is readable.
    let component = invoke("02 01 01 02 02 01 2C");
    assert_eq!(sample_reply(&component), "A4 06 02 01 01 81 01 01");
}

#[test]
fn argument_not_one_last_element() {
    for operation in ["07", "08", "0B"] {
        for after in [
            "",
            "30",
            "30 00",
            "31 00",
            "05 00",
            "30 80",
            "30 01",
            "30 00 30 00",
        ] {
            let component = invoke(&format!("02 01 01 02 01 {operation} {after}"));
            let reply = sample_reply(&component);
            assert_eq!(reply, "A4 06 02 01 01 81 01 02", "{operation} {after}");
        }
    }
    let good = "02 01 01 02 01 0B 30 08 0A 01 01 0A 01 00 05 00";
    assert_eq!(sample_reply(&invoke(good))[..2], *"A2");
    // A15: a private-class element after the argument is no part of it.
    for extra in ["C0 00", "05 00", "00", "30 00"] {
        let component = invoke(&format!("{good} {extra}"));
        assert_eq!(sample_reply(&component), "A4 06 02 01 01 81 01 02");
    }
}
