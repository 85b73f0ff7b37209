//! Private-class elements after the last known element of an argument (open points A15 to A19).

mod common;

use common::argument::{interrogation, readable, reply};
use common::*;
use second::elements::element;

#[test]
fn private_class_elements_are_skipped_after_the_served_number_alone() {
    let good = "0A 01 01 0A 01 00 05 00";
    for private in [
        "C0 00",
        "DE 01 FF",
        "E0 00",
        "FE 02 05 00",
        "C0 00 E1 00 C1 02 1F 80",
    ] {
        assert!(interrogation(&format!("{good} {private}")), "{private}");
        assert!(readable(8, &format!("{good} {private}")), "{private}");
        assert!(readable(
            7,
            &format!("0A 01 01 0A 01 01 30 03 80 01 31 05 00 {private}")
        ));
        assert!(!interrogation(&format!("{private} {good}")), "{private}");
        assert!(
            !interrogation(&format!("0A 01 01 {private} 05 00")),
            "{private}"
        );
    }
    for other in [
        "05 00",
        "40 00",
        "80 00",
        "A1 00",
        "BE 00",
        "C0 00 05 00",
        "C0",
        "C0 01",
        "DF 00",
        "FF 00",
        "C0 80",
        "C0 83 00 00 00",
        "00",
    ] {
        assert!(!interrogation(&format!("{good} {other}")), "{other}");
    }
}

#[test]
fn a_constructed_private_element_holds_elements_of_any_class() {
    let good = "0A 01 01 0A 01 00 05 00";
    for inner in [
        "05 00",
        "30 02 04 00",
        "81 01 FF",
        "41 00 C0 00",
        "0A 03 00 00 00",
    ] {
        let private = hex(&element(0xE3, &octets(inner)));
        assert!(interrogation(&format!("{good} {private}")), "{inner}");
    }
    for inner in [
        "05",
        "05 01",
        "1F 00",
        "30 02 04 01",
        "04 80",
        "04 83 00 00 00",
        "3F 00",
    ] {
        let private = hex(&element(0xE3, &octets(inner)));
        assert!(!interrogation(&format!("{good} {private}")), "{inner}");
        // A primitive one's contents aren't read.
        let private = hex(&element(0xC3, &octets(inner)));
        assert!(interrogation(&format!("{good} {private}")), "{inner}");
    }
}

#[test]
fn elements_lie_at_most_eight_deep_the_outermost_skipped_one_is_depth_1() {
    let good = octets("0A 01 01 0A 01 00 05 00");
    for (innermost, deepest) in [(0xC0, 8), (0xE0, 8), (0x04, 8), (0x30, 8)] {
        for depth in 2..=20 {
            let mut nested = element(innermost, &[]);
            for _ in 2..depth {
                nested = element(0x30, &nested);
            }
            nested = element(0xE0, &nested);
            let argument = [&good[..], &nested].concat();
            let read = reply(11, &argument).starts_with("A2");
            assert_eq!(read, depth <= deepest, "{innermost:02X} at depth {depth}");
        }
    }
    // Many side by side at depth 8, and as deep as 1,024 octets allow.
    let mut wide = [0x05, 0x00].repeat(200);
    for _ in 2..=7 {
        wide = element(0x30, &wide);
    }
    let wide = [&good[..], &element(0xE0, &wide)].concat();
    assert!(reply(11, &wide).starts_with("A2"));
    let mut deep = vec![];
    while deep.len() < 980 {
        deep = element(0xE0, &deep);
    }
    assert!(reply(11, &[&good[..], &deep].concat()).starts_with("A4"));
}
