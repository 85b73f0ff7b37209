//! The corners of reading a component (open points A9 to A26).

mod common;

use common::argument::{address, interrogation, profile, readable, served};
use common::*;
use second::elements::{element, integer, integer_value, length_octets, whole, Reader};
use second::table::Table;

#[test]
fn identifiers_of_every_value_read_back_and_no_octets_read_as_two() {
    let mut seen = vec![false; 65_536];
    let mut note = |contents: &[u8]| {
        if let Some(value) = integer_value(contents) {
            let place = usize::try_from(value + 32_768).expect("in range");
            assert!(!seen[place], "{value} has two forms");
            seen[place] = true;
            assert_eq!(integer(value), element(0x02, contents));
        }
    };
    for first in 0..=255 {
        note(&[first]);
        for second in 0..=255 {
            note(&[first, second]);
        }
    }
    assert!(seen.into_iter().all(|value| value));
    assert_eq!(integer_value(&[]), None);
    assert_eq!(integer_value(&[1, 0, 0]), None);
}

#[test]
fn every_length_is_written_shortest_and_reads_back() {
    for length in 0..=1_500_usize {
        let contents = vec![7; length];
        let written = element(0xC1, &contents);
        let head = match length {
            0..=127 => 2,
            128..=255 => 3,
            _ => 4,
        };
        assert_eq!(written.len(), head + length);
        assert_eq!(whole(&written).map(|one| one.contents.len()), Some(length));
        let needless = [
            &[0xC1, 0x82, (length >> 8) as u8, length as u8],
            &contents[..],
        ]
        .concat();
        assert!(whole(&needless).is_some());
    }
    assert_eq!(hex(&length_octets(65_535)), "82 FF FF");
    assert_eq!(hex(&length_octets(65_536)), "83 01 00 00");
}

#[test]
fn needless_lengths_are_fine_everywhere() {
    let long = "A1 82 00 1E 02 81 01 01 02 82 00 01 0B \
                30 81 12 0A 81 01 01 0A 82 00 01 00 80 82 00 05 31 33 35 37 39";
    let (_, reply) = ask(&profile(), &Table::fresh(), &octets(long));
    assert_eq!(hex(&reply), "A2 0A 02 01 01 30 05 02 01 0B 31 00");
}

#[test]
fn the_interrogation_may_omit_its_service_and_the_others_not() {
    assert!(interrogation("0A 01 01 0A 01 00 05 00"));
    assert!(interrogation("0A 01 01 05 00"));
    assert!(interrogation("0A 01 01 80 01 31"));
    assert!(!interrogation("0A 01 01"));
    assert!(!interrogation("0A 01 01 0A 01 00"));
    assert!(!interrogation("05 00"));
    assert!(readable(8, "0A 01 01 0A 01 00 05 00"));
    assert!(!readable(8, "0A 01 01 05 00"));
    assert!(!readable(7, "0A 01 01 30 03 80 01 31 05 00"));
    assert!(readable(7, "0A 01 01 0A 01 00 30 03 80 01 31 05 00"));
    assert!(!readable(7, "0A 01 01 0A 01 00 05 00"));
    assert!(!readable(8, "0A 01 01 0A 01 00 30 03 80 01 31 05 00"));
}

#[test]
fn codes_outside_are_no_values_of_the_type() {
    let services = [0, 1, 2, 3, 4, 5, 32, 33, 34, 35, 36, 37, 38, 39, 40, 41, 42];
    for code in 0..=255_u8 {
        let as_service = format!("0A 01 01 0A 01 {code:02X} 05 00");
        assert_eq!(
            interrogation(&as_service),
            services.contains(&code),
            "{code}"
        );
        let as_procedure = format!("0A 01 {code:02X} 0A 01 00 05 00");
        assert_eq!(interrogation(&as_procedure), code <= 2, "{code}");
        let as_type = format!("A1 06 0A 01 {code:02X} 12 01 31");
        let listed = [0, 1, 2, 3, 4, 6].contains(&code);
        assert_eq!(served(&as_type), listed, "{code}");
        assert_eq!(address(&as_type), listed, "{code}");
    }
    assert!(!interrogation("0A 02 00 01 05 00"));
    assert!(!interrogation("0A 00 05 00"));
    assert!(!interrogation("2A 01 01 05 00"));
}

#[test]
fn digits_are_one_to_twenty_and_only_digits() {
    for octet in 0..=255_u8 {
        let digit = octet.is_ascii_digit();
        assert_eq!(served(&format!("80 02 31 {octet:02X}")), digit);
        assert_eq!(
            address(&format!("A1 07 0A 01 00 12 02 {octet:02X} 31")),
            digit
        );
    }
    for length in 0..=25 {
        let digits = element(0x80, &vec![b'1'; length]);
        assert_eq!(served(&hex(&digits)), (1..=20).contains(&length));
        let string = element(0x12, &vec![b'1'; length]);
        let public = element(0xA1, &[&[0x0A, 1, 2], &string[..]].concat());
        assert_eq!(address(&hex(&public)), (1..=20).contains(&length));
    }
}

#[test]
fn a_public_number_is_a_type_and_a_numeric_string_and_nothing_more() {
    assert!(served("A1 06 0A 01 00 12 01 31"));
    for shape in [
        "A1 00",
        "A1 03 0A 01 00",
        "A1 03 12 01 31",
        "A1 06 12 01 31 0A 01 00",
        "A1 08 0A 01 00 12 01 31 05 00",
        "A1 08 0A 01 00 12 01 31 C0 00",
        "A1 06 0A 01 00 13 01 31",
        "A1 06 0A 01 00 32 01 31",
        "A1 07 0A 02 00 00 12 01 31",
        "A1 06 0A 01 00 12 02 31",
        "A1 06 02 01 00 12 01 31",
    ] {
        assert!(!served(shape), "{shape}");
        assert!(!address(shape), "{shape}");
    }
}

#[test]
fn other_kinds_are_whole_and_their_contents_not_read() {
    for tag in 0..=255_u8 {
        let other = [0x82, 0x83, 0x84, 0xA5, 0x88].contains(&tag);
        for contents in [&[][..], &[0xFF; 100]] {
            let number = hex(&element(tag, contents));
            // Tag 05, empty, is "allNumbers".
            let all_numbers = tag == 0x05 && contents.is_empty();
            assert_eq!(served(&number), other || all_numbers, "{number}");
            assert_eq!(address(&number), other, "{number}");
        }
    }
    assert!(!served("82 05 31"));
    assert!(!served("88 80"));
}

#[test]
fn all_numbers_is_an_empty_null() {
    assert!(served("05 81 00"));
    assert!(served("05 82 00 00"));
    assert!(!served("05 01 00"));
    assert!(!served("25 00"));
    assert!(!served("05 80"));
}

#[test]
fn a_subaddress_is_one_to_twenty_octets_or_user_specified() {
    for length in 0..=25 {
        for number in ["80 01 31", "84 00"] {
            let octets = hex(&element(0x04, &vec![0xFF; length]));
            assert_eq!(
                address(&format!("{number} {octets}")),
                (1..=20).contains(&length)
            );
        }
    }
    assert!(address("80 01 31 30 00"));
    assert!(address("80 01 31 30 03 FF FF FF"));
    for bad in [
        "24 03 04 01 01",
        "31 00",
        "05 00",
        "C0 00",
        "04 05 01",
        "30 80",
    ] {
        assert!(!address(&format!("80 01 31 {bad}")), "{bad}");
    }
    for after in ["04 01 01", "30 00", "C0 00", "00"] {
        assert!(!address(&format!("80 01 31 04 01 01 {after}")), "{after}");
        assert!(!address(&format!("80 01 31 30 00 {after}")), "{after}");
    }
    assert!(!address(""));
    assert!(!address("05 00"));
    assert!(!address("04 01 01"));
    assert!(!readable(7, "0A 01 01 0A 01 01 31 03 80 01 31 05 00"));
}

#[test]
fn a_reader_never_reads_past_its_octets() {
    let component = octets("30 03 02 01 05");
    for cut in 0..component.len() {
        let mut reader = Reader::over(&component[..cut]);
        assert_eq!(reader.element(), None);
    }
    let mut reader = Reader::over(&component);
    assert_eq!(reader.next_tag(), Some(0x30));
    assert_eq!(reader.tagged(0x30), Some(&component[2..]));
    assert!(reader.finished());
    assert_eq!(reader.next_tag(), None);
    assert!(reader.rest().is_empty());
}
