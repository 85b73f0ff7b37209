//! Night sheets: writing, reading against a profile and by form alone.

mod common;

use common::*;
use second::listing::{list, list_into, LONGEST_LISTING};
use second::made;
use second::numbers::{Address, Number, Subaddress};
use second::random::Random;
use second::sheet::{self, groups, read_groups};
use second::table::{Instance, Table};

const SHEET: &str = "01 02 01 01 00 01 00 00 05 02 04 06 08 00 00";

fn read(hex: &str) -> Result<Table, u8> {
    sheet::read(&wide_profile(), &octets(hex)).map_err(|refusal| refusal.number())
}

fn by_form(hex: &str) -> Result<Table, u8> {
    sheet::read_form(&octets(hex)).map_err(|refusal| refusal.number())
}

/// Refused by form alone, and so against any profile.
fn refused(hex: &str) {
    assert_eq!(by_form(hex), Err(9), "{hex}");
    assert_eq!(read(hex), Err(9), "{hex}");
}

/// Good by form, but not for the wide profile.
fn refused_by_profile(hex: &str) {
    assert!(by_form(hex).is_ok(), "{hex}");
    assert_eq!(read(hex), Err(9), "{hex}");
}

#[test]
fn groups_of_every_size_read_back() {
    let edges = [0, 1, 127, 128, 255, 300, 16_383, 16_384, 32_767, 32_768];
    for value in edges.into_iter().chain(0..70_000) {
        let written = groups(value);
        let mut left = &written[..];
        assert_eq!(read_groups(&mut left), Some(value));
        assert!(left.is_empty());
    }
}

#[test]
fn groups_are_shortest_only_and_never_wrap_around() {
    for hex in ["80 00", "81 00", "AC 82 00", "80 80 00", "", "80", "FF FF"] {
        assert_eq!(read_groups(&mut &octets(hex)[..]), None, "{hex}");
    }
    // A67: 2 to the 63rd, 64th and 70th, plus one, are no 1.
    for zeros in [8, 9, 20, 200] {
        let long = [vec![0x81], vec![0x80; zeros], vec![0x01]].concat();
        let value = read_groups(&mut &long[..]);
        assert!(value.is_some_and(|value| value > 1 << 62), "{zeros}");
        let rest = "02 01 01 00 01 00 00 05 02 04 06 08 00 00";
        refused(&format!("{} {rest}", hex(&long)));
    }
}

#[test]
fn the_sample_and_the_empty_sheet() {
    assert_eq!(by_form(SHEET), Ok(table(2, &[instance(1, 0, 1, "24680")])));
    assert_eq!(by_form("01 00 00"), Ok(Table::fresh()));
    assert_eq!(by_form("01 FF FF 01 00"), Ok(table(32_767, &[])));
}

#[test]
fn every_cut_and_every_extra_octet_is_refused() {
    let sheet = octets(SHEET);
    for cut in 0..sheet.len() {
        refused(&hex(&sheet[..cut]));
    }
    for extra in ["00", "01", "80", "FF"] {
        refused(&format!("{SHEET} {extra}"));
    }
}

#[test]
fn header_fields_outside_their_range_are_refused() {
    refused("00 00 00");
    refused("02 00 00");
    refused("81 00 00 00");
    refused("01 80 80 02 00");
    refused("01 80 00 00");
    refused("01 00 80 00");
    refused("01 00 01");
}

/// A sheet with one instance: the first three fields, the number's, then the subaddress.
fn one(first_three: &str, number: &str, subaddress: &str) -> String {
    format!("01 00 01 {first_three} {number} {subaddress}")
}

#[test]
fn instance_fields_outside_their_range_are_refused() {
    let good = one("02 03 2A", "00 00 01 09", "00");
    assert!(read(&good).is_ok());
    refused(&one("03 03 2A", "00 00 01 09", "00"));
    refused(&one("02 04 2A", "00 00 01 09", "00"));
    refused(&one("02 03 00", "00 00 01 09", "00"));
    refused(&one("02 03 06", "00 00 01 09", "00"));
    refused(&one("02 03 1F", "00 00 01 09", "00"));
    refused(&one("02 03 2B", "00 00 01 09", "00"));
    refused(&one("02 03 2A", "02 00 01 09", "00"));
    refused(&one("02 03 2A", "00 01 01 09", "00"));
    refused(&one("02 03 2A", "01 05 01 09", "00"));
    refused(&one("02 03 2A", "01 07 01 09", "00"));
    refused(&one("02 03 2A", "00 00 00", "00"));
    refused(&one("02 03 2A", "00 00 01 0A", "00"));
    refused(&one("02 03 2A", "00 00 01 31", "00"));
    refused(&one("82 00 03 2A", "00 00 01 09", "00"));
    refused(&one("02 03 2A", "00 00 81 00 09", "00"));
    refused(&one("02 03 2A", "00 00 01 89 00", "00"));
    for number_type in ["00", "01", "02", "03", "04", "06"] {
        assert!(read(&one("02 03 2A", &format!("01 {number_type} 01 09"), "00")).is_ok());
    }
    // A value past 32 bits is no small one.
    refused(&one("02 03 2A", "00 00 01 89 80 80 80 10", "00"));
    refused(&one("82 80 80 80 10 03 2A", "00 00 01 09", "00"));
}

#[test]
fn digits_and_subaddress_octets_of_every_size() {
    for length in 0..=22_usize {
        let digits = vec!["07"; length].join(" ");
        let sheet = one("02 03 2A", &format!("00 00 {length:02X} {digits}"), "00");
        assert_eq!(read(&sheet).is_ok(), (1..=20).contains(&length));
        let octets = vec!["FF 01"; length].join(" ");
        let sheet = one("02 03 2A", "00 00 01 09", &format!("{length:02X} {octets}"));
        assert_eq!(read(&sheet).is_ok(), length <= 20);
    }
    // A68: octets above 127 take two; 256 is none.
    assert!(read(&one("02 03 2A", "00 00 01 09", "01 80 01")).is_ok());
    refused(&one("02 03 2A", "00 00 01 09", "01 80 02"));
    refused(&one("02 03 2A", "00 00 01 09", "01 80 00"));
}

#[test]
fn strictly_ascending_by_the_first_three() {
    let two = |first: &str, second: &str| {
        format!("01 00 02 {first} 00 00 01 01 00 {second} 00 00 01 01 00")
    };
    assert!(read(&two("00 00 01", "00 00 02")).is_ok());
    assert!(read(&two("00 00 02", "00 01 01")).is_ok());
    assert!(read(&two("00 03 2A", "01 00 01")).is_ok());
    refused(&two("00 00 01", "00 00 01"));
    refused(&two("00 00 02", "00 00 01"));
    refused(&two("00 01 01", "00 00 02"));
    refused(&two("01 00 01", "00 03 2A"));
}

#[test]
fn at_most_eight_for_each_procedure() {
    let many = |count: usize| {
        let codes = ["01", "02", "03", "04", "05", "20", "21", "22", "23"];
        let lines: Vec<String> = codes[..count]
            .iter()
            .map(|service| format!("01 00 {service} 00 00 01 01 00"))
            .collect();
        format!("01 00 {count:02X} {}", lines.join(" "))
    };
    // A69: more than six services are no matter of form.
    assert!(by_form(&many(8)).is_ok());
    refused(&many(9));
}

#[test]
fn against_a_profile_only_what_it_has() {
    let mut profile = wide_profile();
    profile.subscribed = [1, 1, 0];
    profile.numbers.truncate(2);
    let check = |sheet: &str| {
        let read = sheet::read(&profile, &octets(sheet));
        read.map(|_| ()).map_err(|refusal| refusal.number())
    };
    assert_eq!(check(&one("01 01 2A", "00 00 01 09", "00")), Ok(()));
    assert_eq!(check(&one("02 01 2A", "00 00 01 09", "00")), Err(9));
    assert_eq!(check(&one("01 02 2A", "00 00 01 09", "00")), Err(9));
    assert_eq!(check(&one("01 01 29", "00 00 01 09", "00")), Err(9));
    refused_by_profile(&one("01 01 29", "00 00 01 09", "00"));
    // Refusal 3 before 9.
    profile.in_use = 7;
    let number = sheet::read(&profile, &[]).map_err(|refusal| refusal.number());
    assert_eq!(number, Err(3));
    // A71: no refusal 2, however long.
    refused(&hex(&[1; 3_000]));
}

fn greatest(procedure: i32, at: i32) -> Instance {
    Instance {
        procedure,
        number: at / 2,
        service: 41 + at % 2,
        address: Address {
            number: Number::public(6, "98765432109876543210"),
            subaddress: Subaddress::Octets(vec![0xAB; 20]),
        },
    }
}

#[test]
fn the_longest_sheet_takes_1613_octets_and_the_longest_listing_1811() {
    let mut profile = wide_profile();
    profile.services = vec![41, 42];
    let instances: Vec<Instance> = (0..24).map(|at| greatest(at / 8, at % 8)).collect();
    let full = table(32_767, &instances);
    let mut output = [0; 1_613];
    assert_eq!(sheet::write(&mut output, &profile, &full), Ok(1_613));
    assert_eq!(sheet::read(&profile, &output), Ok(full.clone()));
    let text = list(&output).expect("a sheet");
    assert_eq!(text.len(), 1_811);
    assert_eq!(LONGEST_LISTING, 1_811);
    let mut lent = vec![b'.'; 1_820];
    assert_eq!(list_into(&mut lent, &output), Ok(1_811));
    assert_eq!(lent, format!("{text}.........").as_bytes());
    let mut short = vec![b'.'; 1_810];
    let refused = list_into(&mut short, &[]).map_err(|refusal| refusal.number());
    assert_eq!(refused, Err(1));
    assert_eq!(short, vec![b'.'; 1_810]);
}

#[test]
fn writing_is_refused_1_3_4_and_writes_nothing() {
    let (good, mut bad) = (wide_profile(), wide_profile());
    bad.services.clear();
    let (fresh, broken) = (Table::fresh(), table(40_000, &[]));
    for (size, profile, table, number) in [
        (1_612, &bad, &broken, 1),
        (1_612, &good, &fresh, 1),
        (1_613, &bad, &broken, 3),
        (1_613, &good, &broken, 4),
    ] {
        let mut output = vec![0xEE; size];
        let refused = sheet::write(&mut output, profile, table);
        assert_eq!(refused.map_err(|refusal| refusal.number()), Err(number));
        assert!(output.iter().all(|octet| *octet == 0xEE));
    }
}

#[test]
fn random_tables_read_back_as_what_was_meant() {
    let mut random = Random::seeded(8);
    for _ in 0..5_000 {
        let profile = made::profile(&mut random);
        let meant = made::table(&mut random, &profile);
        let mut output = [0; 1_613];
        let length = sheet::write(&mut output, &profile, &meant).expect("written");
        let written = &output[..length];
        assert_eq!(sheet::read(&profile, written), Ok(meant.sorted()));
        assert_eq!(sheet::read_form(written), Ok(meant.sorted()));
        // Any one octet changed is refused or reads as another table.
        let mut scratched = written.to_vec();
        let at = random.below(length);
        scratched[at] ^= 1 << random.below(8);
        if let Ok(other) = sheet::read(&profile, &scratched) {
            assert_ne!(other, meant.sorted());
            assert!(other.good(&profile));
        }
    }
}
