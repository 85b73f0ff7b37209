//! Access and table records: octets stated by hand, writing and reading as inverses, and records
//! that break a rule.

mod common;

use common::*;
use second::access_record::{access_record, read_access, write_access, ACCESS_OCTETS};
use second::flawed_table;
use second::made;
use second::numbers::{Number, Subaddress};
use second::random::Random;
use second::records_at_random;
use second::refusal::Refusal;
use second::table_flaws::CERTAIN_FLAWS;
use second::table_record::{place, place_of, TableRecord, BLANK, PLACES, PLACE_OCTETS};
use second::transcript::{expected_line, Said, Situation};

#[test]
fn the_fields_of_the_access_record_stand_where_they_should() {
    let mut profile = wide_profile();
    profile.subscribed = [1, 0, 1];
    profile.counted = 1;
    profile.notification = 2;
    profile.diversion_limit = 4;
    profile.prefixes = vec![b"112".to_vec(), b"9".to_vec()];
    let record = access_record(&profile);
    assert_eq!(record.len(), 447);
    assert_eq!(hex(&record[..7]), "04 00 00 03 31 30 30");
    assert_eq!(hex(&record[24..30]), "01 00 03 31 30 30");
    assert_eq!(hex(&record[47..51]), "01 01 07 34");
    assert_eq!(hex(&record[93..100]), "06 01 02 05 20 21 2A");
    assert_eq!(hex(&record[100..111]), "01 00 01 01 01 01 01 02 01 04 02");
    assert_eq!(hex(&record[111..115]), "03 31 31 32");
    assert_eq!(hex(&record[132..135]), "01 39 00");
}

#[test]
fn a_table_is_its_last_identifier_the_count_and_the_places_up_to_the_last_not_all_zeros() {
    let mut held = instance(1, 2, 5, "24");
    held.address.number = Number::public(4, "24");
    held.address.subaddress = Subaddress::Octets(vec![0xAB]);
    let mut record = TableRecord::of(&table(300, &[held]));
    let octets = record.octets();
    assert_eq!(hex(&octets[..11]), "01 2C 01 01 02 05 01 04 02 32 34");
    assert_eq!(octets.len(), 2 + 1 + 47);
    assert_eq!(hex(&octets[28..32]), "00 01 AB 00");
    // Whatever the count says.
    record.count = 0;
    assert_eq!(record.octets()[2..], [&[0], &octets[3..]].concat());
    record.count = 255;
    assert_eq!(record.octets()[2..], [&[255], &octets[3..]].concat());
    record.places[PLACES - 1][PLACE_OCTETS - 1] = 1;
    assert_eq!(record.octets().len(), 2 + 1 + 24 * 47);
    record.places = [BLANK; PLACES];
    assert_eq!(hex(&record.octets()), "01 2C FF");
    let fresh = expected_line(&Said::Silent, &TableRecord::fresh());
    assert_eq!(fresh, "silent kept table 000000");
    let refused = expected_line(&Said::Refused(3), &TableRecord::fresh());
    assert_eq!(refused, "refused 3 kept table 000000");
}

/// The table of the paper on records, after document 01's activation.
#[test]
fn the_table_after_the_sample_is_that_of_the_paper() {
    let situation = Situation {
        access: access_record(&sample_profile()),
        ..Situation::at_the_start()
    };
    let (_, next) = situation.answered(&octets(ACTIVATION_OF_CFB));
    let written = next.octets();
    assert_eq!(
        hex(&written[..14]),
        "00 02 01 01 00 01 00 00 05 32 34 36 38 30"
    );
    assert_eq!(written[14..], [0; 15 + 1 + 20]);
}

#[test]
fn writing_and_reading_an_access_are_inverse_over_any_rubbish() {
    let mut random = Random::seeded(5);
    for _ in 0..5_000 {
        let profile = made::profile(&mut random);
        let mut record = vec![0; ACCESS_OCTETS];
        record.fill_with(|| random.octet());
        write_access(&mut record, &profile);
        assert_eq!(read_access(&record), Ok(profile.clone()));
        let before = record.clone();
        write_access(&mut record, &profile);
        assert_eq!(record, before);
        assert_eq!(read_access(&access_record(&profile)), Ok(profile));
    }
}

#[test]
fn writing_and_reading_a_table_are_inverse_over_any_rubbish() {
    let mut random = Random::seeded(6);
    for _ in 0..5_000 {
        let profile = made::profile(&mut random);
        let held = made::table(&mut random, &profile);
        let clean = TableRecord::of(&held);
        assert_eq!(clean.read(), Ok(held.sorted()));
        let scribbled = records_at_random::table(&mut random, &profile, &held);
        assert_eq!(scribbled.read(), Ok(held.sorted()));
    }
}

/// The number of the refusal of a harmless component, or 0.
fn refusal(access: Vec<u8>, table: TableRecord) -> u8 {
    let situation = Situation {
        access,
        table,
        ..Situation::at_the_start()
    };
    match situation.arrived(&octets("A2 00")) {
        Err(refusal) => refusal.number(),
        Ok(_) => 0,
    }
}

#[test]
fn good_records_are_taken_and_bad_ones_refused_by_their_number() {
    let mut random = Random::seeded(7);
    for _ in 0..5_000 {
        let profile = made::profile(&mut random);
        let held = made::table(&mut random, &profile);
        let access = records_at_random::access(&mut random, &profile);
        let good = records_at_random::table(&mut random, &profile, &held);
        let (_, bad) = records_at_random::bad_table(&mut random, &profile, &held);
        let bad_access = records_at_random::bad_access(&mut random, &profile);
        assert_eq!(refusal(access.clone(), good.clone()), 0);
        assert_eq!(refusal(access, bad.clone()), 4, "{bad:?}");
        assert_eq!(refusal(bad_access.clone(), good), 3, "{bad_access:?}");
        assert_eq!(refusal(bad_access, bad), 3);
    }
}

#[test]
fn a_table_made_with_a_flaw_is_refused_for_it() {
    let mut random = Random::seeded(12);
    for (flaw, name) in CERTAIN_FLAWS {
        let mut made = 0;
        for _ in 0..400 {
            let profile = made::profile(&mut random);
            let held = made::table(&mut random, &profile);
            let bad = flawed_table::with(&mut random, &profile, &held, *flaw);
            if let Some(bad) = bad {
                let judged = bad.read().and_then(|table| table.check(&profile));
                assert_eq!(judged, Err(Refusal::BadRecord), "{name}: {bad:?}");
                made += 1;
            }
        }
        assert!(made > 20, "{name}");
    }
}

#[test]
fn a_run_strictly_ascends() {
    let [first, second, third] = [(0, 1, 2), (0, 1, 5), (1, 0, 1)]
        .map(|(procedure, number, service)| place_of(&instance(procedure, number, service, "5")));
    let read = |run: &[_]| TableRecord::holding(0, run).read().is_ok();
    assert!(read(&[first, second, third]));
    assert!(read(&[first, third]));
    assert!(!read(&[first, first]));
    assert!(!read(&[second, first]));
    assert!(!read(&[first, third, second]));
}

#[test]
fn a_count_past_the_places_is_refused_and_a_blank_place_holds_no_instance() {
    let full: Vec<_> = (0..24)
        .map(|at| place_of(&instance(at / 8, at % 8 / 2, 41 + at % 2, "5")))
        .collect();
    let mut profile = wide_profile();
    profile.services = vec![41, 42];
    let mut record = TableRecord::holding(0, &full);
    let judged = |record: &TableRecord| {
        let judged = record.read().and_then(|table| table.check(&profile));
        judged.is_ok()
    };
    assert!(judged(&record));
    for count in 25..=255 {
        record.count = count;
        assert!(!judged(&record), "{count}");
    }
    record.places[23] = BLANK;
    for count in 0..=24 {
        record.count = count;
        assert_eq!(judged(&record), count < 24, "{count}");
    }
}

/// What an activation makes has zeros past its counts, be it what was there before; what stays
/// keeps every octet; past the run's count all is zeros.
#[test]
fn only_a_result_writes_the_run_anew() {
    let profile = wide_profile();
    let to_five = |number| place(0, number, 1, &to(Number::unknown("5")));
    let mut places = [0, 1].map(to_five);
    places[0][12] = 0xEE;
    places[1][12] = 0xEE;
    let mut record = TableRecord::holding(0, &places);
    record.places[2] = to_five(2);
    record.places[23][46] = 0xDD;
    let situation = Situation {
        access: access_record(&profile),
        table: record.clone(),
        ..Situation::at_the_start()
    };
    // cfu of service 1 and number unknown 100 to 5, the address it has.
    let again =
        octets("A1 18 02 01 01 02 01 07 30 10 0A 01 00 0A 01 01 30 03 80 01 35 80 03 31 30 30");
    let (said, next) = situation.answered(&again);
    assert_eq!(said, Said::Replied(octets("A2 03 02 01 01")));
    assert_eq!(next, TableRecord::holding(0, &[to_five(0), places[1]]));
    // The same of number unknown 1, which the profile has not: error 6.
    let foreign = octets("A1 16 02 01 01 02 01 07 30 0E 0A 01 00 0A 01 01 30 03 80 01 35 80 01 31");
    let (said, next) = situation.answered(&foreign);
    assert_eq!(said, Said::Replied(octets("A3 06 02 01 01 02 01 06")));
    assert_eq!(next, record);
}
