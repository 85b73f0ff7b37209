//! Every sample of document 01, octet for octet, each under the document's words.

mod common;

use common::*;
use second::calls::{call, Call, CallOutcome, Diverted, NOT_REQUIRED, OFFERED};
use second::elements::{integer, whole, Reader};
use second::end::End;
use second::listing::printed;
use second::refusal::Refusal;
use second::request::Served;
use second::sheet::{self, groups, read_groups};
use second::table::Table;

#[test]
fn interrogation_of_cfb() {
    let mut end = End::fresh();
    let sent = interrogate(&sample_profile(), &mut end, 1);
    assert_eq!(hex(&sent), INTERROGATION_OF_CFB);
    assert_eq!(
        sample_reply(INTERROGATION_OF_CFB),
        "A2 0A 02 01 01 30 05 02 01 0B 31 00"
    );
}

#[test]
fn cfb_speech_24680_all_numbers() {
    let profile = sample_profile();
    let mut end = End::fresh();
    interrogate(&profile, &mut end, 1);
    comes(&profile, &mut end, "A2 0A 02 01 01 30 05 02 01 0B 31 00");
    let sent = activate(&profile, &mut end, (1, 1), "24680", Served::AllNumbers);
    assert_eq!(hex(&sent), ACTIVATION_OF_CFB);
    let (next, reply) = ask(&profile, &Table::fresh(), &sent);
    assert_eq!(hex(&reply), "A2 03 02 01 02");
    assert_eq!(next, table(2, &[instance(1, 0, 1, "24680")]));
}

#[test]
fn the_latter_again() {
    let profile = sample_profile();
    let (next, _) = ask(&profile, &Table::fresh(), &octets(ACTIVATION_OF_CFB));
    let (after, reply) = ask(&profile, &next, &octets(ACTIVATION_OF_CFB));
    assert_eq!(hex(&reply), "A4 06 02 01 02 81 01 00");
    assert_eq!(after, next);
}

#[test]
fn not_subscribed_identifier_1() {
    let of_cfu = INTERROGATION_OF_CFB.replace("0A 01 01 0A 01 00", "0A 01 00 0A 01 00");
    assert_eq!(sample_reply(&of_cfu), "A3 06 02 01 01 02 01 00");
}

#[test]
fn empty_input() {
    assert_eq!(sample_reply(""), "A4 05 05 00 80 01 02");
}

#[test]
fn identifier_128_and_minus_128() {
    assert_eq!(hex(&integer(128)), "02 02 00 80");
    assert_eq!(hex(&integer(-128)), "02 01 80");
    assert_eq!(Reader::over(&octets("02 02 00 80")).integer(), Some(128));
    assert_eq!(Reader::over(&octets("02 01 80")).integer(), Some(-128));
}

#[test]
fn identifier_00_7f_is_unreadable() {
    let octets = octets("02 02 00 7F");
    assert_eq!(Reader::over(&octets).integer(), None);
    // The element itself is whole; only its value is not in shortest form.
    assert!(whole(&octets).is_some());
    let written = INTERROGATION_OF_CFB
        .replace("A1 10", "A1 11")
        .replace("02 01 01 02", "02 02 00 7F 02");
    assert_eq!(sample_reply(&written), "A4 05 05 00 80 01 01");
}

#[test]
fn three_hundred_in_groups() {
    assert_eq!(hex(&groups(300)), "AC 02");
    let written = octets("AC 02");
    let mut left = &written[..];
    assert_eq!(read_groups(&mut left), Some(300));
    assert!(left.is_empty());
}

#[test]
fn groups_80_00_refused() {
    assert_eq!(read_groups(&mut &octets("80 00")[..]), None);
}

fn diverted(counter: i32, option: i32, profile_option: i32) -> Result<CallOutcome, Refusal> {
    let mut profile = sample_profile();
    profile.subscribed = [1, 1, 0];
    profile.notification = profile_option;
    let offered = Call {
        number: 0,
        service: 1,
        event: OFFERED,
        counter,
        option,
        original: b"999".to_vec(),
        original_allowed: 1,
        preference: NOT_REQUIRED,
    };
    call(&profile, &table(0, &[instance(0, 0, 1, "24680")]), &offered)
}

fn outcome(result: Result<CallOutcome, Refusal>) -> Box<Diverted> {
    match result {
        Ok(CallOutcome::Diverted(diverted)) => diverted,
        other => panic!("not diverted: {other:?}"),
    }
}

#[test]
fn counter_4_limit_5_diverted_counter_5() {
    assert_eq!(outcome(diverted(4, 0, 0)).counter, 5);
}

#[test]
fn counter_5_refusal_6() {
    let refused = diverted(5, 0, 0).map_err(Refusal::number);
    assert_eq!(refused, Err(6));
}

#[test]
fn counter_5_no_instance_not_diverted() {
    let mut profile = sample_profile();
    profile.subscribed = [1, 1, 0];
    let offered = Call {
        number: 0,
        service: 1,
        event: OFFERED,
        counter: 5,
        option: 0,
        original: vec![],
        original_allowed: 0,
        preference: 0,
    };
    let outcome = call(&profile, &Table::fresh(), &offered);
    assert_eq!(outcome, Ok(CallOutcome::NotDiverted));
}

#[test]
fn option_2_received_profile_1_counter_1_gives_1() {
    assert_eq!(outcome(diverted(1, 2, 1)).option, 1);
}

const SHEET: &str = "01 02 01 01 00 01 00 00 05 02 04 06 08 00 00";

#[test]
fn the_sheet_is_written_and_read() {
    let profile = sample_profile();
    let meant = table(2, &[instance(1, 0, 1, "24680")]);
    let mut output = [0xEE; 1_613];
    let length = sheet::write(&mut output, &profile, &meant).expect("written");
    assert_eq!(hex(&output[..length]), SHEET);
    assert!(output[length..].iter().all(|octet| *octet == 0xEE));
    assert_eq!(sheet::read(&profile, &octets(SHEET)), Ok(meant));
}

#[test]
fn the_listing_program_prints_the_sheet() {
    assert_eq!(
        printed(&octets(SHEET)),
        "form 1 last 2 count 1\ncfb 0 1 u 24680 -\n"
    );
    assert_eq!(printed(&[]), "refused 9\n");
}
