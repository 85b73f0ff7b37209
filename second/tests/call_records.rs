//! Call records and the call that goes on: octets stated by hand, writing and reading as inverses,
//! and what a good situation hands on.

mod common;

use common::*;
use second::access_record::access_record;
use second::call_answer::CallAnswer;
use second::call_record::{call_record, read_call, write_call};
use second::calls::{Call, CallOutcome, Notice};
use second::made;
use second::numbers::{Number, Subaddress};
use second::random::Random;
use second::records::{read_address_record, read_number_record};
use second::records_at_random;
use second::refusal::Refusal;
use second::spoiled::spoil_call;
use second::table_record::TableRecord;
use second::transcript::Situation;

fn busy() -> Call {
    Call {
        number: 2,
        service: 42,
        event: 1,
        counter: 4,
        option: 2,
        original: b"90".to_vec(),
        original_allowed: 1,
        preference: 1,
    }
}

#[test]
fn the_fields_of_the_call_record_stand_where_they_should() {
    let record = call_record(&busy());
    assert_eq!(hex(&record[..10]), "02 2A 01 04 02 01 01 02 39 30");
    assert_eq!(record[10..], [0; 18]);
}

/// The wide access, cfb of the third number's service 42 to public 24 with a subaddress.
fn forwarding() -> Situation {
    let profile = wide_profile();
    let mut held = instance(1, 2, 42, "24");
    held.address.number = Number::public(4, "24");
    held.address.subaddress = Subaddress::Octets(vec![0xAB]);
    Situation {
        access: access_record(&profile),
        table: TableRecord::of(&table(0, &[held])),
        ..Situation::at_the_start()
    }
}

#[test]
fn the_fields_of_the_call_that_goes_on_stand_where_they_should() {
    let CallAnswer::Diverted {
        reason,
        notice,
        onward,
        original,
    } = forwarding().called(&call_record(&busy()))
    else {
        panic!("diverted")
    };
    assert_eq!((reason, notice, hex(&original)), (2, 2, "39 30".into()));
    assert_eq!(onward.len(), 95);
    assert_eq!(hex(&onward[..6]), "05 01 04 02 32 34");
    assert_eq!(hex(&onward[23..27]), "00 01 AB 00");
    assert_eq!(hex(&onward[45..49]), "01 01 07 34");
    assert_eq!(hex(&onward[68..77]), "01 01 01 02 01 04 02 32 34");
    assert_eq!(onward[77..], [0; 18]);
}

#[test]
fn answers_are_lines() {
    let with = |original: &[u8]| CallAnswer::Diverted {
        reason: 3,
        notice: 0,
        onward: vec![0x05, 0xAF],
        original: original.to_vec(),
    };
    assert_eq!(with(b"90").line(), "diverted 3 0 05AF original 3930");
    assert_eq!(with(b"").line(), "diverted 3 0 05AF original");
    assert_eq!(CallAnswer::Passed.line(), "passed");
    assert_eq!(CallAnswer::Refused(6).line(), "refused 6");
}

#[test]
fn writing_and_reading_a_call_are_inverse_over_any_rubbish() {
    let mut random = Random::seeded(8);
    for _ in 0..5_000 {
        let profile = made::profile(&mut random);
        let held = made::table(&mut random, &profile);
        let call = made::call(&mut random, &profile, &held);
        let mut record = vec![0; 28];
        record.fill_with(|| random.octet());
        write_call(&mut record, &call);
        assert_eq!(read_call(&record), Ok(call.clone()));
        assert_eq!(read_call(&call_record(&call)), Ok(call));
        for size in [0, 27, 29] {
            record.resize(size, 0);
            assert_eq!(read_call(&record), Err(Refusal::BadCall));
        }
    }
}

#[test]
fn a_spoiled_call_is_refused_after_the_access_and_the_table() {
    let mut random = Random::seeded(9);
    for _ in 0..5_000 {
        let profile = made::profile(&mut random);
        let held = made::table(&mut random, &profile);
        let mut bad = made::call(&mut random, &profile, &held);
        spoil_call(&mut random, &profile, &mut bad);
        let bad = call_record(&bad);
        let mut situation = Situation {
            access: records_at_random::access(&mut random, &profile),
            table: records_at_random::table(&mut random, &profile, &held),
            ..Situation::at_the_start()
        };
        assert_eq!(situation.called(&bad), CallAnswer::Refused(5));
        (_, situation.table) = records_at_random::bad_table(&mut random, &profile, &held);
        assert_eq!(situation.called(&bad), CallAnswer::Refused(4));
        situation.access = records_at_random::bad_access(&mut random, &profile);
        assert_eq!(situation.called(&bad), CallAnswer::Refused(3));
    }
}

/// Whatever stands past the counts, the octets that go on read as the values that go on.
#[test]
fn what_is_carried_reads_as_what_was_diverted() {
    let mut random = Random::seeded(10);
    let mut diverted = 0;
    for _ in 0..10_000 {
        let profile = made::profile(&mut random);
        let held = made::table(&mut random, &profile);
        let situation = Situation {
            access: records_at_random::access(&mut random, &profile),
            table: records_at_random::table(&mut random, &profile, &held),
            ..Situation::at_the_start()
        };
        let call = made::call(&mut random, &profile, &held);
        let lent = situation.lent(&call_record(&call)).expect("good records");
        let Ok(CallOutcome::Diverted(values)) = lent.outcome() else {
            continue;
        };
        diverted += 1;
        let carried = situation.carried(&lent, &values);
        let called = read_address_record(&carried.called);
        assert_eq!(called, Some(values.called.clone()));
        let redirecting = read_number_record(&carried.redirecting);
        assert_eq!(redirecting, Some(values.redirecting.clone()));
        match &values.notice {
            Notice::DivertingTo(number) => {
                assert_eq!(read_number_record(&carried.noticed), Some(number.clone()));
            }
            Notice::None | Notice::Diverting => assert_eq!(carried.noticed, [0; 23]),
        }
    }
    assert!(diverted > 1_000);
}
