//! The end's record: octets stated by hand, writing and reading as inverses, records that break a
//! rule, and what a line leaves of octets that carry no meaning.

mod common;

use common::*;
use second::access_record::access_record;
use second::end::{self, Event, IN_DOUBT, KNOWN};
use second::end_cases::end_flaws::{self, END_FLAWS};
use second::end_cases::ends_at_random;
use second::end_cases::request_flaws::{self, REQUEST_FLAWS};
use second::end_cases::waiting::Waiting;
use second::end_line::{EndAct, EndAnswer, EndLine};
use second::end_record::{EndRecord, END_OCTETS};
use second::loose;
use second::made;
use second::numbers::{Number, Subaddress};
use second::profile::Profile;
use second::random::Random;
use second::records_at_random;
use second::refusal::Refusal;
use second::request::{Request, Served};
use second::request_record::{read_request, request_record, write_request, REQUEST_OCTETS};
use second::table_record::{place_of, TableRecord, BLANK};
use second::transcript::Situation;

fn at(profile: &Profile, end: EndRecord) -> Situation {
    Situation {
        access: access_record(profile),
        end,
        ..Situation::at_the_start()
    }
}

#[test]
fn the_fields_of_a_request_stand_where_they_should() {
    let mut address = to(Number::public(4, "24"));
    address.subaddress = Subaddress::Octets(vec![0xAB]);
    let record = request_record(&Request::Activation {
        procedure: 2,
        service: 42,
        address,
        served: Served::Individual(Number::public(6, "7")),
    });
    assert_eq!(record.len(), 71);
    assert_eq!(hex(&record[..8]), "02 2A 00 01 06 01 37 00");
    assert_eq!(hex(&record[25..32]), "00 01 04 02 32 34 00");
    assert_eq!(hex(&record[48..52]), "00 01 AB 00");
    assert_eq!(hex(&record[69..]), "00 00");
}

/// That of the paper on records, the identifier's octets the most significant first.
#[test]
fn the_end_after_the_sample_is_that_of_the_paper() {
    let sample = request_record(&Request::Activation {
        procedure: 1,
        service: 1,
        address: to(Number::unknown("24680")),
        served: Served::AllNumbers,
    });
    let mut end = EndRecord::fresh();
    end.held.last = 1;
    let sent = at(&sample_profile(), end).sent(7, &sample);
    let (component, next) = sent.expect("sent");
    assert_eq!(hex(&component), ACTIVATION_OF_CFB);
    let zeros = |count: usize| vec!["00"; count].join(" ");
    let expected = [
        "00 02 01 07 01 01 01 01 00 00 00".to_string(),
        zeros(20),
        "00 00 05 32 34 36 38 30".to_string(),
        zeros(15 + 1 + 20 + 1),
        "01 00 01 00".to_string(),
    ];
    assert_eq!(hex(&next.octets()), expected.join(" "));
}

#[test]
fn a_fresh_end_is_zeros_but_for_its_marks() {
    let octets = EndRecord::fresh().octets();
    assert_eq!(octets[..76], [0; 76]);
    assert_eq!(octets[76..], [1, 1, 1, 0]);
    assert_eq!(END_OCTETS, 1_208);
    let read = EndRecord::fresh().read();
    assert_eq!(read, Ok(end::End::fresh()));
}

#[test]
fn an_end_and_its_octets_are_inverse_and_missing_octets_are_zeros() {
    let mut random = Random::seeded(31);
    for _ in 0..3_000 {
        let profile = made::profile(&mut random);
        let record = ends_at_random::any(&mut random, &profile);
        let mut octets = record.octets();
        assert_eq!(EndRecord::of_octets(&octets).as_ref(), Some(&record));
        octets.resize(END_OCTETS, 0);
        assert_eq!(EndRecord::of_octets(&octets).as_ref(), Some(&record));
        while octets.last() == Some(&0) {
            octets.pop();
        }
        assert_eq!(EndRecord::of_octets(&octets), Some(record));
    }
    assert_eq!(EndRecord::of_octets(&[0; 1_209]), None);
}

#[test]
fn writing_and_reading_a_request_are_inverse_over_any_rubbish() {
    let mut random = Random::seeded(32);
    for _ in 0..5_000 {
        let profile = made::profile(&mut random);
        let request = made::request(&mut random, &profile);
        let mut record = [0; REQUEST_OCTETS];
        record.fill_with(|| random.octet());
        write_request(&mut record, &request);
        let read = read_request(request.operation(), &record);
        assert_eq!(read.as_ref(), Some(&request));
        assert_eq!(read_request(9, &record), None);
    }
}

#[test]
fn a_mark_of_1_is_known() {
    let mut record = EndRecord::fresh();
    record.marks = [0, 1, 7];
    let marks = record.read().map(|end| end.marks);
    assert_eq!(marks, Ok([IN_DOUBT, KNOWN, 7]));
    let situation = at(&sample_profile(), record);
    assert_eq!(situation.shown(1), Err(Refusal::BadRecord));
}

fn refusal(now: &Situation, act: EndAct) -> u8 {
    let line = EndLine::of(now, act);
    assert_eq!(*line.next, now.end);
    match line.answer {
        EndAnswer::Refused(number) => number,
        _ => 0,
    }
}

#[test]
fn an_end_with_a_flaw_is_refused_4_by_every_function_and_a_good_one_is_not() {
    let mut random = Random::seeded(33);
    for (flaw, name) in END_FLAWS {
        let mut made = 0;
        for _ in 0..300 {
            let profile = made::profile(&mut random);
            let good = ends_at_random::any(&mut random, &profile);
            let mut bad = good.clone();
            assert_eq!(refusal(&at(&profile, good.clone()), EndAct::Shown(1)), 0);
            if !end_flaws::spoil(&mut random, &mut bad, flaw) {
                assert_eq!(bad, good);
                continue;
            }
            let now = at(&profile, bad);
            for act in [
                EndAct::Interrogate(1),
                EndAct::Arrived(vec![]),
                EndAct::GiveUp,
                EndAct::Shown(1),
            ] {
                assert_eq!(refusal(&now, act), 4, "{name}");
            }
            made += 1;
        }
        assert!(made > 10, "{name}");
    }
}

#[test]
fn a_request_with_a_flaw_is_refused_10_and_a_good_one_is_not() {
    let mut random = Random::seeded(34);
    for (flaw, name) in REQUEST_FLAWS {
        for operation in [7, 8] {
            for _ in 0..100 {
                let profile = made::profile(&mut random);
                let mut end = ends_at_random::idle(&mut random, &profile);
                end.held.last = 5;
                let now = at(&profile, end);
                let mut record = ends_at_random::request(&mut random, &profile, operation);
                assert!(now.sent(operation, &record).is_ok());
                request_flaws::spoil(&mut random, &mut record, flaw);
                let line = EndLine::of(&now, EndAct::Send(operation, Box::new(record)));
                let refused = line.answer == EndAnswer::Refused(10);
                let applies = request_flaws::applies(flaw, operation);
                assert_eq!(refused, applies, "{name}");
            }
        }
    }
}

/// The same end without its rubbish.
fn cleaned(record: &EndRecord) -> EndRecord {
    let end = record.read().expect("a good end");
    let places: Vec<_> = end.picture.iter().map(place_of).collect();
    let mut clean = EndRecord {
        held: TableRecord::holding(record.held.last, &places),
        marks: record.marks,
        ..EndRecord::fresh()
    };
    if let Some(outstanding) = &end.outstanding {
        clean.outstanding = 1;
        clean.operation = record.operation;
        clean.before = record.before;
        clean.request = request_record(&outstanding.request);
    }
    clean
}

/// Whatever arrives, rubbish decides nothing, and what closes a request leaves zeros in its fields.
#[test]
fn rubbish_decides_nothing_and_goes_where_the_paper_says() {
    let mut random = Random::seeded(35);
    let mut closed = 0;
    for _ in 0..20_000 {
        let profile = made::profile(&mut random);
        let record = ends_at_random::any(&mut random, &profile);
        let end = record.read().expect("a good end");
        let reply = match Waiting::at(&record).filter(|_| random.once_in(2)) {
            Some(waiting) => waiting.result(&mut random, &profile).written(),
            None => loose::reply(&mut random, &profile, &end),
        };
        let now = Situation {
            access: records_at_random::access(&mut random, &profile),
            ..at(&profile, record.clone())
        };
        let Ok((event, next)) = now.taken(&reply) else {
            assert!(reply.len() > 1_024);
            continue;
        };
        let clean = at(&profile, cleaned(&record)).taken(&reply);
        let (clean_event, clean_next) = clean.expect("not refused");
        assert_eq!((event, cleaned(&next)), (clean_event, cleaned(&clean_next)));
        let mut expected = end;
        assert_eq!(end::arrived(&reply, &profile, &mut expected), Ok(event));
        assert_eq!(next.read(), Ok(expected));
        if event == Event::Dropped {
            assert_eq!(next, record);
            continue;
        }
        closed += 1;
        let fields = (next.outstanding, next.operation, next.before);
        assert_eq!((fields, next.request), ((0, 0, 0), [0; REQUEST_OCTETS]));
        if matches!(event, Event::Applied | Event::Listed) {
            assert!(next.held.uncounted().iter().all(|place| *place == BLANK));
        } else {
            assert_eq!(next.held, record.held);
        }
    }
    assert!(closed > 5_000, "{closed}");
}

/// As they stand: the number's octets in the access record, the address's in the picture.
#[test]
fn what_is_shown_has_the_octets_of_both_records() {
    let mut end = EndRecord::fresh();
    let mut place = place_of(&instance(1, 0, 1, "24680"));
    place[20] = 0xEE;
    end.held = TableRecord::holding(3, &[place]);
    let mut now = at(&sample_profile(), end);
    now.access[20] = 0xDD;
    let shown = now.shown(1).expect("not refused").expect("known");
    assert_eq!(shown.len(), 1);
    assert_eq!(shown[0][..23], now.access[1..24]);
    assert_eq!(shown[0][23..25], [1, 1]);
    assert_eq!(shown[0][25..], place[3..]);
    assert_eq!(now.shown(0), Ok(Some(vec![])));
    assert_eq!(now.shown(3), Err(Refusal::BadRequest));
}
