//! Demands 1 and 2 by running: any octets and records are thrown at the exchange, the sheets and
//! the calls. They always finish, refuse by number, alter nothing they shouldn't, and what is
//! written reads back as meant.

mod common;

use std::collections::BTreeMap;

use common::thrown::{access, first_refusal};
use second::answer::Problem::General;
use second::answer::{read_error, read_list, read_reply, Answer, ReplyKind};
use second::calls::call;
use second::end::{self, End};
use second::exchange::{arrive, Arrived};
use second::loose;
use second::made;
use second::profile::Profile;
use second::random::Random;
use second::refusal::Refusal;
use second::request::{hear, read_argument, Heard};
use second::sheet;
use second::spoiled;
use second::table::Table;

const KINDS: [&str; 23] = [
    "refusal 1",
    "refusal 2",
    "refusal 3",
    "refusal 4",
    "silence",
    "list",
    "result",
    "General(0)",
    "General(1) with identifier",
    "General(1)",
    "General(2)",
    "Invoke(0)",
    "Invoke(1)",
    "Invoke(2)",
    "error 0",
    "error 3",
    "error 6",
    "error 8",
    "error 11",
    "error 12",
    "error 14",
    "error 15",
    "error 46",
];

#[test]
fn anything_thrown_at_the_exchange() {
    let mut random = Random::seeded(1);
    let mut reached: BTreeMap<String, u32> = BTreeMap::new();
    for _ in 0..150_000 {
        *reached.entry(throw(&mut random)).or_default() += 1;
    }
    for kind in KINDS {
        let times = reached.remove(kind).unwrap_or(0);
        assert!(times > 20, "{kind} was reached {times} times");
    }
    assert!(reached.is_empty(), "{reached:?}");
}

/// Throws one component at one access and tells what came of it.
fn throw(random: &mut Random) -> String {
    let (profile, bad_profile, table, bad_table) = access(random);
    let component = loose::component(random, &profile, table.last);
    let size = random.one_of(&[0, 706, 707, 707, 707, 707, 707, 800]);
    let mut output = vec![0xEE; size];
    let expected = first_refusal(&[
        (size < 707, Refusal::OutputTooSmall),
        (component.len() > 1_024, Refusal::ComponentTooLong),
        (bad_profile, Refusal::BadProfile),
        (bad_table, Refusal::BadRecord),
    ]);
    match arrive(&mut output, &component, &profile, &table) {
        Err(refusal) => {
            assert_eq!(Some(refusal), expected);
            assert!(output.iter().all(|octet| *octet == 0xEE));
            format!("refusal {}", refusal.number())
        }
        Ok(arrived) => {
            assert_eq!(expected, None);
            assert!(output[arrived.length..].iter().all(|octet| *octet == 0xEE));
            assert!(arrived.next.good(&profile));
            alters_only_what_it_may(&profile, &table, &arrived);
            reads_back(&arrived.answer, &output[..arrived.length]);
            kind(&arrived.answer)
        }
    }
}

fn kind(answer: &Answer) -> String {
    match answer {
        Answer::Silence => "silence".to_string(),
        Answer::Reject {
            identifier: Some(_),
            problem: General(code),
        } => format!("General({code}) with identifier"),
        Answer::Reject { problem, .. } => format!("{problem:?}"),
        Answer::Error { code, .. } => format!("error {code}"),
        Answer::Result { .. } => "result".to_string(),
        Answer::List { .. } => "list".to_string(),
    }
}

fn alters_only_what_it_may(profile: &Profile, before: &Table, arrived: &Arrived) {
    let done = matches!(arrived.answer, Answer::Result { .. });
    assert!(done || arrived.next.instances == before.instances);
    match arrived.answer.handled() {
        Some(identifier) if profile.counted == 1 => {
            assert_eq!(arrived.next.last, identifier);
            assert!(identifier > before.last);
        }
        _ => assert_eq!(arrived.next.last, before.last),
    }
    assert_eq!(arrived.answer == Answer::Silence, arrived.length == 0);
}

fn reads_back(answer: &Answer, written: &[u8]) {
    // The exchange itself never answers a reply.
    assert_eq!(hear(written) == Heard::Silence, !written.is_empty());
    let reply = read_reply(written);
    let heard = reply.map(|reply| (reply.kind, reply.identifier));
    let after = reply.map_or(&[][..], |reply| reply.after);
    match answer {
        Answer::Silence => assert_eq!(heard, None),
        Answer::Reject { identifier, .. } => {
            assert_eq!(heard, identifier.map(|one| (ReplyKind::Reject, one)));
        }
        Answer::Error { identifier, code } => {
            assert_eq!(heard, Some((ReplyKind::Error, *identifier)));
            assert_eq!(read_error(after), Some(*code));
        }
        Answer::Result { identifier } => {
            assert_eq!(heard, Some((ReplyKind::Result, *identifier)));
            assert!(after.is_empty());
        }
        Answer::List {
            identifier,
            entries,
        } => {
            assert_eq!(heard, Some((ReplyKind::Result, *identifier)));
            assert_eq!(read_list(after).as_ref(), Some(entries));
        }
    }
}

#[test]
fn requests_read_back_as_meant_and_spoiled_ones_are_not_good() {
    let mut random = Random::seeded(2);
    for _ in 0..50_000 {
        let profile = made::profile(&mut random);
        let mut request = made::request(&mut random, &profile);
        assert!(request.good());
        let identifier = random.between(-32_768, 32_767);
        let written = request.written(identifier);
        let Heard::Invoke(invoke) = hear(&written) else {
            panic!("not heard: {request:?}")
        };
        assert_eq!(invoke.identifier, identifier);
        assert_eq!(invoke.operation, request.operation());
        let back = read_argument(invoke.operation, invoke.after);
        assert_eq!(back.as_ref(), Some(&request));
        spoiled::spoil_request(&mut random, &mut request);
        assert!(!request.good(), "{request:?}");
    }
}

#[test]
fn anything_thrown_at_calls_sheets_and_giving_up() {
    let mut random = Random::seeded(4);
    for _ in 0..50_000 {
        let (profile, bad_profile, table, bad_table) = access(&mut random);
        let expected = first_refusal(&[
            (bad_profile, Refusal::BadProfile),
            (bad_table, Refusal::BadRecord),
        ]);
        let mut output = [0xEE; 1_613];
        let written = sheet::write(&mut output, &profile, &table);
        assert_eq!(written.err(), expected);
        let lent = made::call(&mut random, &profile, &table);
        let outcome = call(&profile, &table, &lent);
        if let Some(refusal) = expected {
            assert_eq!(outcome.err(), Some(refusal));
            assert!(output.iter().all(|octet| *octet == 0xEE));
        }
        let mut end = End::fresh();
        end.picture = table.instances.clone();
        end.last_used = table.last;
        assert_eq!(end::give_up(&profile, &mut end).err(), expected);
        let length = random.below(60);
        let any: Vec<u8> = (0..length).map(|_| random.octet() & 0x83).collect();
        if let Ok(read) = sheet::read(&profile, &[&[1, 0][..], &any].concat()) {
            assert!(read.good(&profile));
        }
    }
}
