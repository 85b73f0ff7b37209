//! Answering lines, and reading answers to them.

mod common;

use common::*;
use second::answer::{read_answer, Answer, Problem};
use second::answering::Answerer;
use second::dialogues::{dialogues, transcript};
use second::end_cases::end_cases;
use second::end_dialogues::end_dialogues;
use second::end_line::{EndAct, EndLine};
use second::end_record::EndRecord;
use second::exchange_cases::exchange_cases;
use second::hexadecimal::{joined, read};
use second::made;
use second::random::Random;
use second::said_lines::{instance_meant, read_end_said, read_said};
use second::transcript::{expected_line, Situation, Transcript};

/// What is printed for the lines, line by line.
fn answers_to(lines: &Transcript) -> Vec<String> {
    let mut answerer = Answerer::new(None);
    let answers = lines.input.lines().map(|line| answerer.answer(line));
    answers
        .filter_map(|answer| answer.unwrap_or_else(|fault| panic!("{fault}")))
        .collect()
}

#[test]
fn answers_are_those_stated_by_hand_and_those_of_the_cases() {
    let all = [
        transcript(&dialogues()),
        transcript(&end_dialogues()),
        exchange_cases(2, 2_000).lines,
        end_cases(2, 2_000).lines,
    ];
    for lines in all {
        let expected: Vec<&str> = lines.expected.lines().collect();
        assert!(answers_to(&lines) == expected);
    }
}

#[test]
fn other_lines_are_not_answered() {
    let over = |word: &str, octets: usize| format!("{word} {}", "00".repeat(octets));
    let lines = [
        "".to_string(),
        "call".to_string(),
        "start now".to_string(),
        "component a1".to_string(),
        "component A".to_string(),
        "send 9 00".to_string(),
        "send 11 256".to_string(),
        "send 7".to_string(),
        "give-up now".to_string(),
        "shown".to_string(),
        "output 2049".to_string(),
        "table 0000".to_string(),
        over("send 7", 70),
        over("send 8", 72),
        over("access", 513),
        over("component", 1_101),
        over("arrived", 1_101),
        over("table", 3 + 24 * 47 + 1),
        over("end", 5 + 71 + 3 + 1 + 24 * 47 + 1),
    ];
    for line in lines {
        assert!(Answerer::new(None).answer(&line).is_err(), "{line}");
    }
}

#[test]
fn answers_of_the_exchange_read_back() {
    let cases = exchange_cases(5, 2_000).lines;
    let mut read_back = 0;
    for line in cases.expected.lines().filter(|line| !line.starts_with('#')) {
        let (said, table) = read_said(line).unwrap_or_else(|| panic!("{line}"));
        assert_eq!(expected_line(&said, &table), line);
        read_back += 1;
    }
    assert_eq!(read_back, 2_000);
}

#[test]
fn answers_of_the_end_read_back() {
    let cases = end_cases(5, 2_000).lines;
    let (mut with_end, mut shown) = (0, 0);
    for line in cases.expected.lines().filter(|line| !line.starts_with('#')) {
        let (answer, next) = read_end_said(line).unwrap_or_else(|| panic!("{line}"));
        *(if next.is_some() {
            &mut with_end
        } else {
            &mut shown
        }) += 1;
        let act = match next {
            Some(_) => EndAct::GiveUp,
            None => EndAct::Shown(0),
        };
        let next = Box::new(next.unwrap_or_else(EndRecord::fresh));
        assert_eq!(EndLine { act, answer, next }.printed(), line);
    }
    assert!(with_end > 1_000 && shown > 50, "{with_end} {shown}");
}

#[test]
fn answers_of_another_form_are_not_read() {
    for line in [
        "silent spilled table 000000",
        "silent kept table 000000 sheet differs",
        "silent kept table 0000",
        "silent kept table 00000g",
        "silent kept",
        "replied a2 kept table 000000",
        "replied A kept table 000000",
        "refused 04 kept table 000000",
        "refused kept table 000000",
        "Silent kept table 000000",
        " silent kept table 000000",
        "",
    ] {
        assert_eq!(read_said(line), None, "{line}");
    }
    for line in [
        "taken spilled end 00",
        "taken kept",
        "taken kept end 00 ",
        "sent kept end 00",
        "doubt spilled",
        "doubt kept end 00",
        "known 00 kept",
        "known  kept",
        "known",
        "",
    ] {
        assert_eq!(read_end_said(line), None, "{line}");
    }
}

/// Every line of the end is read as what it asks for.
#[test]
fn lines_of_the_end_read_back() {
    let cases = end_cases(6, 2_000).lines;
    let mut read_back = 0;
    for line in cases.input.lines() {
        let (word, rest) = line.split_once(' ').unwrap_or((line, ""));
        if let Some(act) = EndAct::of_words(word, rest) {
            assert_eq!(act.line(), line);
            read_back += 1;
        }
    }
    assert_eq!(read_back, 2_000);
}

#[test]
fn entries_mean_the_instances_of_the_picture() {
    let mut random = Random::seeded(31);
    let mut meant = 0;
    for _ in 0..200 {
        let profile = made::profile(&mut random);
        let table = made::table(&mut random, &profile).sorted();
        let mut situation = Situation::at_the_start();
        situation.access = second::records_at_random::access(&mut random, &profile);
        situation.end.held = second::records_at_random::table(&mut random, &profile, &table);
        for procedure in 0..3_u8 {
            let entries = situation.shown(procedure).expect("good").expect("known");
            let told: Vec<_> = entries
                .iter()
                .filter_map(|entry| instance_meant(&profile, entry))
                .collect();
            let held = table.instances.iter();
            let held = held.filter(|held| held.procedure == i32::from(procedure));
            assert!(held.eq(&told));
            meant += told.len();
            for mut entry in entries {
                entry[2] = 20;
                entry[3..23].fill(b'9');
                assert_eq!(instance_meant(&profile, &entry), None);
            }
        }
    }
    assert!(meant > 500, "{meant}");
}

#[test]
fn replies_read_back_as_the_answers_they_are() {
    let (mut random, mut kinds) = (Random::seeded(32), [0; 4]);
    for identifier in [1, 127, 128, 32_767] {
        for _ in 0..200 {
            let profile = made::profile(&mut random);
            let table = second::table::Table {
                last: random.one_of(&[0, 32_767]),
                ..made::table(&mut random, &profile)
            };
            let sent = made::request(&mut random, &profile).written(identifier);
            let (_, reply) = ask(&profile, &table, &sent);
            let answer = read_answer(&reply).unwrap_or_else(|| panic!("{reply:02X?}"));
            assert_eq!(answer.written(), reply);
            kinds[match answer {
                Answer::Result { .. } => 0,
                Answer::List { .. } => 1,
                Answer::Error { .. } => 2,
                Answer::Reject { problem, .. } => {
                    assert_eq!(problem, Problem::Invoke(0));
                    3
                }
                Answer::Silence => panic!("silence"),
            }] += 1;
            assert_eq!(read_answer(&reply[..reply.len() - 1]), None);
            assert_eq!(read_answer(&[&reply[..], &[0]].concat()), None);
        }
    }
    assert!(kinds.iter().all(|times| *times > 50), "{kinds:?}");
    for octets in [
        "",
        "A4 05 05 00 80 01 02",
        "A1 03 02 01 01",
        "A2 81 03 02 01 01",
    ] {
        assert_eq!(read_answer(&common::octets(octets)), None, "{octets}");
    }
}

#[test]
fn an_end_reads_back_from_its_plain_record() {
    let mut random = Random::seeded(33);
    for _ in 0..300 {
        let profile = made::profile(&mut random);
        let record = second::end_cases::ends_at_random::any(&mut random, &profile);
        let end = record.read().expect("good");
        let plain = EndRecord::of(&end);
        assert_eq!(plain.read(), Ok(end));
        assert_eq!(EndRecord::of_octets(&plain.octets()), Some(plain));
        assert_eq!(EndRecord::of_octets(&record.octets()), Some(record));
    }
}

#[test]
fn hexadecimal_is_upper_case_in_pairs() {
    assert_eq!(read(""), Some(vec![]));
    assert_eq!(read("00FFA1"), Some(vec![0, 0xFF, 0xA1]));
    let all: Vec<u8> = (0..=255).collect();
    assert_eq!(read(&joined(&all)), Some(all));
    for text in ["0", "0a", "0G", "00 00", "+1", "ÄÄ"] {
        assert_eq!(read(text), None, "{text}");
    }
}
