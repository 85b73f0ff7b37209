//! Cases for another program, one a line: lists for the exchange to write and components for an
//! end to read, each with the output expected.

use std::ops::Range;

use crate::answer::{read_error, read_list, read_reply, write_entry, Answer, Entry, ReplyKind};
use crate::codes::{PROCEDURES, PUBLIC_TYPES, SERVICES};
use crate::numbers::{Address, Number, Subaddress, PUBLIC, UNKNOWN};
use crate::random::Random;
use crate::recoded::recoded;
use crate::records::{write_address_record, write_number_record, ADDRESS_OCTETS, NUMBER_OCTETS};
use crate::table::MOST_INSTANCES;
use crate::unusual_replies::unusual_replies;

/// The identifier of the interrogation that is outstanding at the end.
const OUTSTANDING: i32 = 5;
const IDENTIFIERS: [i32; 12] = [
    1, 0, 127, 128, 255, 256, 300, 32_767, -1, -128, -129, -32_768,
];
const DIGIT_COUNTS: [usize; 5] = [1, 5, 15, 19, 20];
const SUBADDRESS_COUNTS: [usize; 4] = [0, 20, 1, 19];
/// Unknown form, then public form of each type.
const KINDS: usize = 1 + PUBLIC_TYPES.len();

/// Lengths of a list's contents that put the component's, the sequence's and the list's own
/// length on both sides of 127/128 (two entries) and 255/256 (three), with these identifiers.
const EDGES: [[usize; 8]; 2] = [
    [116, 117, 117, 118, 122, 123, 127, 128],
    [242, 243, 243, 244, 249, 250, 255, 256],
];
const EDGE_IDENTIFIERS: [i32; 8] = [128, -129, 127, -128, 1, 300, 256, -1];

/// Each input line with its output line; always the same ones.
pub fn list_cases() -> Vec<(String, String)> {
    let mut random = Random::seeded(11);
    let mut cases: Vec<(String, String)> = Vec::new();
    for (identifier, entries) in lists_to_write(&mut random) {
        let [.., high, low] = identifier.to_be_bytes();
        let records = spaced(&[vec![high, low], records(&entries)].concat());
        let written = spaced(&written(identifier, &entries));
        let expected = format!("{} room ..", written.trim_start());
        cases.push((format!("list-write{records}"), expected));
    }
    for component in good_codings(&mut random)
        .into_iter()
        .chain(unusual_replies())
    {
        let line = format!("list-read{}", spaced(&component));
        if cases.iter().all(|(input, _)| *input != line) {
            cases.push((line, said(&component)));
        }
    }
    cases
}

fn spaced(octets: &[u8]) -> String {
    octets.iter().map(|octet| format!(" {octet:02X}")).collect()
}

fn records(entries: &[Entry]) -> Vec<u8> {
    entries.iter().flat_map(record).collect()
}

/// The entry's number, service, procedure and address.
fn record(entry: &Entry) -> Vec<u8> {
    let mut number = vec![0; NUMBER_OCTETS];
    write_number_record(&mut number, &entry.number);
    let mut address = vec![0; ADDRESS_OCTETS];
    write_address_record(&mut address, &entry.address);
    // Codes read from one octet go back to it, -128 to 80.
    let codes = vec![entry.service as u8, entry.procedure as u8];
    [number, codes, address].concat()
}

fn written(identifier: i32, entries: &[Entry]) -> Vec<u8> {
    let entries = entries.to_vec();
    let list = Answer::List {
        identifier,
        entries,
    };
    list.written()
}

/// What a component says to the end, before the profile is looked at.
fn said(component: &[u8]) -> String {
    let reply = read_reply(component).filter(|reply| reply.identifier == OUTSTANDING);
    let Some(reply) = reply else {
        return "dropped".to_string();
    };
    let read = match reply.kind {
        ReplyKind::Reject => Some("rejected".to_string()),
        ReplyKind::Error => read_error(reply.after).map(|value| format!("failed {value}")),
        ReplyKind::Result => read_list(reply.after)
            .filter(|entries| entries.len() <= MOST_INSTANCES)
            .filter(|entries| entries.iter().all(|entry| entry.address.good()))
            .map(|entries| format!("list{}", spaced(&records(&entries)))),
    };
    read.unwrap_or_else(|| "wrong".to_string())
}

fn lists_to_write(random: &mut Random) -> Vec<(i32, Vec<Entry>)> {
    let mut lists = IDENTIFIERS.map(|identifier| (identifier, vec![])).to_vec();
    for kind in 0..KINDS {
        for digits in DIGIT_COUNTS {
            let place = lists.len();
            let subaddress = SUBADDRESS_COUNTS[place % SUBADDRESS_COUNTS.len()];
            let mut one = list_of(random, 1, kind..kind + 1, &[digits], &[subaddress]);
            one[0].address.number = number(random, 0..KINDS, &DIGIT_COUNTS);
            lists.push((IDENTIFIERS[place % IDENTIFIERS.len()], one));
        }
    }
    for (edges, (count, kinds)) in EDGES.iter().zip([(2, 0..KINDS), (3, 1..KINDS)]) {
        for (length, identifier) in edges.iter().zip(EDGE_IDENTIFIERS) {
            let longest = list_of(random, count, kinds.clone(), &[20], &[20]);
            lists.push((identifier, shortened(random, longest, *length)));
        }
    }
    for count in [2, 3, 4, 5, 6, 7, 8].repeat(3) {
        let identifier = random.one_of(&IDENTIFIERS);
        lists.push((identifier, any_list(random, count)));
    }
    lists.push((1, list_of(random, 8, 0..1, &[5], &[0])));
    lists.push((32_767, list_of(random, 8, 1..KINDS, &[20], &[20])));
    // Two entries without a subaddress, which none of the above is.
    let random = &mut Random::seeded(12);
    lists.push((1, list_of(random, 2, 0..KINDS, &DIGIT_COUNTS, &[0])));
    lists
}

fn any_list(random: &mut Random, count: usize) -> Vec<Entry> {
    list_of(random, count, 0..KINDS, &DIGIT_COUNTS, &SUBADDRESS_COUNTS)
}

/// Entries of one procedure, their numbers of these kinds and digit counts.
fn list_of(
    random: &mut Random,
    count: usize,
    kinds: Range<usize>,
    digits: &[usize],
    subaddresses: &[usize],
) -> Vec<Entry> {
    let procedure = random.one_of(&PROCEDURES);
    let entries = (0..count).map(|_| {
        let octets = random.pick(subaddresses).copied().unwrap_or(0);
        let octets: Vec<u8> = (0..octets).map(|_| random.octet()).collect();
        let subaddress = match octets[..] {
            [] => Subaddress::Absent,
            _ => Subaddress::Octets(octets),
        };
        Entry {
            number: number(random, kinds.clone(), digits),
            service: random.one_of(&SERVICES),
            procedure,
            address: Address {
                number: number(random, kinds.clone(), digits),
                subaddress,
            },
        }
    });
    entries.collect()
}

fn number(random: &mut Random, kinds: Range<usize>, digits: &[usize]) -> Number {
    let kind = kinds.start + random.below(kinds.len());
    let count = random.pick(digits).copied().unwrap_or(1);
    let public_type = kind.checked_sub(1).and_then(|at| PUBLIC_TYPES.get(at));
    Number {
        form: public_type.map_or(UNKNOWN, |_| PUBLIC),
        number_type: public_type.copied().unwrap_or(0),
        digits: (0..count).map(|_| b'0' + random.below(10) as u8).collect(),
    }
}

/// Digits and subaddress octets taken off until the list's contents have this length.
fn shortened(random: &mut Random, mut entries: Vec<Entry>, length: usize) -> Vec<Entry> {
    while entries.iter().flat_map(write_entry).count() > length {
        let at = random.below(entries.len());
        let entry = &mut entries[at];
        let part = match (random.below(3), &mut entry.address.subaddress) {
            (0, Subaddress::Octets(octets)) => octets,
            (1, _) => &mut entry.address.number.digits,
            _ => &mut entry.number.digits,
        };
        part.truncate(part.len().saturating_sub(1).max(1));
    }
    entries
}

/// Lists of up to eight entries, in several orders and codings, and of nine.
fn good_codings(random: &mut Random) -> Vec<Vec<u8>> {
    let mut lists: Vec<_> = (0..=9).map(|count| any_list(random, count)).collect();
    for at in [2, 8] {
        lists.push(lists[at].iter().rev().cloned().collect());
        lists.push(vec![lists[at][0].clone(); at]);
    }
    for count in [8, 9] {
        lists.push(list_of(random, count, 0..1, &[5], &[0]));
        lists.push(list_of(random, count, 1..KINDS, &[20], &[20]));
    }
    let mut components: Vec<_> = lists
        .iter()
        .map(|list| written(OUTSTANDING, list))
        .collect();
    for codings in [&[1][..], &[2], &[0, 1, 2]] {
        for at in [1, 4, 8] {
            components.push(recoded(random, &components[at].clone(), codings));
        }
    }
    components
}
