//! Reading what a program answers to lines of the exchange and of the end. What is lent must be
//! kept: a line that says `spilled` is of no form here.

use crate::end_line::EndAnswer;
use crate::end_record::EndRecord;
use crate::end_step::{EntryRecord, ENTRY_OCTETS};
use crate::hexadecimal::read;
use crate::profile::Profile;
use crate::records::{read_address_record, read_number_record, NUMBER_OCTETS};
use crate::table::Instance;
use crate::table_record::TableRecord;
use crate::transcript::Said;

/// The answer to a component, with the next table.
pub fn read_said(line: &str) -> Option<(Said, TableRecord)> {
    let words: Vec<&str> = line.split(' ').collect();
    let (said, table) = match words[..] {
        ["refused", number, "kept", "table", table] => (Said::Refused(refusal(number)?), table),
        ["silent", "kept", "table", table] => (Said::Silent, table),
        ["replied", octets, "kept", "table", table] => (Said::Replied(read(octets)?), table),
        _ => return None,
    };
    Some((said, TableRecord::of_octets(&read(table)?)?))
}

/// The answer to a line of the end, with the next end unless something is shown.
pub fn read_end_said(line: &str) -> Option<(EndAnswer, Option<EndRecord>)> {
    let words: Vec<&str> = line.split(' ').collect();
    if let [answer @ .., "kept", "end", end] = &words[..] {
        let end = EndRecord::of_octets(&read(end)?)?;
        return Some((read_done(answer)?, Some(end)));
    }
    let [shown @ .., "kept"] = &words[..] else {
        return None;
    };
    Some((read_shown(shown)?, None))
}

fn read_done(words: &[&str]) -> Option<EndAnswer> {
    match words {
        ["refused", number] => refusal(number).map(EndAnswer::Refused),
        ["sent", octets] => read(octets).map(EndAnswer::Sent),
        ["taken"] => Some(EndAnswer::Taken),
        ["gave-up"] => Some(EndAnswer::GaveUp),
        _ => None,
    }
}

fn read_shown(words: &[&str]) -> Option<EndAnswer> {
    match words {
        ["refused", number] => refusal(number).map(EndAnswer::Refused),
        ["doubt"] => Some(EndAnswer::Doubt),
        ["known", entries @ ..] => {
            let entries = entries.iter().map(|entry| read(entry)?.try_into().ok());
            entries.collect::<Option<_>>().map(EndAnswer::Known)
        }
        _ => None,
    }
}

/// As numbers are printed: without zeros before them.
fn refusal(number: &str) -> Option<u8> {
    let value: u8 = number.parse().ok()?;
    (value.to_string() == number).then_some(value)
}

/// The instance that an entry means; `None` where its number is none of the profile's.
pub fn instance_meant(profile: &Profile, entry: &EntryRecord) -> Option<Instance> {
    const ADDRESS: usize = NUMBER_OCTETS + 2;
    const _: () = assert!(ADDRESS < ENTRY_OCTETS);
    Some(Instance {
        procedure: i32::from(entry[NUMBER_OCTETS + 1]),
        number: profile.index_of(&read_number_record(&entry[..NUMBER_OCTETS])?)?,
        service: i32::from(entry[NUMBER_OCTETS]),
        address: read_address_record(&entry[ADDRESS..])?,
    })
}
