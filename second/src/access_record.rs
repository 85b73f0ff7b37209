//! The access record: a profile in 447 octets.

use crate::codes::place;
use crate::numbers::Number;
use crate::profile::Profile;
use crate::records::{
    octet, read_counted, read_number_record, write_counted, write_number_record, NUMBER_OCTETS,
};
use crate::refusal::Refusal;

pub const ACCESS_OCTETS: usize = 447;

/// Where the fields stand.
pub const NUMBER_COUNT: usize = 0;
pub const NUMBERS: usize = 1;
pub const SERVICE_COUNT: usize = 93;
pub const SUBSCRIBED: usize = 100;
pub const PREFIX_COUNT: usize = 110;
pub const PREFIXES: usize = 111;
/// A count and 20 places for digits.
pub const PREFIX_OCTETS: usize = 21;

/// The record with zeros in every place that carries no meaning.
pub fn access_record(profile: &Profile) -> Vec<u8> {
    let mut record = vec![0; ACCESS_OCTETS];
    write_access(&mut record, profile);
    record
}

/// Writes over a record of 447 octets; places past a count stay as they were.
pub fn write_access(record: &mut [u8], profile: &Profile) {
    record[NUMBER_COUNT] = count_of(profile.numbers.len());
    let numbers = record[NUMBERS..SERVICE_COUNT].chunks_mut(NUMBER_OCTETS);
    for (place, number) in numbers.zip(&profile.numbers) {
        write_number_record(place, number);
    }
    let services: Vec<u8> = profile.services.iter().map(|code| octet(*code)).collect();
    write_counted(&mut record[SERVICE_COUNT..SUBSCRIBED], &services);
    let [cfu, cfb, cfnr] = profile.subscribed;
    let values = [
        cfu,
        cfb,
        cfnr,
        profile.msn,
        profile.all_numbers,
        profile.in_use,
        profile.counted,
        profile.notification,
        profile.release_own_number,
        profile.diversion_limit,
    ];
    record[SUBSCRIBED..PREFIX_COUNT].copy_from_slice(&values.map(octet));
    record[PREFIX_COUNT] = count_of(profile.prefixes.len());
    let prefixes = record[PREFIXES..].chunks_mut(PREFIX_OCTETS);
    for (place, digits) in prefixes.zip(&profile.prefixes) {
        write_counted(place, digits);
    }
}

fn count_of(length: usize) -> u8 {
    u8::try_from(length).unwrap_or(u8::MAX)
}

/// The profile, its rules not yet judged; refusal 3 for another size, or a count past its places.
pub fn read_access(record: &[u8]) -> Result<Profile, Refusal> {
    let whole = <&[u8; ACCESS_OCTETS]>::try_from(record).ok();
    whole.and_then(read_whole).ok_or(Refusal::BadProfile)
}

fn read_whole(record: &[u8; ACCESS_OCTETS]) -> Option<Profile> {
    let services = read_counted(&record[SERVICE_COUNT..SUBSCRIBED])?;
    let values = record[SUBSCRIBED..PREFIX_COUNT].iter();
    let values: Vec<i32> = values.map(|value| i32::from(*value)).collect();
    let [cfu, cfb, cfnr, msn, all_numbers, in_use, counted, notification, release_own_number, diversion_limit] =
        values[..]
    else {
        return None;
    };
    Some(Profile {
        numbers: read_numbers(record)?,
        services: services.into_iter().map(i32::from).collect(),
        subscribed: [cfu, cfb, cfnr],
        msn,
        all_numbers,
        in_use,
        counted,
        notification,
        release_own_number,
        diversion_limit,
        prefixes: read_prefixes(record)?,
    })
}

fn read_numbers(record: &[u8; ACCESS_OCTETS]) -> Option<Vec<Number>> {
    let count = usize::from(record[NUMBER_COUNT]);
    let counted = record[NUMBERS..SERVICE_COUNT].get(..count * NUMBER_OCTETS)?;
    counted
        .chunks(NUMBER_OCTETS)
        .map(read_number_record)
        .collect()
}

/// A number's octets as they stand, places past its count included.
pub fn number_octets(record: &[u8], index: i32) -> Option<&[u8]> {
    let mut numbers = record.get(NUMBERS..SERVICE_COUNT)?.chunks(NUMBER_OCTETS);
    numbers.nth(place(index)?)
}

fn read_prefixes(record: &[u8; ACCESS_OCTETS]) -> Option<Vec<Vec<u8>>> {
    let count = usize::from(record[PREFIX_COUNT]);
    let counted = record[PREFIXES..].get(..count * PREFIX_OCTETS)?;
    counted.chunks(PREFIX_OCTETS).map(read_counted).collect()
}
