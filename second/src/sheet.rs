//! Night sheets: a table as numbers in groups of seven bits. Written and read against a profile,
//! or read by form alone.

use crate::codes::{is_procedure, is_service};
use crate::numbers::{Address, Number, Subaddress};
use crate::profile::Profile;
use crate::refusal::{require, write_into, Refusal, SHEET_OUTPUT};
use crate::sheet_fields::{SheetFields, FORM};
use crate::table::{few_enough, good_last, Instance, Table};

const MORE_FOLLOW: u8 = 0x80;
const GROUP: u8 = 0x7F;

/// Without a profile the number index runs from 0 to 3 (document 01, samples).
const MOST_INDEX: i32 = 3;

/// A value in groups of seven bits, lowest first, shortest.
pub fn groups(mut value: u64) -> Vec<u8> {
    let mut octets = Vec::new();
    loop {
        let group = (value & u64::from(GROUP)) as u8;
        value >>= 7;
        if value == 0 {
            octets.push(group);
            return octets;
        }
        octets.push(group | MORE_FOLLOW);
    }
}

/// Reads one number from the front of `octets`, which then begin after it. A value past every
/// field's range comes back as `u64::MAX`, so nothing wraps around (A67).
pub fn read_groups(octets: &mut &[u8]) -> Option<u64> {
    let mut value = 0;
    let mut shift = 0_u32;
    loop {
        let (&octet, rest) = octets.split_first()?;
        *octets = rest;
        let group = u64::from(octet & GROUP);
        if shift < 56 {
            value |= group << shift;
        } else if group != 0 {
            value = u64::MAX;
        }
        if octet & MORE_FOLLOW == 0 {
            // Shortest: the last group is non-zero unless alone.
            return (group != 0 || shift == 0).then_some(value);
        }
        shift = shift.saturating_add(7);
    }
}

/// Refusals 1, 3, 4.
pub fn write(output: &mut [u8], profile: &Profile, table: &Table) -> Result<usize, Refusal> {
    size_fits(output)?;
    profile.check()?;
    table.check(profile)?;
    Ok(write_into(output, &written(&SheetFields::of(table))))
}

/// Refusal 1, whatever the sheet's own length.
pub fn size_fits(output: &[u8]) -> Result<(), Refusal> {
    require(output.len() >= SHEET_OUTPUT, Refusal::OutputTooSmall)
}

/// Every field in groups, one after the other.
pub fn written(sheet: &SheetFields) -> Vec<u8> {
    let fields = sheet.in_order().into_iter();
    fields.flat_map(|(_, value)| groups(value)).collect()
}

/// Refusals 3, 9.
pub fn read(profile: &Profile, sheet: &[u8]) -> Result<Table, Refusal> {
    profile.check()?;
    let table = read_form(sheet)?;
    require(table.good(profile), Refusal::NotASheet)?;
    Ok(table)
}

/// By form alone: the rules that need no profile (A69). Refusal 9.
pub fn read_form(sheet: &[u8]) -> Result<Table, Refusal> {
    read_table(sheet).ok_or(Refusal::NotASheet)
}

fn read_table(mut sheet: &[u8]) -> Option<Table> {
    let octets = &mut sheet;
    if read_groups(octets)? != FORM {
        return None;
    }
    let last = read_field(octets)?;
    let count = read_groups(octets)?;
    let mut instances: Vec<Instance> = Vec::new();
    for _ in 0..count {
        instances.push(read_instance(octets)?);
    }
    let ascending = instances
        .windows(2)
        .all(|pair| pair[0].key() < pair[1].key());
    let good = good_last(last)
        && ascending
        && few_enough(&instances)
        && instances.iter().all(good_by_form)
        && octets.is_empty();
    good.then_some(Table { last, instances })
}

fn good_by_form(instance: &Instance) -> bool {
    is_procedure(instance.procedure)
        && (0..=MOST_INDEX).contains(&instance.number)
        && is_service(instance.service)
        && instance.address.good()
}

fn read_instance(octets: &mut &[u8]) -> Option<Instance> {
    Some(Instance {
        procedure: read_field(octets)?,
        number: read_field(octets)?,
        service: read_field(octets)?,
        address: Address {
            number: Number {
                form: read_field(octets)?,
                number_type: read_field(octets)?,
                digits: read_digits(octets)?,
            },
            subaddress: read_subaddress(octets)?,
        },
    })
}

/// A field; one past any range of document 01 is unreadable at once.
fn read_field(octets: &mut &[u8]) -> Option<i32> {
    i32::try_from(read_groups(octets)?).ok()
}

fn read_digits(octets: &mut &[u8]) -> Option<Vec<u8>> {
    let count = read_groups(octets)?;
    (0..count)
        .map(|_| match read_groups(octets)? {
            digit @ 0..=9 => Some(b'0' + digit as u8),
            _ => None,
        })
        .collect()
}

fn read_subaddress(octets: &mut &[u8]) -> Option<Subaddress> {
    let length = read_groups(octets)?;
    if length == 0 {
        return Some(Subaddress::Absent);
    }
    let held: Option<Vec<u8>> = (0..length)
        .map(|_| u8::try_from(read_groups(octets)?).ok())
        .collect();
    held.map(Subaddress::Octets)
}
