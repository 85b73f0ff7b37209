//! Access and table records made at random: good ones, at times with rubbish in the places that
//! carry no meaning, and bad ones.

use crate::access_record::{write_access, ACCESS_OCTETS};
use crate::flawed_table;
use crate::made;
use crate::profile::Profile;
use crate::random::Random;
use crate::spoiled::spoil_profile;
use crate::table::{Instance, Table};
use crate::table_flaws::{Flaw, CERTAIN_FLAWS};
use crate::table_record::{
    place_of, Place, TableRecord, BLANK, DIGITS, DIGIT_COUNT, PLACE_OCTETS, SUBADDRESS,
    SUBADDRESS_COUNT,
};

pub fn access(random: &mut Random, profile: &Profile) -> Vec<u8> {
    let rubbish = random.once_in(3);
    let background = (0..ACCESS_OCTETS).map(|_| if rubbish { random.octet() } else { 0 });
    let mut record: Vec<u8> = background.collect();
    write_access(&mut record, profile);
    record
}

pub fn bad_access(random: &mut Random, profile: &Profile) -> Vec<u8> {
    let mut profile = profile.clone();
    if random.once_in(8) {
        let mut record = access(random, &profile);
        let size = random.one_of(&[0, 1, 446, 448, 512]);
        record.resize(size, 0);
        return record;
    }
    spoil_profile(random, &mut profile);
    access(random, &profile)
}

/// The record of a good table.
pub fn table(random: &mut Random, profile: &Profile, table: &Table) -> TableRecord {
    let mut record = TableRecord::of(table);
    scribble_at_times(random, profile, &mut record);
    record
}

/// A table with one flaw, refused 4 for certain.
pub fn bad_table(random: &mut Random, profile: &Profile, good: &Table) -> (Flaw, TableRecord) {
    loop {
        let flaw = random.pick(CERTAIN_FLAWS).map(|(flaw, _)| *flaw);
        let made = flaw.and_then(|flaw| Some((flaw, flawed(random, profile, good, flaw)?)));
        if let Some(made) = made {
            return made;
        }
    }
}

/// Mostly a bad table, at times one with an octet changed, which may leave it good.
pub fn thrown_table(random: &mut Random, profile: &Profile, good: &Table) -> (Flaw, TableRecord) {
    let changed = random.once_in(8).then_some(Flaw::OneOctet);
    let changed = changed.and_then(|flaw| Some((flaw, flawed(random, profile, good, flaw)?)));
    changed.unwrap_or_else(|| bad_table(random, profile, good))
}

/// Another good table is drawn where this one has no room for the flaw.
fn flawed(random: &mut Random, profile: &Profile, good: &Table, flaw: Flaw) -> Option<TableRecord> {
    let made = flawed_table::with(random, profile, good, flaw);
    let mut record = made.or_else(|| {
        let other = made::table(random, profile);
        flawed_table::with(random, profile, &other, flaw)
    })?;
    scribble_at_times(random, profile, &mut record);
    Some(record)
}

fn scribble_at_times(random: &mut Random, profile: &Profile, record: &mut TableRecord) {
    if random.once_in(3) {
        scribble(random, profile, record);
    }
}

/// Rubbish past the counts of the instances, and in places past the run's.
pub fn scribble(random: &mut Random, profile: &Profile, record: &mut TableRecord) {
    let count = usize::from(record.count);
    let counted = record.places.iter_mut().take(count);
    // A blank place that is counted stays blank.
    for place in counted.filter(|place| **place != BLANK) {
        fill_past_counts(random, place);
    }
    let others = made::instances(random, profile);
    let seldom = random.one_of(&[1, 4, 24]);
    fill_past_run(random, record, &others, seldom);
}

fn fill_past_counts(random: &mut Random, place: &mut Place) {
    let digits = DIGITS + usize::from(place[DIGIT_COUNT]);
    let octets = SUBADDRESS + usize::from(place[SUBADDRESS_COUNT]);
    for dead in [digits..SUBADDRESS_COUNT, octets..PLACE_OCTETS] {
        // Nothing is past a count that goes past its places.
        if let Some(dead) = place.get_mut(dead) {
            dead.fill_with(|| random.octet());
        }
    }
}

/// One in so many of the places past the count gets any octets, or one of these instances.
pub fn fill_past_run(
    random: &mut Random,
    record: &mut TableRecord,
    instances: &[Instance],
    seldom: usize,
) {
    let count = usize::from(record.count);
    for place in record.places.iter_mut().skip(count) {
        if random.once_in(seldom) {
            place.fill_with(|| random.octet());
            if let Some(instance) = random.pick(instances).filter(|_| random.once_in(2)) {
                *place = place_of(instance);
            }
        }
    }
}
