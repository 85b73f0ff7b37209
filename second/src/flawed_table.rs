//! Table records with one flaw, made from a good table: any count, and any octets in any place.

use crate::codes::{PROCEDURES, SERVICES};
use crate::full_tables::{longest_table, nine_of_a_procedure};
use crate::made;
use crate::profile::{Profile, MOST_NUMBERS};
use crate::random::Random;
use crate::sheet_fields::Field;
use crate::spoiled::spoil_number;
use crate::table::{Table, MOST_INSTANCES};
use crate::table_flaws::Flaw;
use crate::table_record::{
    key_at, place, Place, TableRecord, DIGIT_COUNT, NUMBER, PLACES, PLACE_OCTETS, PROCEDURE,
    SERVICE, SUBADDRESS_COUNT,
};

/// `None` where the profile, or the good table, has no room for this flaw.
pub fn with(
    random: &mut Random,
    profile: &Profile,
    good: &Table,
    flaw: Flaw,
) -> Option<TableRecord> {
    let mut record = TableRecord::of(good);
    match flaw {
        Flaw::LastTooLarge => record.last = random.one_of(&[32_768, 40_000, 65_535]),
        Flaw::CountTooLarge => {
            let full = random.once_in(2).then(|| longest_table(random, profile));
            record = full.flatten().map_or(record, |full| TableRecord::of(&full));
            record.count = random.one_of(&[25, 25, 26, 48, 128, 255]);
        }
        Flaw::BlankCounted => {
            let blank = record.uncounted().len();
            record.count += 1 + random.below(blank) as u8;
            record.counted()?;
        }
        Flaw::NineOfAProcedure => {
            let mut table = nine_of_a_procedure(random, profile, good)?;
            // The others come first: with sixteen of them, one has no place.
            table
                .instances
                .drain(..table.instances.len().saturating_sub(PLACES));
            record = TableRecord::of(&table);
        }
        Flaw::Octets => {
            record.last = random.draw() as u16;
            record.count = 1 + random.below(255) as u8;
            let octets = record.places.as_flattened_mut();
            octets.fill_with(|| random.octet());
            octets[DIGIT_COUNT] |= 0x80;
        }
        Flaw::OneOctet => change_octet(random, &mut record),
        _ => {
            let mut run = record.counted()?.to_vec();
            spoil_run(random, profile, &mut run, flaw)?;
            record = TableRecord::holding(record.last, &run);
        }
    }
    Some(record)
}

/// Flaws of one instance, or of two that stand together.
fn spoil_run(
    random: &mut Random,
    profile: &Profile,
    run: &mut Vec<Place>,
    flaw: Flaw,
) -> Option<()> {
    let at = random.below(run.len());
    let one = run.get_mut(at)?;
    match flaw {
        Flaw::Range(field) => {
            one[octet_of(field)] = out_of_range(random, field);
            run.sort_by_key(key_at);
        }
        Flaw::NotTheProfiles(field) => {
            one[octet_of(field)] = *random.pick(&not_the_profiles(profile, field))? as u8;
            run.sort_by_key(key_at);
        }
        Flaw::ForwardedTo => {
            let mut bad = made::address(random);
            spoil_number(random, &mut bad.number);
            let (procedure, number, service) = key_at(one);
            *one = place(procedure, number, service, &bad);
        }
        Flaw::Subaddress => one[SUBADDRESS_COUNT] = random.one_of(&[21, 22, 128, 255]),
        Flaw::EqualNeighbours => repeat(random, run, at)?,
        Flaw::Descends(field) => {
            let pairs = run.windows(2).enumerate();
            let pairs = pairs.filter(|(_, pair)| {
                first_difference(key_at(&pair[0]), key_at(&pair[1])) == Some(field)
            });
            let pairs: Vec<usize> = pairs.map(|(at, _)| at).collect();
            let at = *random.pick(&pairs)?;
            run.swap(at, at + 1);
        }
        _ => return None,
    }
    Some(())
}

/// The same procedure, number and service again; half of the time the same address as well.
fn repeat(random: &mut Random, run: &mut Vec<Place>, at: usize) -> Option<()> {
    let mut again = *run.get(at)?;
    if random.once_in(2) {
        let (procedure, number, service) = key_at(&again);
        again = place(procedure, number, service, &made::address(random));
    }
    let others = run.iter().filter(|one| one[PROCEDURE] == again[PROCEDURE]);
    let room = run.len() < PLACES && others.count() < MOST_INSTANCES;
    run.insert(at, again);
    room.then_some(())
}

fn octet_of(field: Field) -> usize {
    match field {
        Field::Procedure => PROCEDURE,
        Field::Index => NUMBER,
        _ => SERVICE,
    }
}

fn out_of_range(random: &mut Random, field: Field) -> u8 {
    match field {
        Field::Procedure => random.one_of(&[3, 4, 127, 128, 255]),
        Field::Index => random.one_of(&[4, 5, 127, 128, 255]),
        _ => random.one_of(&[0, 6, 31, 43, 128, 255]),
    }
}

/// Procedures, numbers or services that are good by themselves, but not the profile's.
pub fn not_the_profiles(profile: &Profile, field: Field) -> Vec<i32> {
    match field {
        Field::Procedure => {
            let others = PROCEDURES.into_iter();
            others.filter(|code| !profile.subscribes(*code)).collect()
        }
        Field::Index => {
            let others = profile.numbers.len()..MOST_NUMBERS;
            others.map(|index| index as i32).collect()
        }
        _ => {
            let others = SERVICES.into_iter();
            others.filter(|code| !profile.has_service(*code)).collect()
        }
    }
}

/// The first of procedure, number and service in which two instances differ.
pub fn first_difference<T: PartialEq>(former: (T, T, T), latter: (T, T, T)) -> Option<Field> {
    if former.0 != latter.0 {
        Some(Field::Procedure)
    } else if former.1 != latter.1 {
        Some(Field::Index)
    } else {
        (former.2 != latter.2).then_some(Field::Service)
    }
}

/// Values at the edges of what the octets of a record may hold.
const EDGES: [u8; 12] = [0, 1, 2, 3, 4, 20, 21, 24, 25, b'0', b':', 255];

/// The count, or an octet of the run up to the first place past the count.
fn change_octet(random: &mut Random, record: &mut TableRecord) {
    let (edge, any) = (random.one_of(&EDGES), random.octet());
    let octet = random.one_of(&[edge, any]);
    if random.once_in(4) {
        record.count = octet;
    } else {
        let places = (usize::from(record.count) + 1).min(PLACES);
        let at = random.below(places * PLACE_OCTETS);
        record.places.as_flattened_mut()[at] = octet;
    }
}
