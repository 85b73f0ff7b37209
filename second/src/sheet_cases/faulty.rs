//! Sheets of a good table with one fault, and so refused 9 for certain.

use crate::flawed_table::{first_difference, not_the_profiles};
use crate::full_tables::nine_of_a_procedure;
use crate::made;
use crate::profile::Profile;
use crate::random::Random;
use crate::sheet::written;
use crate::sheet_fields::{Field, InstanceFields, SheetFields};

use super::faults::{Fault, FAULTS};
use super::miscoded;

/// Tables drawn before another fault is: most faults have a place in one of them.
const TRIES: usize = 20;

/// A fault of any kind.
pub fn any(random: &mut Random, profile: &Profile) -> (Fault, Vec<u8>) {
    loop {
        let (fault, _) = random.one_of(&FAULTS);
        let made = (0..TRIES).find_map(|_| with(random, profile, fault));
        if let Some(sheet) = made {
            return (fault, sheet);
        }
    }
}

/// `None` where the profile, or the table drawn, has no place for this fault.
pub fn with(random: &mut Random, profile: &Profile, fault: Fault) -> Option<Vec<u8>> {
    let table = made::table(random, profile);
    let mut sheet = SheetFields::of(&table);
    match fault {
        Fault::NotShortest(_)
        | Fault::ManyGroups(_)
        | Fault::Cut
        | Fault::AfterTheEnd
        | Fault::Empty => return miscoded::with(random, &sheet, fault),
        Fault::Range(Field::Form) => sheet.form = random.one_of(&[0, 2, 3, 128, 129, 257]),
        Fault::Range(Field::Last) => {
            sheet.last = random.one_of(&[32_768, 32_769, 65_535, 65_536, 98_304]);
        }
        Fault::CountTooSmall => {
            sheet.instances.first()?;
            sheet.count = random.below(sheet.instances.len()) as u64;
        }
        Fault::CountTooLarge => sheet.count += random.one_of(&[1, 2, 24, 128, 256, 65_536]),
        Fault::NineOfAProcedure => {
            sheet = SheetFields::of(&nine_of_a_procedure(random, profile, &table)?);
        }
        Fault::EqualNeighbours | Fault::Descends(_) => misorder(random, &mut sheet, fault)?,
        _ => {
            let at = random.below(sheet.instances.len());
            let one = sheet.instances.get_mut(at)?;
            match fault {
                Fault::NotTheProfiles(field) => leave_profile(random, profile, one, field)?,
                _ => spoil(random, one, fault)?,
            }
            // What no other instance has in its first three fields is put where it belongs.
            sheet.instances.sort_by_key(InstanceFields::key);
        }
    }
    Some(written(&sheet))
}

/// One field past its range, or fields that don't go together.
fn spoil(random: &mut Random, one: &mut InstanceFields, fault: Fault) -> Option<()> {
    match fault {
        Fault::Range(Field::Procedure) => one.procedure = random.one_of(&[3, 4, 127, 128, 257]),
        Fault::Range(Field::Index) => one.index = random.one_of(&[4, 5, 127, 128, 256]),
        Fault::ServiceZero => one.service = 0,
        Fault::Range(Field::Service) => one.service = random.one_of(&[6, 7, 31, 43, 128, 257]),
        Fault::Range(Field::NumberForm) => one.form = random.one_of(&[2, 3, 127, 128, 257]),
        Fault::TypeOfUnknown => {
            one.form = 0;
            one.number_type = random.one_of(&[1, 2, 3, 4, 6, 5, 256]);
        }
        Fault::Range(Field::Type) => {
            one.form = 1;
            one.number_type = random.one_of(&[5, 7, 8, 128, 256, 262]);
        }
        _ => return spoil_digits_or_octets(random, one, fault),
    }
    Some(())
}

fn spoil_digits_or_octets(
    random: &mut Random,
    one: &mut InstanceFields,
    fault: Fault,
) -> Option<()> {
    let too_many = random.one_of(&[21, 21, 22, 40, 128, 257]);
    match fault {
        Fault::NoDigits => set_digits(one, Vec::new()),
        Fault::Range(Field::DigitCount) => set_digits(one, vec![5; too_many]),
        Fault::Range(Field::Digit) => {
            let at = random.below(one.digits.len());
            *one.digits.get_mut(at)? = random.one_of(&[10, 11, 15, 16, 47, 58, 127, 128, 265]);
        }
        Fault::DigitCharacters => one
            .digits
            .iter_mut()
            .for_each(|digit| *digit += u64::from(b'0')),
        Fault::Range(Field::SubaddressLength) => {
            one.subaddress_length = too_many as u64;
            one.octets = vec![7; too_many];
        }
        Fault::Range(Field::Octet) => {
            let at = random.below(one.octets.len());
            *one.octets.get_mut(at)? = random.one_of(&[256, 257, 300, 511, 512, 16_384, 65_536]);
        }
        _ => return None,
    }
    Some(())
}

fn set_digits(one: &mut InstanceFields, digits: Vec<u64>) {
    one.digit_count = digits.len() as u64;
    one.digits = digits;
}

/// A value that is good by form, but not the profile's.
fn leave_profile(
    random: &mut Random,
    profile: &Profile,
    one: &mut InstanceFields,
    field: Field,
) -> Option<()> {
    let value = match field {
        Field::Procedure => &mut one.procedure,
        Field::Index => &mut one.index,
        _ => &mut one.service,
    };
    let others = not_the_profiles(profile, field);
    *value = random.pick(&others)?.unsigned_abs().into();
    Some(())
}

/// Neighbours made equal, or swapped where this field is the first in which they differ. Their
/// order towards the others stays right.
fn misorder(random: &mut Random, sheet: &mut SheetFields, fault: Fault) -> Option<()> {
    let differ = |pair: &[InstanceFields]| match fault {
        Fault::Descends(field) => first_difference(pair[0].key(), pair[1].key()) == Some(field),
        _ => true,
    };
    let pairs = sheet.instances.windows(2).enumerate();
    let places: Vec<usize> = pairs
        .filter(|(_, pair)| differ(pair))
        .map(|(at, _)| at)
        .collect();
    let at = *random.pick(&places)?;
    if fault == Fault::EqualNeighbours {
        let (procedure, index, service) = sheet.instances[at].key();
        let latter = &mut sheet.instances[at + 1];
        (latter.procedure, latter.index, latter.service) = (procedure, index, service);
    } else {
        sheet.instances.swap(at, at + 1);
    }
    Some(())
}
