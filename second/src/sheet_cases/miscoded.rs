//! Sheets with right fields but wrong octets.

use crate::random::Random;
use crate::sheet::{groups, written};
use crate::sheet_fields::{Field, SheetFields};

use super::faults::Fault;

const MORE_FOLLOW: u8 = 0x80;

/// `None` where the sheet has no such field.
pub fn with(random: &mut Random, sheet: &SheetFields, fault: Fault) -> Option<Vec<u8>> {
    let mut octets = written(sheet);
    match fault {
        Fault::NotShortest(field) => return with_groups(random, sheet, field, not_shortest),
        Fault::ManyGroups(field) => return with_groups(random, sheet, field, many_groups),
        Fault::Cut => octets.truncate(1 + random.below(octets.len() - 1)),
        Fault::AfterTheEnd => {
            let more = random.one_of(&[1, 1, 2, 20]);
            octets.extend((0..more).map(|_| random.octet()));
        }
        _ => octets.clear(),
    }
    Some(octets)
}

/// One field of this kind with other groups.
fn with_groups(
    random: &mut Random,
    sheet: &SheetFields,
    wanted: Field,
    change: fn(&mut Random, &mut Vec<u8>),
) -> Option<Vec<u8>> {
    let fields = sheet.in_order();
    let places: Vec<usize> = (0..fields.len())
        .filter(|at| fields[*at].0 == wanted)
        .collect();
    let changed = *random.pick(&places)?;
    let mut coded: Vec<Vec<u8>> = fields.iter().map(|(_, value)| groups(*value)).collect();
    change(random, &mut coded[changed]);
    Some(coded.concat())
}

/// The same number with a last group of zero.
fn not_shortest(random: &mut Random, octets: &mut Vec<u8>) {
    let groups = octets.len() + random.one_of(&[1, 1, 2, 8, 9, 10]);
    lengthen(octets, groups, 0);
}

/// At least 2 to the 21st is added, which is past every field's range.
fn many_groups(random: &mut Random, octets: &mut Vec<u8>) {
    let groups = random.one_of(&[4, 5, 9, 10, 11, 19, 40]);
    let last = random.one_of(&[1, 2, 0x10, 0x7F]);
    lengthen(octets, groups, last);
}

/// Up to so many groups, those added of zero but the last.
fn lengthen(octets: &mut Vec<u8>, groups: usize, last: u8) {
    if let Some(end) = octets.last_mut() {
        *end |= MORE_FOLLOW;
    }
    octets.resize(groups - 1, MORE_FOLLOW);
    octets.push(last);
}
