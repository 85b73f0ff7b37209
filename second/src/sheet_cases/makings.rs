//! The ways a sheet is made for a case.

use crate::codes::SERVICES;
use crate::full_tables::longest_table;
use crate::made;
use crate::numbers::Number;
use crate::profile::Profile;
use crate::random::Random;
use crate::sheet::{groups, written};
use crate::sheet_fields::{Field, SheetFields};

use super::faults::Fault;
use super::faulty;

#[derive(Clone, Copy, Debug, PartialEq, Eq)]
pub enum Making {
    /// Of a good table of this profile.
    Good,
    /// As long as a sheet of this profile may be.
    Longest,
    OtherProfile,
    /// Good by form, of any of the sixteen services and every number index.
    FormAlone,
    /// One fault, so refused for certain.
    Faulty(Fault),
    /// One field with another value, which may be a good one.
    Changed(Field),
    PutIn,
    LeftOut,
    /// One bit turned over.
    Turned,
    Octets,
    /// What this program has just written.
    JustWritten,
}

pub type Made = (Making, Vec<u8>);

/// A sheet of any making but `JustWritten`.
pub fn any(random: &mut Random, profile: &Profile) -> Made {
    match random.below(40) {
        0..=5 => (Making::Good, good(random, profile)),
        6 => match longest_table(random, profile) {
            Some(table) => (Making::Longest, written(&SheetFields::of(&table))),
            None => (Making::Good, good(random, profile)),
        },
        7..=9 => {
            let other = made::profile(random);
            (Making::OtherProfile, good(random, &other))
        }
        10 => (Making::FormAlone, good(random, &of_every_service(profile))),
        11..=27 => {
            let (fault, sheet) = faulty::any(random, profile);
            (Making::Faulty(fault), sheet)
        }
        28..=33 => changed(random, profile),
        34..=37 => damaged(random, profile),
        _ => (Making::Octets, octets(random)),
    }
}

pub fn good(random: &mut Random, profile: &Profile) -> Vec<u8> {
    written(&SheetFields::of(&made::table(random, profile)))
}

/// No profile could be so: every number index, every service, every procedure.
fn of_every_service(profile: &Profile) -> Profile {
    Profile {
        numbers: ["1", "2", "3", "4"].map(Number::unknown).to_vec(),
        services: SERVICES.to_vec(),
        subscribed: [1, 1, 1],
        ..profile.clone()
    }
}

/// Values at the edges of every field's range.
const VALUES: [u64; 27] = [
    0,
    1,
    2,
    3,
    4,
    5,
    6,
    7,
    8,
    9,
    10,
    19,
    20,
    21,
    31,
    32,
    42,
    43,
    48,
    127,
    128,
    255,
    256,
    32_767,
    32_768,
    65_536,
    4_294_967_297,
];

fn changed(random: &mut Random, profile: &Profile) -> Made {
    let table = made::table(random, profile);
    let mut fields = SheetFields::of(&table).in_order();
    let at = random.below(fields.len());
    let (kind, value) = &mut fields[at];
    *value = match random.below(4) {
        0 => value.wrapping_add(1),
        1 => value.saturating_sub(1),
        _ => random.one_of(&VALUES),
    };
    let kind = *kind;
    let coded = fields.into_iter().flat_map(|(_, value)| groups(value));
    (Making::Changed(kind), coded.collect())
}

/// One octet put in, left out, or with a bit turned over.
fn damaged(random: &mut Random, profile: &Profile) -> Made {
    let mut sheet = good(random, profile);
    let at = random.below(sheet.len());
    match random.below(3) {
        0 => {
            sheet.insert(at, random.one_of(&[0, 1, 2, 5, 0x7F, 0x80, 0xFF]));
            (Making::PutIn, sheet)
        }
        1 => {
            sheet.remove(at);
            (Making::LeftOut, sheet)
        }
        _ => {
            sheet[at] ^= 1 << random.below(8);
            (Making::Turned, sheet)
        }
    }
}

/// Half of them begin as a sheet does; small octets are good ones in many places.
fn octets(random: &mut Random) -> Vec<u8> {
    let length = random.one_of(&[1, 3, 12, 60, 300, 2_000]);
    let most = random.one_of(&[2, 10, 128, 256]);
    let begun = random.one_of(&[&[][..], &[1, 0, 1]]);
    let octets = (0..length).map(|_| random.below(most) as u8);
    let mut octets: Vec<u8> = begun.iter().copied().chain(octets).collect();
    octets.truncate(2_000);
    octets
}
