//! The ways a component is made that arrives at the end.

use crate::answer::{Answer, Problem, TAG_ERROR, TAG_REJECT, TAG_RESULT};
use crate::damaged::Dissected;
use crate::elements::{element, integer};
use crate::end_record::EndRecord;
use crate::loose::{self, near, scratched};
use crate::loose_parts::octets;
use crate::profile::Profile;
use crate::random::Random;
use crate::recoded::recoded;
use crate::request::TAG_INVOKE;

use super::bad_lists::{self, ListFault, LIST_FAULTS};
use super::shapes::{self, Shape, SHAPES};
use super::waiting::Waiting;

#[derive(Clone, Copy, Debug, PartialEq, Eq)]
pub enum Making {
    /// What the exchange said over the path.
    Path,
    Result,
    Error,
    Reject,
    WrongShape(Shape),
    BadList(ListFault),
    /// Needless lengths.
    Recoded,
    OtherIdentifier,
    NullIdentifier,
    BadIdentifier,
    OtherTag,
    Loose,
    Octets,
    Scratched,
    Damaged,
    CutInside,
    Replaced,
    /// A reject of this size, or no octets.
    Sized(usize),
}

pub type Made = (Making, Vec<u8>);

/// For the request that is outstanding, or else for the last one.
fn awaited(end: &EndRecord) -> Waiting {
    let mut open = end.clone();
    open.outstanding = 1;
    Waiting::at(&open).unwrap_or(Waiting {
        identifier: 0,
        operation: 0,
        procedure: 0,
    })
}

/// One component of any making that stands alone.
pub fn any(random: &mut Random, profile: &Profile, end: &EndRecord) -> Made {
    let waiting = awaited(end);
    match random.below(25) {
        0..=4 => good(random, profile, &waiting),
        5..=8 => wrong_shape(random, &waiting),
        9..=12 => bad_list(random, profile, &waiting),
        13 | 14 => {
            let (_, written) = good(random, profile, &waiting);
            (Making::Recoded, recoded(random, &written, &[0, 1, 2]))
        }
        15 | 16 => misdirected(random, profile, &waiting),
        17 => {
            let (_, mut written) = good(random, profile, &waiting);
            written[0] = random.one_of(&[TAG_INVOKE, TAG_INVOKE, 0xA0, 0xA5, 0x30, 0x82, 0xBF]);
            (Making::OtherTag, written)
        }
        18..=20 => (Making::Loose, loose_reply(random, profile, end)),
        21 => (Making::Octets, octets(random)),
        22 => {
            let (_, written) = good(random, profile, &waiting);
            (Making::Scratched, scratched(random, written))
        }
        _ => sized(random, &waiting),
    }
}

/// A result, an error or a reject as an exchange could write it.
pub fn good(random: &mut Random, profile: &Profile, waiting: &Waiting) -> Made {
    let (making, answer) = match random.below(6) {
        0 => (Making::Error, waiting.error(random)),
        1 => (Making::Reject, waiting.reject(random)),
        _ => (Making::Result, waiting.result(random, profile)),
    };
    (making, answer.written())
}

fn wrong_shape(random: &mut Random, waiting: &Waiting) -> Made {
    loop {
        let shape = random.pick(&SHAPES).map(|(shape, _)| *shape);
        let made = shape.and_then(|shape| {
            let made = shapes::with(random, waiting, &shape)?;
            Some((Making::WrongShape(shape), made))
        });
        if let Some(made) = made {
            return made;
        }
    }
}

/// A good reply where the request or the profile has no room for the fault.
fn bad_list(random: &mut Random, profile: &Profile, waiting: &Waiting) -> Made {
    let fault = random.pick(&LIST_FAULTS).map(|(fault, _)| *fault);
    let made = fault.and_then(|fault| {
        let made = bad_lists::with(random, profile, waiting, fault)?;
        Some((Making::BadList(fault), made))
    });
    made.unwrap_or_else(|| good(random, profile, waiting))
}

/// A good reply, but not for the identifier.
fn misdirected(random: &mut Random, profile: &Profile, waiting: &Waiting) -> Made {
    let mut other = *waiting;
    match random.below(3) {
        0 => {
            other.identifier = near(random, waiting.identifier);
            let (_, written) = good(random, profile, &other);
            (Making::OtherIdentifier, written)
        }
        1 => {
            let reject = Answer::Reject {
                identifier: None,
                problem: Problem::General(random.one_of(&[0, 1, 2])),
            };
            (Making::NullIdentifier, reject.written())
        }
        _ => {
            let [.., high, low] = waiting.identifier.to_be_bytes();
            let bad = [
                vec![],
                vec![0x02, 0x00],
                vec![0x02, 0x03, 0x00, high, low],
                vec![0x0A, 0x01, low],
                vec![0x02, 0x02, low],
                vec![0x82, 0x01, low],
            ];
            let bad = random.pick(&bad).cloned().unwrap_or_default();
            let tag = random.one_of(&[TAG_RESULT, TAG_ERROR, TAG_REJECT]);
            (Making::BadIdentifier, element(tag, &bad))
        }
    }
}

fn loose_reply(random: &mut Random, profile: &Profile, end: &EndRecord) -> Vec<u8> {
    match end.read() {
        Ok(end) => loose::reply(random, profile, &end),
        Err(_) => octets(random),
    }
}

/// A reject's shape is not looked at, so its size alone decides.
fn sized(random: &mut Random, waiting: &Waiting) -> Made {
    let size: usize = random.one_of(&[0, 1_023, 1_024, 1_024, 1_025, 1_026]);
    let identifier = integer(waiting.identifier);
    // The outer tag and a length of three octets.
    let filling = size.saturating_sub(4 + identifier.len());
    let mut component = element(TAG_REJECT, &[identifier, vec![0xFF; filling]].concat());
    component.truncate(size);
    (Making::Sized(component.len()), component)
}

/// Elements that are right in few places.
const ODD_ELEMENTS: [&[u8]; 12] = [
    &[0x02, 0x00],
    &[0x02, 0x01, 0x07],
    &[0x02, 0x02, 0x00, 0x0B],
    &[0x05, 0x00],
    &[0x0A, 0x01, 0x03],
    &[0x0A, 0x01, 0xFF],
    &[0x80, 0x01, 0x3A],
    &[0x82, 0x81, 0x00],
    &[0xA1, 0x06, 0x0A, 0x01, 0x05, 0x12, 0x01, 0x37],
    &[0x30, 0x00],
    &[0xC0, 0x00],
    &[0x1F, 0x00],
];

/// The longest reply whose every length is of one octet.
const SHORT: usize = 129;

/// A short good list or an error, damaged in every place in one of three ways.
pub fn sweep(random: &mut Random, profile: &Profile, waiting: &Waiting) -> (Making, Vec<Vec<u8>>) {
    let mut written = waiting.result(random, profile).written();
    while written.len() > SHORT {
        written = waiting.result(random, profile).written();
    }
    if random.once_in(6) {
        written = waiting.error(random).written();
    }
    let whole = Dissected::of(written);
    match random.below(3) {
        0 => (Making::Damaged, whole.damaged()),
        1 => (Making::CutInside, whole.cut_inside()),
        _ => {
            let odd = (0..3).filter_map(|_| random.pick(&ODD_ELEMENTS));
            let replaced = odd.flat_map(|odd| whole.each_replaced(odd));
            (Making::Replaced, replaced.collect())
        }
    }
}
