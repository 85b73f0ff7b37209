//! The ways a component is made for a case.

use crate::answer::{TAG_ERROR, TAG_REJECT, TAG_RESULT};
use crate::codes::SERVICES;
use crate::damaged::Dissected;
use crate::elements::integer;
use crate::filled::filled;
use crate::loose::{self, near};
use crate::loose_parts::{octets, Loose};
use crate::made;
use crate::numbers::{Address, Number, Subaddress};
use crate::profile::Profile;
use crate::random::Random;
use crate::recoded::recoded;
use crate::request::{Request, Served};

#[derive(Clone, Copy, Debug, PartialEq, Eq)]
pub enum Making {
    Valid,
    Growing,
    Loose,
    Recoded,
    /// A good request with skipped elements this deep.
    Nested(usize),
    TwoFaults,
    Octets,
    /// A good request under another outer tag.
    OtherTag,
    Damaged,
    CutInside,
    Replaced,
    /// A good request of this size, or no octets.
    Sized(usize),
}

pub type Made = (Making, Vec<u8>);

/// One component of any making that stands alone; `last` is the last handled identifier.
pub fn any(random: &mut Random, profile: &Profile, last: i32) -> Made {
    let request = made::request(random, profile);
    let identifier = near(random, last);
    match random.below(19) {
        0..=6 => (Making::Valid, request.written(identifier)),
        7..=10 => (Making::Loose, loose::component(random, profile, last)),
        11 => {
            let written = request.written(identifier);
            (Making::Recoded, recoded(random, &written, &[0, 1, 2]))
        }
        12 => {
            let depth = random.one_of(&[7, 8, 9]);
            let skipped = Loose {
                random,
                fault_rate: 0,
            }
            .nested(depth);
            (
                Making::Nested(depth),
                request.written_with(identifier, &skipped),
            )
        }
        13..=15 => (Making::TwoFaults, two_faults(random, profile, last)),
        16 => (Making::Octets, octets(random)),
        17 => {
            let mut component = request.written(identifier);
            component[0] = random.one_of(&[TAG_RESULT, TAG_ERROR, TAG_REJECT, 0xA0, 0xA5, 0x30]);
            (Making::OtherTag, component)
        }
        _ => sized(random, &request, identifier),
    }
}

fn sized(random: &mut Random, request: &Request, identifier: i32) -> Made {
    let size = random.one_of(&[0, 1_023, 1_024, 1_024, 1_025, 1_026]);
    let component = filled(request, identifier, size).unwrap_or_default();
    (Making::Sized(component.len()), component)
}

/// A request that lets a table grow: an activation mostly, the identifier always the next.
pub fn growing(random: &mut Random, profile: &Profile, procedure: i32, last: i32) -> Made {
    let service = made::asked_service(random, profile);
    let served = made::asked_number(random, profile);
    let choice = random.below(12);
    let request = made::no_activation(choice, procedure, service, &served).unwrap_or_else(|| {
        Request::Activation {
            procedure,
            service: random.pick(&profile.services).copied().unwrap_or(service),
            address: made::address(random),
            served,
        }
    });
    let next = last.saturating_add(1).min(32_767);
    (Making::Growing, request.written(next))
}

/// An activation with two faults of different rows, or twice the same.
fn two_faults(random: &mut Random, profile: &Profile, last: i32) -> Vec<u8> {
    let mut asked = Asked {
        identifier: last.saturating_add(1).min(32_767),
        operation: None,
        after: Vec::new(),
        procedure: random.between(0, 2),
        service: random.pick(&profile.services).copied().unwrap_or(1),
        address: made::address(random),
        served: Served::AllNumbers,
    };
    if let Some(number) = random.pick(&profile.numbers) {
        asked.served = Served::Individual(number.clone());
    }
    for _ in 0..2 {
        asked.spoil(random, profile, last);
    }
    asked.written()
}

/// An activation whose parts can be spoiled one by one.
struct Asked {
    identifier: i32,
    /// In place of an activation's.
    operation: Option<i32>,
    /// After the served number.
    after: Vec<u8>,
    procedure: i32,
    service: i32,
    address: Address,
    served: Served,
}

impl Asked {
    fn spoil(&mut self, random: &mut Random, profile: &Profile, last: i32) {
        let number = &mut self.address.number;
        match random.below(10) {
            0 => self.identifier = last,
            1 => self.operation = Some(random.one_of(&[0, 9, 10, 12, 300, -1])),
            2 => self.after = vec![0x05, 0x00],
            3 => self.served = Served::Individual(made::number(random)),
            4 => self.service = random.one_of(&SERVICES),
            5 => self.address.subaddress = Subaddress::UserSpecified,
            6 => *number = Number::other_kind(),
            7 => *number = Number::public(1, "0101010101010101"),
            8 => *number = made::forwarded_to(random, profile).number,
            _ => {
                if let Some(own) = random.pick(&profile.numbers) {
                    number.clone_from(own);
                    self.served = Served::Individual(own.clone());
                }
            }
        }
    }

    fn written(self) -> Vec<u8> {
        let request = Request::Activation {
            procedure: self.procedure,
            service: self.service,
            address: self.address,
            served: self.served,
        };
        let component = request.written_with(self.identifier, &self.after);
        match self.operation {
            Some(operation) => Dissected::of(component).replaced(OPERATION, &integer(operation)),
            None => component,
        }
    }
}

/// The place of the operation among a component's elements.
const OPERATION: usize = 2;

/// Elements that are right in few places.
const ODD_ELEMENTS: [&[u8]; 16] = [
    &[0x02, 0x00],
    &[0x02, 0x02, 0x00, 0x05],
    &[0x02, 0x01, 0x08],
    &[0x02, 0x03, 0x01, 0x00, 0x00],
    &[0x05, 0x00],
    &[0x05, 0x01, 0x00],
    &[0x0A, 0x01, 0x00],
    &[0x0A, 0x01, 0x06],
    &[0x0A, 0x01, 0xFF],
    &[0x80, 0x01, 0x37],
    &[0x80, 0x01, 0x3A],
    &[0x82, 0x81, 0x00],
    &[0xA1, 0x06, 0x0A, 0x01, 0x05, 0x12, 0x01, 0x37],
    &[0x30, 0x03, 0x80, 0x01, 0x37],
    &[0xE0, 0x02, 0x04, 0x80],
    &[0x1F, 0x00],
];

/// One good request damaged in every place, in one of three ways; five odd elements a time.
pub fn sweep(random: &mut Random, profile: &Profile, last: i32) -> (Making, Vec<Vec<u8>>) {
    let request = made::request(random, profile);
    let identifier = last.saturating_add(1).min(32_767);
    let whole = Dissected::of(request.written(identifier));
    match random.below(3) {
        0 => (Making::Damaged, whole.damaged()),
        1 => (Making::CutInside, whole.cut_inside()),
        _ => {
            let odd = (0..5).filter_map(|_| random.pick(&ODD_ELEMENTS));
            let replaced = odd.flat_map(|odd| whole.each_replaced(odd));
            (Making::Replaced, replaced.collect())
        }
    }
}
