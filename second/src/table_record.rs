//! The table as a record: the last handled identifier, and the instances packed into a run, with
//! a count and places of fixed size. It keeps octets that carry no meaning.

use crate::answer::Answer;
use crate::exchange::Arrived;
use crate::numbers::Address;
use crate::records::{octet, read_address_record, write_address_record, ADDRESS_OCTETS};
use crate::refusal::Refusal;
use crate::table::{sorted, Instance, Table};

/// Procedure, number, service and an address.
pub const PLACE_OCTETS: usize = ADDRESS + ADDRESS_OCTETS;
/// Eight for each procedure.
pub const PLACES: usize = 24;

/// Where octets of a place stand.
pub const PROCEDURE: usize = 0;
pub const NUMBER: usize = 1;
pub const SERVICE: usize = 2;
pub const ADDRESS: usize = 3;
pub const FORM: usize = 3;
pub const TYPE: usize = 4;
pub const DIGIT_COUNT: usize = 5;
pub const DIGITS: usize = 6;
pub const SUBADDRESS_COUNT: usize = 26;
pub const SUBADDRESS: usize = 27;

pub type Place = [u8; PLACE_OCTETS];
pub const BLANK: Place = [0; PLACE_OCTETS];

#[derive(Clone, Debug, PartialEq, Eq)]
pub struct TableRecord {
    pub last: u16,
    /// How many places hold an instance; any octet can stand here.
    pub count: u8,
    pub places: [Place; PLACES],
}

/// An instance's place, zeros past its counts.
pub fn place(procedure: i32, number: i32, service: i32, address: &Address) -> Place {
    let mut place = BLANK;
    place[PROCEDURE] = octet(procedure);
    place[NUMBER] = octet(number);
    place[SERVICE] = octet(service);
    write_address_record(&mut place[ADDRESS..], address);
    place
}

pub fn place_of(instance: &Instance) -> Place {
    let (procedure, number, service) = instance.key();
    place(procedure, number, service, &instance.address)
}

/// What a run's instances ascend by.
pub fn key_at(place: &Place) -> (i32, i32, i32) {
    let [procedure, number, service] = [PROCEDURE, NUMBER, SERVICE].map(|at| i32::from(place[at]));
    (procedure, number, service)
}

impl TableRecord {
    pub fn fresh() -> Self {
        TableRecord::holding(0, &[])
    }

    /// These places counted, in the order given, and blank ones past them.
    pub fn holding(last: u16, counted: &[Place]) -> Self {
        let mut places = [BLANK; PLACES];
        for (held, place) in places.iter_mut().zip(counted) {
            *held = *place;
        }
        TableRecord {
            last,
            count: u8::try_from(counted.len()).unwrap_or(u8::MAX),
            places,
        }
    }

    /// The record of a good table, with zeros wherever nothing carries a meaning.
    pub fn of(table: &Table) -> Self {
        let counted: Vec<Place> = table.sorted().instances.iter().map(place_of).collect();
        TableRecord::holding(last_octets(table.last), &counted)
    }

    /// `None` where the count goes past the places.
    pub fn counted(&self) -> Option<&[Place]> {
        self.places.get(..usize::from(self.count))
    }

    /// Those past the count; none where the count goes past the places.
    pub fn uncounted(&self) -> &[Place] {
        self.places.get(usize::from(self.count)..).unwrap_or(&[])
    }

    /// The place of the instance with this procedure, number and service.
    pub fn held(&self, key: (i32, i32, i32)) -> Option<&Place> {
        self.counted()?.iter().find(|place| key_at(place) == key)
    }

    /// The table, its other rules not yet judged; refusal 4 where the count, or one of an
    /// instance, goes past its places, or the instances don't strictly ascend.
    pub fn read(&self) -> Result<Table, Refusal> {
        let counted = self.counted().ok_or(Refusal::BadRecord)?;
        let ascends = |pair: &[Place]| key_at(&pair[0]) < key_at(&pair[1]);
        let instances: Option<Vec<Instance>> = counted.iter().map(read_place).collect();
        match instances {
            Some(instances) if counted.windows(2).all(ascends) => Ok(Table {
                last: i32::from(self.last),
                instances,
            }),
            _ => Err(Refusal::BadRecord),
        }
    }

    /// The record after a component. Only the result of an activation or deactivation writes the
    /// run anew: what stays keeps every octet, and past the count all is zeros.
    pub fn after(&self, arrived: &Arrived) -> TableRecord {
        let last = last_octets(arrived.next.last);
        let Answer::Result { .. } = arrived.answer else {
            return TableRecord {
                last,
                ..self.clone()
            };
        };
        self.anew(last, &arrived.next.instances, &arrived.made, place_of)
    }

    /// The run written anew: instances that stay keep every octet, those made get this place, and
    /// past the count all is zeros.
    pub fn anew(
        &self,
        last: u16,
        next: &[Instance],
        made: &[(i32, i32, i32)],
        place: impl Fn(&Instance) -> Place,
    ) -> TableRecord {
        let next = sorted(next.to_vec());
        let counted = next.iter().map(|instance| match self.held(instance.key()) {
            Some(stays) if !made.contains(&instance.key()) => *stays,
            _ => place(instance),
        });
        TableRecord::holding(last, &counted.collect::<Vec<Place>>())
    }

    /// From a line: places that it does not give are zeros. `None` for too many octets, or none
    /// for the count.
    pub fn of_octets(given: &[u8]) -> Option<Self> {
        let [high, low, count, given @ ..] = given else {
            return None;
        };
        let mut places = [BLANK; PLACES];
        let written = places.as_flattened_mut().get_mut(..given.len())?;
        written.copy_from_slice(given);
        Some(TableRecord {
            last: u16::from_be_bytes([*high, *low]),
            count: *count,
            places,
        })
    }

    /// The last handled identifier, the count, and the places up to the last not all zeros.
    pub fn octets(&self) -> Vec<u8> {
        let written = self.places.iter().rposition(|place| *place != BLANK);
        let written = &self.places[..written.map_or(0, |at| at + 1)];
        let [high, low] = self.last.to_be_bytes();
        [&[high, low, self.count], written.as_flattened()].concat()
    }
}

fn last_octets(last: i32) -> u16 {
    u16::try_from(last).unwrap_or(u16::MAX)
}

/// `None` where a count of the instance goes past its places.
pub fn read_place(place: &Place) -> Option<Instance> {
    let (procedure, number, service) = key_at(place);
    Some(Instance {
        procedure,
        number,
        service,
        address: read_address_record(&place[ADDRESS..])?,
    })
}
