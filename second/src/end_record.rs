//! The end as a record: the last used identifier, what is outstanding, a mark for each procedure
//! and the picture. It keeps octets that carry no meaning.

use crate::end::{End, Outstanding, IN_DOUBT, KNOWN};
use crate::records::octet;
use crate::refusal::Refusal;
use crate::request_record::{read_request, request_record, RequestRecord, REQUEST_OCTETS};
use crate::table::Table;
use crate::table_record::{TableRecord, PLACES, PLACE_OCTETS};

/// The octets of a mark.
pub const MARK_KNOWN: u8 = 1;
pub const MARK_IN_DOUBT: u8 = 0;

/// Where fields stand in a line.
const OUTSTANDING: usize = 2;
const REQUEST: usize = 5;
const MARKS: usize = REQUEST + REQUEST_OCTETS;
const PICTURE: usize = MARKS + 3;
pub const END_OCTETS: usize = PICTURE + 1 + PLACES * PLACE_OCTETS;

#[derive(Clone, Debug, PartialEq, Eq)]
pub struct EndRecord {
    /// The last used identifier in place of the last handled one, and the picture as the run.
    pub held: TableRecord,
    /// 1 where the request is; otherwise the next three fields carry no meaning.
    pub outstanding: u8,
    pub operation: u8,
    pub before: u8,
    pub request: RequestRecord,
    pub marks: [u8; 3],
}

impl EndRecord {
    pub fn fresh() -> Self {
        EndRecord {
            held: TableRecord::fresh(),
            outstanding: 0,
            operation: 0,
            before: 0,
            request: [0; REQUEST_OCTETS],
            marks: [MARK_KNOWN; 3],
        }
    }

    /// The end, its other rules not yet judged; refusal 4 for a picture that no table's run could
    /// be, a request that cannot be read, or `outstanding` over 1.
    pub fn read(&self) -> Result<End, Refusal> {
        let held = self.held.read()?;
        let outstanding = match self.outstanding {
            0 => None,
            1 => Some(self.read_outstanding().ok_or(Refusal::BadRecord)?),
            _ => return Err(Refusal::BadRecord),
        };
        Ok(End {
            last_used: held.last,
            picture: held.instances,
            marks: self.marks.map(mark_of),
            outstanding,
        })
    }

    fn read_outstanding(&self) -> Option<Outstanding> {
        Some(Outstanding {
            request: read_request(i32::from(self.operation), &self.request)?,
            mark_before: mark_of(self.before),
        })
    }

    /// The record of a good end, with zeros wherever nothing carries a meaning.
    pub fn of(end: &End) -> Self {
        let held = TableRecord::of(&Table {
            last: end.last_used,
            instances: end.picture.clone(),
        });
        let closed = EndRecord::closed(held, end.marks);
        let Some(sent) = &end.outstanding else {
            return closed;
        };
        EndRecord {
            outstanding: 1,
            operation: octet(sent.request.operation()),
            before: mark_octet(sent.mark_before),
            request: request_record(&sent.request),
            ..closed
        }
    }

    /// Nothing outstanding, with zeros in its fields, and these marks.
    pub fn closed(held: TableRecord, marks: [i32; 3]) -> Self {
        EndRecord {
            held,
            marks: marks.map(mark_octet),
            ..EndRecord::fresh()
        }
    }

    /// As in a line: up to the last place of the picture that is not all zeros.
    pub fn octets(&self) -> Vec<u8> {
        let held = self.held.octets();
        let (used, picture) = held.split_at(OUTSTANDING);
        let outstanding = [self.outstanding, self.operation, self.before];
        [used, &outstanding, &self.request, &self.marks, picture].concat()
    }

    /// From a line: what it does not give at its end is zeros. `None` for too many octets.
    pub fn of_octets(given: &[u8]) -> Option<Self> {
        let mut octets = given.to_vec();
        if octets.len() > END_OCTETS {
            return None;
        }
        octets.resize(END_OCTETS, 0);
        let [_, _, outstanding, operation, before, ..] = octets[..] else {
            return None;
        };
        let held = [&octets[..OUTSTANDING], &octets[PICTURE..]].concat();
        Some(EndRecord {
            held: TableRecord::of_octets(&held)?,
            outstanding,
            operation,
            before,
            request: octets[REQUEST..MARKS].try_into().ok()?,
            marks: octets[MARKS..PICTURE].try_into().ok()?,
        })
    }
}

/// An octet over 1 is no mark.
fn mark_of(octet: u8) -> i32 {
    match octet {
        MARK_KNOWN => KNOWN,
        MARK_IN_DOUBT => IN_DOUBT,
        other => i32::from(other),
    }
}

pub fn mark_octet(mark: i32) -> u8 {
    if mark == KNOWN {
        MARK_KNOWN
    } else {
        MARK_IN_DOUBT
    }
}
