//! The causes of refusal 4 that an end's record can be made with, one at a time, besides those of
//! its picture and its identifier, which are a table's.

use crate::codes::INTERROGATION;
use crate::end_record::EndRecord;
use crate::random::Random;
use crate::request_record::{ALL_NUMBERS, SERVICE};

use super::request_flaws::{self, RequestFlaw};

#[derive(Clone, Copy, Debug, PartialEq, Eq)]
pub enum EndFlaw {
    Outstanding,
    /// That of this procedure.
    Mark(usize),
    NothingUsed,
    Before,
    Operation,
    /// An interrogation of one service, or of one number.
    OneService,
    OneNumber,
    Request(RequestFlaw),
}

pub const END_FLAWS: [(EndFlaw, &str); 17] = [
    (EndFlaw::Outstanding, "\"outstanding\" over 1"),
    (EndFlaw::Mark(0), "cfu's mark over 1"),
    (EndFlaw::Mark(1), "cfb's mark over 1"),
    (EndFlaw::Mark(2), "cfnr's mark over 1"),
    (EndFlaw::NothingUsed, "outstanding with used 0"),
    (EndFlaw::Before, "mark from before over 1"),
    (EndFlaw::Operation, "operation not 7, 8, 11"),
    (EndFlaw::OneService, "interrogation of one service"),
    (EndFlaw::OneNumber, "interrogation of one number"),
    (
        EndFlaw::Request(RequestFlaw::Procedure),
        "outstanding: procedure over 2",
    ),
    (
        EndFlaw::Request(RequestFlaw::Service),
        "outstanding: service neither 0 nor of the sixteen",
    ),
    (
        EndFlaw::Request(RequestFlaw::AllNumbers),
        "outstanding: \"all numbers\" over 1",
    ),
    (
        EndFlaw::Request(RequestFlaw::ServedNumber),
        "outstanding: bad served number",
    ),
    (
        EndFlaw::Request(RequestFlaw::ForwardedTo),
        "outstanding: bad forwarded-to number",
    ),
    (
        EndFlaw::Request(RequestFlaw::Subaddress),
        "outstanding: subaddress over 20 octets",
    ),
    (
        EndFlaw::Request(RequestFlaw::UserSpecified),
        "outstanding: user-specified subaddress",
    ),
    (
        EndFlaw::Request(RequestFlaw::UserFlag),
        "outstanding: \"user-specified\" over 1",
    ),
];

/// False where this good end has no room for the flaw, and stays as it was.
pub fn spoil(random: &mut Random, end: &mut EndRecord, flaw: EndFlaw) -> bool {
    let over = random.one_of(&[2, 3, 128, 255]);
    let waits = end.outstanding == 1;
    let operation = i32::from(end.operation);
    match flaw {
        EndFlaw::Outstanding => end.outstanding = over,
        EndFlaw::Mark(at) => end.marks[at] = over,
        _ if !waits => return false,
        EndFlaw::NothingUsed => end.held.last = 0,
        EndFlaw::Before => end.before = over,
        EndFlaw::Operation => end.operation = random.one_of(&[0, 6, 9, 10, 12, 255]),
        EndFlaw::OneService | EndFlaw::OneNumber if operation != INTERROGATION => return false,
        EndFlaw::OneService => end.request[SERVICE] = random.one_of(&[1, 5, 32, 42]),
        EndFlaw::OneNumber => end.request[ALL_NUMBERS] = 0,
        EndFlaw::Request(part) if !request_flaws::applies(part, operation) => return false,
        EndFlaw::Request(part) => request_flaws::spoil(random, &mut end.request, part),
    }
    true
}
