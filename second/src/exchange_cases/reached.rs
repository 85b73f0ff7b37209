//! What the cases of the exchange must reach: rows of the reply table, errors, refusals, requests,
//! answers, and the ways they are made.

use crate::answer::{Answer, Problem};
use crate::codes::{
    ACTIVATION, CFB, CFNR, CFU, DEACTIVATION, DIVERSION_TO_SERVED_NUMBER, INTERROGATION,
    INVALID_DIVERTED_TO_NUMBER, INVALID_SERVED_NUMBER, NOT_ACTIVATED, NOT_AVAILABLE,
    NOT_SUBSCRIBED, PROCEDURES, RESOURCE_UNAVAILABLE, SERVICE_NOT_PROVIDED, SPECIAL_SERVICE_NUMBER,
};
use crate::numbers::Subaddress;
use crate::request::{hear, read_argument, Heard, Request};
use crate::table::{count, MOST_INSTANCES};
use crate::transcript::Outcome;

use super::makings::Making;
use super::run::Run;

#[derive(Clone, Copy, Debug, PartialEq, Eq)]
pub enum Reached {
    Refusal(u8),
    Silence,
    /// Whether the reject carries an identifier, and its problem.
    Reject(bool, Problem),
    /// Error 11 for want of room is apart.
    Error(i32),
    NoRoom,
    Activated,
    Deactivated,
    ListEmpty,
    ListFilled,
    /// Operation and procedure of an argument that could be read.
    Request(i32, i32),
    Replied(Kind),
    Output(usize),
    Made(Making),
    /// Octets that carry no meaning stood in the access record.
    AccessRubbish,
    Run(Run),
    /// The next table holds eight of a procedure.
    Eight,
}

/// The kind of an answer that is written.
#[derive(Clone, Copy, Debug, PartialEq, Eq)]
pub enum Kind {
    Reject,
    Error,
    Result,
    List,
}

pub const KINDS: [(Reached, &str); 71] = [
    (Reached::Refusal(1), "refusal 1"),
    (Reached::Refusal(2), "refusal 2"),
    (Reached::Refusal(3), "refusal 3"),
    (Reached::Refusal(4), "refusal 4"),
    (
        Reached::Reject(false, Problem::General(2)),
        "row: not one element",
    ),
    (Reached::Silence, "row: silence"),
    (
        Reached::Reject(false, Problem::General(0)),
        "row: another outer tag",
    ),
    (
        Reached::Reject(false, Problem::General(1)),
        "row: identifier unreadable",
    ),
    (
        Reached::Reject(true, Problem::General(1)),
        "row: operation unreadable",
    ),
    (Reached::Reject(true, Problem::Invoke(0)), "row: duplicate"),
    (
        Reached::Reject(true, Problem::Invoke(1)),
        "row: unknown operation",
    ),
    (Reached::Reject(true, Problem::Invoke(2)), "row: argument"),
    (Reached::Error(NOT_AVAILABLE), "error 3"),
    (Reached::Error(NOT_SUBSCRIBED), "error 0"),
    (Reached::Error(INVALID_SERVED_NUMBER), "error 6"),
    (Reached::Error(SERVICE_NOT_PROVIDED), "error 8"),
    (
        Reached::Error(RESOURCE_UNAVAILABLE),
        "error 11, user-specified subaddress",
    ),
    (Reached::Error(INVALID_DIVERTED_TO_NUMBER), "error 12"),
    (Reached::Error(SPECIAL_SERVICE_NUMBER), "error 14"),
    (Reached::Error(DIVERSION_TO_SERVED_NUMBER), "error 15"),
    (Reached::NoRoom, "error 11, room"),
    (Reached::Error(NOT_ACTIVATED), "error 46"),
    (Reached::Activated, "activation done"),
    (Reached::Deactivated, "deactivation done"),
    (Reached::ListEmpty, "list, empty"),
    (Reached::ListFilled, "list with instances"),
    (Reached::Request(ACTIVATION, CFU), "activation of cfu"),
    (Reached::Request(ACTIVATION, CFB), "activation of cfb"),
    (Reached::Request(ACTIVATION, CFNR), "activation of cfnr"),
    (Reached::Request(DEACTIVATION, CFU), "deactivation of cfu"),
    (Reached::Request(DEACTIVATION, CFB), "deactivation of cfb"),
    (Reached::Request(DEACTIVATION, CFNR), "deactivation of cfnr"),
    (Reached::Request(INTERROGATION, CFU), "interrogation of cfu"),
    (Reached::Request(INTERROGATION, CFB), "interrogation of cfb"),
    (
        Reached::Request(INTERROGATION, CFNR),
        "interrogation of cfnr",
    ),
    (Reached::Replied(Kind::Reject), "answer: reject"),
    (Reached::Replied(Kind::Error), "answer: error"),
    (Reached::Replied(Kind::Result), "answer: result"),
    (Reached::Replied(Kind::List), "answer: list"),
    (Reached::Output(0), "output of 0 octets"),
    (Reached::Output(706), "output of 706 octets"),
    (Reached::Output(707), "output of 707 octets"),
    (Reached::Output(708), "output of 708 octets"),
    (Reached::Output(1_024), "output of 1,024 octets"),
    (Reached::Made(Making::Valid), "made: valid request"),
    (
        Reached::Made(Making::Growing),
        "made: request of a growing table",
    ),
    (Reached::Made(Making::Loose), "made: loosely built"),
    (Reached::Made(Making::Recoded), "made: needless lengths"),
    (
        Reached::Made(Making::Nested(7)),
        "made: skipped elements 7 deep",
    ),
    (
        Reached::Made(Making::Nested(8)),
        "made: skipped elements 8 deep",
    ),
    (
        Reached::Made(Making::Nested(9)),
        "made: skipped elements 9 deep",
    ),
    (Reached::Made(Making::TwoFaults), "made: two faults at once"),
    (Reached::Made(Making::Octets), "made: any octets"),
    (
        Reached::Made(Making::OtherTag),
        "made: under another outer tag",
    ),
    (
        Reached::Made(Making::Damaged),
        "made: cut off or damaged, lengths left",
    ),
    (
        Reached::Made(Making::CutInside),
        "made: cut off, lengths put right",
    ),
    (
        Reached::Made(Making::Replaced),
        "made: each element replaced",
    ),
    (Reached::Made(Making::Sized(0)), "made: 0 octets"),
    (Reached::Made(Making::Sized(1_023)), "made: 1,023 octets"),
    (Reached::Made(Making::Sized(1_024)), "made: 1,024 octets"),
    (Reached::Made(Making::Sized(1_025)), "made: 1,025 octets"),
    (Reached::Made(Making::Sized(1_026)), "made: 1,026 octets"),
    (Reached::AccessRubbish, "rubbish in the access record"),
    (
        Reached::Run(Run::MovedByActivation),
        "run anew: an activation moves instances",
    ),
    (
        Reached::Run(Run::MovedByDeactivation),
        "run anew: a deactivation moves instances",
    ),
    (
        Reached::Run(Run::RubbishStays),
        "run anew: rubbish in an instance stays",
    ),
    (
        Reached::Run(Run::RubbishReplaced),
        "run anew: rubbish in an instance replaced",
    ),
    (
        Reached::Run(Run::RubbishCleared),
        "run anew: rubbish past the count cleared",
    ),
    (
        Reached::Run(Run::RubbishKept),
        "run kept: rubbish in an instance",
    ),
    (
        Reached::Run(Run::RubbishKeptPastCount),
        "run kept: rubbish past the count",
    ),
    (Reached::Eight, "eight instances of a procedure"),
];

/// What the outcome alone shows.
pub fn by(component: &[u8], outcome: &Outcome) -> Vec<Reached> {
    let arrived = match outcome {
        Err(refusal) => return vec![Reached::Refusal(refusal.number())],
        Ok((arrived, _)) => arrived,
    };
    let asked = request(component);
    let asked = asked.map(|asked| Reached::Request(asked.operation(), asked.procedure()));
    let mut procedures = PROCEDURES.iter();
    let eight = procedures.any(|one| count(&arrived.next.instances, *one) == MOST_INSTANCES);
    let mut reached = vec![row(component, &arrived.answer)];
    reached.extend(replied(&arrived.answer));
    reached.extend(asked);
    reached.extend(eight.then_some(Reached::Eight));
    reached
}

/// The row, or error, or result that an answer shows.
fn row(component: &[u8], answer: &Answer) -> Reached {
    match answer {
        Answer::Silence => Reached::Silence,
        Answer::Reject {
            identifier,
            problem,
        } => Reached::Reject(identifier.is_some(), *problem),
        Answer::Error { code, .. } => match request(component) {
            Some(Request::Activation { address, .. })
                if *code == RESOURCE_UNAVAILABLE
                    && address.subaddress != Subaddress::UserSpecified =>
            {
                Reached::NoRoom
            }
            _ => Reached::Error(*code),
        },
        Answer::Result { .. } => match request(component) {
            Some(Request::Activation { .. }) => Reached::Activated,
            _ => Reached::Deactivated,
        },
        Answer::List { entries, .. } if entries.is_empty() => Reached::ListEmpty,
        Answer::List { .. } => Reached::ListFilled,
    }
}

fn replied(answer: &Answer) -> Option<Reached> {
    let kind = match answer {
        Answer::Silence => return None,
        Answer::Reject { .. } => Kind::Reject,
        Answer::Error { .. } => Kind::Error,
        Answer::Result { .. } => Kind::Result,
        Answer::List { .. } => Kind::List,
    };
    Some(Reached::Replied(kind))
}

/// The request that a component holds, if it can be read.
fn request(component: &[u8]) -> Option<Request> {
    match hear(component) {
        Heard::Invoke(invoke) => read_argument(invoke.operation, invoke.after),
        Heard::Silence | Heard::Unreadable { .. } => None,
    }
}
