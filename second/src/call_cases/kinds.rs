//! What the cases of calls must reach.

use crate::calls::{BUSY, NOT_REQUIRED, NO_REPLY, OFFERED, PREFERRED, REQUIRED};
use crate::numbers::{PUBLIC, UNKNOWN};

use super::makings::{Making, Value};

#[derive(Clone, Copy, Debug, PartialEq, Eq)]
pub enum Reached {
    Refusal(u8),
    /// Refusal 3 or 4 of a call that is bad as well.
    BeforeBadCall(u8),
    /// Refusal 6 at this limit.
    Limit(i32),
    Passed(Cause),
    /// Passed though the counter is not below the limit.
    PassedAtLimit(Cause),
    First,
    Later,
    Reason(i32),
    Notice(i32),
    /// Of a call whose three records are good.
    Event(i32),
    Counter(i32),
    Original(Original),
    /// The flag of a profile that a diverted call met.
    Released(i32),
    /// On the first diversion or not, as received.
    Preference(bool, i32),
    /// The smaller option on a later diversion.
    Smaller(Smaller),
    /// The form of the served number of a diverted call.
    Served(i32),
    /// Whether the called address has a subaddress.
    Subaddress(bool),
    Made(Making),
    Rubbish(Rubbish),
}

/// Why a call was not diverted; the access is named only where an instance would apply.
#[derive(Clone, Copy, Debug, PartialEq, Eq)]
pub enum Cause {
    NoInstance,
    NotInUse,
    ServiceNotSubscribed,
    ProcedureNotSubscribed,
}

/// Where the original number handed on is from.
#[derive(Clone, Copy, Debug, PartialEq, Eq)]
pub enum Original {
    Absent,
    Access,
    Call,
}

#[derive(Clone, Copy, Debug, PartialEq, Eq)]
pub enum Smaller {
    Received,
    Profiles,
    Neither,
}

/// Where octets that carry no meaning stood.
#[derive(Clone, Copy, Debug, PartialEq, Eq)]
pub enum Rubbish {
    Access,
    /// Past the counts of an instance.
    Instance,
    /// Past the count of the run.
    PastRun,
    Call,
    /// Past the count of the run, with what a call looks for.
    LookedFor,
    Called,
    Redirecting,
    Noticed,
}

pub const KINDS: [(Reached, &str); 76] = [
    (Reached::Refusal(3), "refusal 3"),
    (Reached::Refusal(4), "refusal 4"),
    (Reached::Refusal(5), "refusal 5"),
    (Reached::Refusal(6), "refusal 6"),
    (Reached::BeforeBadCall(3), "refusal 3 before 5"),
    (Reached::BeforeBadCall(4), "refusal 4 before 5"),
    (Reached::Limit(1), "limit 1 reached"),
    (Reached::Limit(2), "limit 2 reached"),
    (Reached::Limit(3), "limit 3 reached"),
    (Reached::Limit(4), "limit 4 reached"),
    (Reached::Limit(5), "limit 5 reached"),
    (Reached::Passed(Cause::NoInstance), "passed: no instance"),
    (Reached::Passed(Cause::NotInUse), "passed: not in use"),
    (
        Reached::Passed(Cause::ServiceNotSubscribed),
        "passed: service not subscribed",
    ),
    (
        Reached::Passed(Cause::ProcedureNotSubscribed),
        "passed: procedure not subscribed",
    ),
    (
        Reached::PassedAtLimit(Cause::NoInstance),
        "passed at the limit: no instance",
    ),
    (
        Reached::PassedAtLimit(Cause::NotInUse),
        "passed at the limit: not in use",
    ),
    (Reached::First, "first diversion"),
    (Reached::Later, "later diversion"),
    (Reached::Reason(1), "reason 1, cfu"),
    (Reached::Reason(2), "reason 2, cfb"),
    (Reached::Reason(3), "reason 3, cfnr"),
    (Reached::Notice(0), "notice 0, none"),
    (Reached::Notice(1), "notice 1, without number"),
    (Reached::Notice(2), "notice 2, with number"),
    (Reached::Event(OFFERED), "event: offered"),
    (Reached::Event(BUSY), "event: busy"),
    (Reached::Event(NO_REPLY), "event: no reply"),
    (Reached::Counter(0), "counter 0"),
    (Reached::Counter(1), "counter 1"),
    (Reached::Counter(2), "counter 2"),
    (Reached::Counter(3), "counter 3"),
    (Reached::Counter(4), "counter 4"),
    (Reached::Counter(5), "counter 5"),
    (Reached::Original(Original::Absent), "original: absent"),
    (
        Reached::Original(Original::Access),
        "original: the access's",
    ),
    (Reached::Original(Original::Call), "original: the call's"),
    (Reached::Released(0), "number not released"),
    (Reached::Released(1), "number released"),
    (Reached::Preference(true, PREFERRED), "first: preferred"),
    (
        Reached::Preference(true, NOT_REQUIRED),
        "first: not required",
    ),
    (Reached::Preference(true, REQUIRED), "first: required"),
    (Reached::Preference(false, PREFERRED), "later: preferred"),
    (
        Reached::Preference(false, NOT_REQUIRED),
        "later: not required",
    ),
    (Reached::Preference(false, REQUIRED), "later: required"),
    (
        Reached::Smaller(Smaller::Received),
        "later: received option smaller",
    ),
    (
        Reached::Smaller(Smaller::Profiles),
        "later: profile's option smaller",
    ),
    (
        Reached::Smaller(Smaller::Neither),
        "later: options the same",
    ),
    (Reached::Served(UNKNOWN), "served number unknown"),
    (Reached::Served(PUBLIC), "served number public"),
    (Reached::Subaddress(true), "called with subaddress"),
    (Reached::Subaddress(false), "called without subaddress"),
    (Reached::Made(Making::Good), "made: good call"),
    (
        Reached::Made(Making::Spoiled(Value::Number)),
        "made: bad number",
    ),
    (
        Reached::Made(Making::Spoiled(Value::Service)),
        "made: bad service",
    ),
    (
        Reached::Made(Making::Spoiled(Value::Event)),
        "made: bad event",
    ),
    (
        Reached::Made(Making::Spoiled(Value::Counter)),
        "made: bad counter",
    ),
    (
        Reached::Made(Making::Spoiled(Value::Option)),
        "made: bad option",
    ),
    (
        Reached::Made(Making::Spoiled(Value::Presentation)),
        "made: bad presentation",
    ),
    (
        Reached::Made(Making::Spoiled(Value::Preference)),
        "made: bad preference",
    ),
    (
        Reached::Made(Making::Spoiled(Value::Digits)),
        "made: bad digits",
    ),
    (Reached::Made(Making::OneOctet), "made: one octet changed"),
    (Reached::Made(Making::Sized(0)), "made: 0 octets"),
    (Reached::Made(Making::Sized(1)), "made: 1 octet"),
    (Reached::Made(Making::Sized(27)), "made: 27 octets"),
    (Reached::Made(Making::Sized(29)), "made: 29 octets"),
    (Reached::Made(Making::Sized(64)), "made: 64 octets"),
    (Reached::Made(Making::Octets), "made: any 28 octets"),
    (
        Reached::Rubbish(Rubbish::Access),
        "rubbish in the access record",
    ),
    (
        Reached::Rubbish(Rubbish::Instance),
        "rubbish in an instance",
    ),
    (
        Reached::Rubbish(Rubbish::PastRun),
        "rubbish past the run's count",
    ),
    (
        Reached::Rubbish(Rubbish::Call),
        "rubbish in the call record",
    ),
    (
        Reached::Rubbish(Rubbish::LookedFor),
        "passed: the instance is past the run's count",
    ),
    (
        Reached::Rubbish(Rubbish::Called),
        "rubbish goes on: forwarded-to address",
    ),
    (
        Reached::Rubbish(Rubbish::Redirecting),
        "rubbish goes on: served number",
    ),
    (
        Reached::Rubbish(Rubbish::Noticed),
        "rubbish goes on: number of the notice",
    ),
];
