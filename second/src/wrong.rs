//! Wrong ends and exchanges: each spoils what the right one does. The checks of a soak and of a
//! meeting must catch every one of them.

use crate::answer::{read_reply, Answer, Problem, ReplyKind};
use crate::codes::{ALL_SERVICES, RESOURCE_UNAVAILABLE};
use crate::elements::{element, integer};
use crate::end::{self, End, IN_DOUBT, KNOWN};
use crate::exchange::{arrive, Arrived};
use crate::profile::Profile;
use crate::refusal::COMPONENT_OUTPUT;
use crate::request::{hear, read_argument, Heard, Request};
use crate::rules::{judge, Outcome};
use crate::table::{Instance, Table};

#[derive(Clone, Copy, Debug, PartialEq, Eq)]
pub enum Wrong {
    LateReplyTaken,
    RejectRestores,
    FailureIsEmpty,
    MarkKept,
    GivingUpRestores,
    Pretends,
    DoubtsAll,
    HandledAgain,
    HalfDone,
    HalfKept,
    NothingDone,
}

/// In the order of their numbers, from 1 on.
pub const WRONGS: [(Wrong, &str); 11] = [
    (
        Wrong::LateReplyTaken,
        "an end that takes a late reply as the current one",
    ),
    (
        Wrong::RejectRestores,
        "an end that lets a reject restore the mark",
    ),
    (
        Wrong::FailureIsEmpty,
        "an end that makes a failed interrogation an empty list",
    ),
    (Wrong::MarkKept, "an end that keeps the mark when it sends"),
    (
        Wrong::GivingUpRestores,
        "an end that lets giving up restore the mark",
    ),
    (
        Wrong::Pretends,
        "an end that tracks its first request and afterwards pretends",
    ),
    (Wrong::DoubtsAll, "an end that doubts everything"),
    (
        Wrong::HandledAgain,
        "an exchange that handles a repeated request again",
    ),
    (
        Wrong::HalfDone,
        "an exchange that does half of an \"all services\" activation",
    ),
    (
        Wrong::HalfKept,
        "an exchange that keeps half of an \"all services\" activation that has no room",
    ),
    (
        Wrong::NothingDone,
        "an exchange that leaves its table untouched",
    ),
];

/// What an end has just done.
pub enum Moment<'a> {
    Sent,
    Arrived(&'a [u8]),
    GaveUp,
}

impl Wrong {
    /// By the word `wrong-N`.
    pub fn named(word: &str) -> Option<Self> {
        let number: usize = word.strip_prefix("wrong-")?.parse().ok()?;
        let (wrong, _) = WRONGS.get(number.checked_sub(1)?)?;
        Some(*wrong)
    }

    /// The end afterwards, where the right one went from `before` to `right`.
    pub fn end(self, moment: &Moment<'_>, profile: &Profile, before: &End, right: &End) -> End {
        let mut end = right.clone();
        match (self, moment) {
            (Wrong::LateReplyTaken, Moment::Arrived(octets)) => {
                return any_reply_taken(octets, profile, before).unwrap_or(end);
            }
            (Wrong::RejectRestores, Moment::Arrived(octets)) if rejects(octets) => {
                restore(before, &mut end);
            }
            (Wrong::GivingUpRestores, Moment::GaveUp) => restore(before, &mut end),
            (Wrong::FailureIsEmpty, Moment::Arrived(octets)) if !results(octets) => {
                empty(before, &mut end);
            }
            (Wrong::MarkKept, Moment::Sent) => end.marks = before.marks,
            (Wrong::Pretends, _) if end.last_used > 1 => end.marks = [KNOWN; 3],
            (Wrong::DoubtsAll, _) => end.marks = [IN_DOUBT; 3],
            _ => {}
        }
        end
    }

    /// What comes of the component, where the right exchange makes this of it.
    pub fn exchange(
        self,
        component: &[u8],
        profile: &Profile,
        table: &Table,
        right: Arrived,
    ) -> Arrived {
        let instances = match (self, &right.answer) {
            (Wrong::HandledAgain, Answer::Reject { problem, .. })
                if *problem == Problem::Invoke(0) =>
            {
                return handled_again(component, profile, table).unwrap_or(right);
            }
            (Wrong::NothingDone, Answer::Result { .. }) => Some(table.instances.clone()),
            (Wrong::HalfDone, Answer::Result { .. }) => {
                let half = profile.services.len().div_ceil(2);
                one_by_one(component, profile, table, half)
            }
            (Wrong::HalfKept, Answer::Error { code, .. }) if *code == RESOURCE_UNAVAILABLE => {
                one_by_one(component, profile, table, profile.services.len())
            }
            _ => None,
        };
        let mut spoiled = right;
        if let Some(instances) = instances {
            spoiled.next.instances = instances;
        }
        spoiled
    }
}

/// A reply with any identifier closes what is outstanding.
fn any_reply_taken(octets: &[u8], profile: &Profile, before: &End) -> Option<End> {
    let (reply, tag) = (read_reply(octets)?, octets.first()?);
    let contents = [&integer(before.last_used), reply.after].concat();
    let mut end = before.clone();
    end::arrived(&element(*tag, &contents), profile, &mut end).ok()?;
    Some(end)
}

fn rejects(octets: &[u8]) -> bool {
    read_reply(octets).is_some_and(|reply| reply.kind == ReplyKind::Reject)
}

fn results(octets: &[u8]) -> bool {
    read_reply(octets).is_some_and(|reply| reply.kind == ReplyKind::Result)
}

/// The request that was closed, if one was.
fn closed<'a>(before: &'a End, after: &End) -> Option<&'a end::Outstanding> {
    let closed = before.outstanding.as_ref();
    closed.filter(|_| after.outstanding.is_none())
}

fn restore(before: &End, end: &mut End) {
    if let Some(closed) = closed(before, end) {
        end.set_mark(closed.request.procedure(), closed.mark_before);
    }
}

fn empty(before: &End, end: &mut End) {
    if let Some(Request::Interrogation { procedure, .. }) =
        closed(before, end).map(|closed| &closed.request)
    {
        end.picture.retain(|held| held.procedure != *procedure);
        end.set_mark(*procedure, KNOWN);
    }
}

/// As if nothing had been handled yet.
fn handled_again(component: &[u8], profile: &Profile, table: &Table) -> Option<Arrived> {
    let unhandled = Table {
        last: 0,
        ..table.clone()
    };
    let mut output = [0; COMPONENT_OUTPUT];
    let mut again = arrive(&mut output, component, profile, &unhandled).ok()?;
    again.next.last = table.last;
    Some(again)
}

/// An "all services" activation service by service, as far as there is room, and no more than so
/// many.
fn one_by_one(
    component: &[u8],
    profile: &Profile,
    table: &Table,
    most: usize,
) -> Option<Vec<Instance>> {
    let Heard::Invoke(invoke) = hear(component) else {
        return None;
    };
    let Some(Request::Activation {
        procedure,
        service: ALL_SERVICES,
        address,
        served,
    }) = read_argument(invoke.operation, invoke.after)
    else {
        return None;
    };
    let mut instances = table.instances.clone();
    for service in profile.services.iter().take(most) {
        let one = Request::Activation {
            procedure,
            service: *service,
            address: address.clone(),
            served: served.clone(),
        };
        match judge(profile, &instances, &one) {
            Outcome::Done(change) => instances = change.instances,
            Outcome::Error(_) | Outcome::List(_) => break,
        }
    }
    Some(instances)
}
