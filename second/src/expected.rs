//! What demand 3 expects of each move of a soak, told from the records alone: the kind of event
//! if it is as expected, or what is wrong.

use crate::answer::{Answer, Problem};
use crate::codes::{ALL_SERVICES, PROCEDURES};
use crate::end::{shown, End, KNOWN};
use crate::profile::Profile;
use crate::refusal::Refusal;
use crate::request::{Request, Served};
use crate::rules::{judge, Outcome};
use crate::soak_kinds::Kind;
use crate::table::{of_procedure, sorted, Instance, Table};

/// The two sentences of demand 3, where they are broken.
pub const KNOWN_IS_FALSE: &str = "a procedure shown as known differs from the table";
pub const LISTED_IS_UNKNOWN: &str = "the list of a handled interrogation left doubt";

pub fn expect(holds: bool, what: &str) -> Result<(), String> {
    if holds {
        Ok(())
    } else {
        Err(what.to_string())
    }
}

pub fn unexpected(refusal: Refusal) -> String {
    format!("unexpected refusal {}", refusal.number())
}

/// What the exchange may answer to a request the end has sent.
pub fn answered(request: &Request, answer: &Answer) -> Result<Kind, String> {
    Ok(match (answer, request) {
        (Answer::Error { code, .. }, _) => Kind::Error(*code),
        (Answer::List { entries, .. }, Request::Interrogation { .. }) if entries.is_empty() => {
            Kind::ListEmpty
        }
        (Answer::List { .. }, Request::Interrogation { .. }) => Kind::ListFilled,
        (Answer::Result { .. }, Request::Activation { .. }) => Kind::ActivationDone,
        (Answer::Result { .. }, Request::Deactivation { .. }) => Kind::DeactivationDone,
        (Answer::Reject { problem, .. }, _) if *problem == Problem::Invoke(0) => Kind::Duplicate,
        _ => return Err(format!("{request:?} was answered {answer:?}")),
    })
}

/// A handled interrogation has a result exactly where the profile allows a whole one.
pub fn whole_interrogation_listed(
    profile: &Profile,
    request: &Request,
    answer: &Answer,
) -> Result<(), String> {
    let Request::Interrogation { procedure, .. } = request else {
        return Ok(());
    };
    let listed = matches!(answer, Answer::List { .. });
    expect(
        answer.handled().is_none() || profile.allows_whole_interrogation(*procedure) == listed,
        "an allowed interrogation was handled without a list, or another with one",
    )
}

/// Whether the answer is a reply for this identifier.
pub fn meant_for(answer: &Answer, identifier: i32) -> bool {
    match answer {
        Answer::Silence => false,
        Answer::Reject {
            identifier: named, ..
        } => *named == Some(identifier),
        _ => answer.handled() == Some(identifier),
    }
}

/// The request that waits for its reply, and whether its procedure was known before it was sent.
#[derive(Clone, Debug, PartialEq, Eq)]
pub struct Waiting {
    pub identifier: i32,
    pub request: Request,
    known_before: bool,
}

impl Waiting {
    /// Of the end before it is sent.
    pub fn of(before: &End, identifier: i32, request: Request) -> Self {
        Waiting {
            identifier,
            known_before: known(before, &request),
            request,
        }
    }
}

fn known(end: &End, request: &Request) -> bool {
    end.mark(request.procedure()) == Some(KNOWN)
}

/// An interrogation as the end sends it: of all services and all numbers.
pub fn whole(request: Request) -> Request {
    match request {
        Request::Interrogation { procedure, .. } => Request::Interrogation {
            procedure,
            service: ALL_SERVICES,
            served: Served::AllNumbers,
        },
        other => other,
    }
}

pub fn sent_kind(request: &Request) -> Kind {
    match request {
        Request::Activation { .. } => Kind::ActivationSent,
        Request::Deactivation { .. } => Kind::DeactivationSent,
        Request::Interrogation { .. } => Kind::InterrogationSent,
    }
}

/// The next identifier, the component for the request, and doubt unless it is an interrogation.
pub fn sent_rightly(waiting: &Waiting, octets: &[u8], after: &End) -> Result<(), String> {
    let asks = matches!(waiting.request, Request::Interrogation { .. });
    expect(
        octets == waiting.request.written(waiting.identifier),
        "another component was sent than asked for",
    )?;
    expect(
        known(after, &waiting.request) == (asks && waiting.known_before),
        "the wrong mark after sending",
    )
}

/// The last sentence of demand 3: the list of an allowed whole interrogation that is the first
/// reply to it makes the procedure known.
pub fn listed_is_known(
    profile: &Profile,
    request: &Request,
    answer: &Answer,
    after: &End,
) -> Result<(), String> {
    let allowed = profile.allows_whole_interrogation(request.procedure());
    let listed = matches!(answer, Answer::List { .. });
    expect(
        !(allowed && listed) || known(after, request),
        LISTED_IS_UNKNOWN,
    )
}

/// The first matching reply has come to the request that waits.
pub fn taken(
    profile: &Profile,
    answer: &Answer,
    waiting: &Waiting,
    [before, after]: [&End; 2],
) -> Result<Kind, String> {
    let applied = match judge(profile, &before.picture, &waiting.request) {
        Outcome::Done(change) => Some(change.instances),
        Outcome::Error(_) | Outcome::List(_) => None,
    };
    let (kind, known_after) = taken_as(answer, waiting.known_before, applied.is_some())
        .ok_or_else(|| format!("{answer:?} came to {waiting:?}"))?;
    let picture = match answer {
        Answer::Result { .. } => applied.unwrap_or_else(|| before.picture.clone()),
        // What it makes known must equal the table.
        Answer::List { .. } => after.picture.clone(),
        _ => before.picture.clone(),
    };
    expect(after.outstanding.is_none(), "a reply left its request open")?;
    expect(
        known(after, &waiting.request) == known_after,
        "the wrong mark after a reply",
    )?;
    expect(
        sorted(after.picture.clone()) == sorted(picture),
        "the wrong picture after a reply",
    )?;
    Ok(kind)
}

/// What a reply comes to, and whether the procedure is known afterwards: by whether it was known
/// before, and whether the request can be applied to the picture.
fn taken_as(answer: &Answer, known_before: bool, applies: bool) -> Option<(Kind, bool)> {
    Some(match (answer, known_before) {
        (Answer::Error { .. }, true) => (Kind::RestoredKnown, true),
        (Answer::Error { .. }, false) => (Kind::RestoredInDoubt, false),
        (Answer::Reject { .. }, true) => (Kind::RejectedWhileKnown, false),
        (Answer::Reject { .. }, false) => (Kind::RejectedInDoubt, false),
        (Answer::List { .. }, true) => (Kind::ListedWhileKnown, true),
        (Answer::List { .. }, false) => (Kind::ListedInDoubt, true),
        (Answer::Result { .. }, true) if applies => (Kind::AppliedKnown, true),
        (Answer::Result { .. }, false) if applies => (Kind::AppliedInDoubt, false),
        (Answer::Result { .. }, false) => (Kind::NotApplicable, false),
        // On a known picture, which equals the table, the rules can't differ.
        (Answer::Result { .. }, true) | (Answer::Silence, _) => return None,
    })
}

/// A reply that is not for the request that waits, if one does.
pub fn dropped(waits: bool, [before, after]: [&End; 2]) -> Result<Kind, String> {
    expect(
        before == after,
        "a reply for no outstanding request wasn't dropped",
    )?;
    Ok(if waits {
        Kind::DroppedLate
    } else {
        Kind::Dropped
    })
}

/// Giving up gives doubt to the request that waits; with none it changes nothing.
pub fn given_up(waiting: Option<&Waiting>, [before, after]: [&End; 2]) -> Result<Kind, String> {
    let Some(waiting) = waiting else {
        expect(before == after, "giving up nothing changed the end")?;
        return Ok(Kind::NothingToGiveUp);
    };
    let doubted = after.outstanding.is_none() && !known(after, &waiting.request);
    expect(
        doubted && before.picture == after.picture,
        "giving up left a request open, or no doubt",
    )?;
    Ok(Kind::GivenUp)
}

/// Each procedure shown as known equals the exchange's table.
pub fn known_is_true(profile: &Profile, table: &Table, end: &End) -> Result<(), String> {
    for procedure in PROCEDURES {
        let shown = shown(profile, end, procedure).map_err(unexpected)?;
        let held: Vec<Instance> = of_procedure(&table.instances, procedure).cloned().collect();
        expect(
            shown.is_none_or(|shown| shown == sorted(held)),
            KNOWN_IS_FALSE,
        )?;
    }
    Ok(())
}
