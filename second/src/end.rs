//! The customer end: one request at a time, a picture of the exchange's table, and a mark for
//! each procedure, known or in doubt.

use crate::answer::{read_error, read_list, read_reply, Entry, Reply, ReplyKind};
use crate::codes::{is_flag, is_procedure, place, ALL_SERVICES, GREATEST_IDENTIFIER};
use crate::numbers::Address;
use crate::profile::Profile;
use crate::refusal::{component_fits, output_fits, require, write_into, Refusal};
use crate::request::{Request, Served};
use crate::rules::{judge, Outcome};
use crate::table::{good_instances, good_last, of_procedure, sorted, Instance};

pub const KNOWN: i32 = 0;
pub const IN_DOUBT: i32 = 1;

#[derive(Clone, Debug, PartialEq, Eq)]
pub struct End {
    /// The identifier of the latest request sent, 0 when fresh.
    pub last_used: i32,
    pub picture: Vec<Instance>,
    /// By procedure: cfu, cfb, cfnr.
    pub marks: [i32; 3],
    pub outstanding: Option<Outstanding>,
}

/// The request that awaits its reply; its identifier is the last used one.
#[derive(Clone, Debug, PartialEq, Eq)]
pub struct Outstanding {
    pub request: Request,
    pub mark_before: i32,
}

/// What an arriving component did.
#[derive(Clone, Copy, Debug, PartialEq, Eq)]
pub enum Event {
    Dropped,
    /// A result applied the request; the mark from before.
    Applied,
    /// A result the rules don't give on the picture: no change, doubt.
    NotApplicable,
    /// A good list: known.
    Listed,
    /// An error: the mark from before.
    Restored,
    /// A reject: doubt.
    Rejected,
    /// A reply of the wrong shape, or a list no picture may take: doubt.
    WrongShape,
}

impl End {
    pub fn fresh() -> Self {
        End {
            last_used: 0,
            picture: Vec::new(),
            marks: [KNOWN; 3],
            outstanding: None,
        }
    }

    /// A41, A75: the table's rules for the picture, the codes of the marks, and an outstanding
    /// request the end could have sent.
    pub fn check(&self, profile: &Profile) -> Result<(), Refusal> {
        let good = good_last(self.last_used)
            && good_instances(&self.picture, profile)
            && self.marks.into_iter().all(is_flag)
            && self.good_outstanding();
        require(good, Refusal::BadRecord)
    }

    fn good_outstanding(&self) -> bool {
        let Some(outstanding) = &self.outstanding else {
            return true;
        };
        let sendable = match &outstanding.request {
            Request::Interrogation {
                service, served, ..
            } => *service == ALL_SERVICES && *served == Served::AllNumbers,
            Request::Activation { .. } | Request::Deactivation { .. } => true,
        };
        self.last_used >= 1
            && is_flag(outstanding.mark_before)
            && sendable
            && outstanding.request.good()
    }

    pub fn mark(&self, procedure: i32) -> Option<i32> {
        place(procedure).and_then(|at| self.marks.get(at)).copied()
    }

    pub(crate) fn set_mark(&mut self, procedure: i32, mark: i32) {
        if let Some(place) = place(procedure).and_then(|at| self.marks.get_mut(at)) {
            *place = mark;
        }
    }
}

pub fn send_activation(
    output: &mut [u8],
    profile: &Profile,
    end: &mut End,
    (procedure, service): (i32, i32),
    address: Address,
    served: Served,
) -> Result<usize, Refusal> {
    let request = Request::Activation {
        procedure,
        service,
        address,
        served,
    };
    send(output, profile, end, request)
}

pub fn send_deactivation(
    output: &mut [u8],
    profile: &Profile,
    end: &mut End,
    (procedure, service): (i32, i32),
    served: Served,
) -> Result<usize, Refusal> {
    let request = Request::Deactivation {
        procedure,
        service,
        served,
    };
    send(output, profile, end, request)
}

/// Always all services and all numbers; sent even where the profile doesn't allow it (A42).
pub fn send_interrogation(
    output: &mut [u8],
    profile: &Profile,
    end: &mut End,
    procedure: i32,
) -> Result<usize, Refusal> {
    let request = Request::Interrogation {
        procedure,
        service: ALL_SERVICES,
        served: Served::AllNumbers,
    };
    send(output, profile, end, request)
}

/// Refusals 1, 3, 4, 7, 8, 10, lowest first.
pub fn send(
    output: &mut [u8],
    profile: &Profile,
    end: &mut End,
    request: Request,
) -> Result<usize, Refusal> {
    output_fits(output)?;
    profile.check()?;
    end.check(profile)?;
    require(end.outstanding.is_none(), Refusal::RequestOutstanding)?;
    require(
        end.last_used < GREATEST_IDENTIFIER,
        Refusal::IdentifiersUsedUp,
    )?;
    require(request.good(), Refusal::BadRequest)?;
    end.last_used += 1;
    let procedure = request.procedure();
    let mark_before = end.mark(procedure).unwrap_or(IN_DOUBT);
    // A54: sending an interrogation leaves the mark.
    if !matches!(request, Request::Interrogation { .. }) {
        end.set_mark(procedure, IN_DOUBT);
    }
    let length = write_into(output, &request.written(end.last_used));
    end.outstanding = Some(Outstanding {
        request,
        mark_before,
    });
    Ok(length)
}

/// Refusals 2, 3, 4 (A38: an over-long arrival leaves the request outstanding).
pub fn arrived(component: &[u8], profile: &Profile, end: &mut End) -> Result<Event, Refusal> {
    component_fits(component)?;
    profile.check()?;
    end.check(profile)?;
    let reply = read_reply(component).filter(|reply| reply.identifier == end.last_used);
    let Some(reply) = reply else {
        return Ok(Event::Dropped);
    };
    // Without an outstanding request even a reply to the last one is late.
    let Some(outstanding) = end.outstanding.take() else {
        return Ok(Event::Dropped);
    };
    let event = take_reply(&reply, profile, end, &outstanding);
    let mark = match event {
        Event::Listed => KNOWN,
        Event::Applied | Event::Restored => outstanding.mark_before,
        _ => IN_DOUBT,
    };
    end.set_mark(outstanding.request.procedure(), mark);
    Ok(event)
}

fn take_reply(
    reply: &Reply<'_>,
    profile: &Profile,
    end: &mut End,
    outstanding: &Outstanding,
) -> Event {
    let request = &outstanding.request;
    match reply.kind {
        // A58: a reject's shape is not looked at.
        ReplyKind::Reject => Event::Rejected,
        ReplyKind::Error if read_error(reply.after).is_some() => Event::Restored,
        ReplyKind::Error => Event::WrongShape,
        ReplyKind::Result => match request {
            Request::Interrogation { procedure, .. } => {
                take_list(reply.after, profile, end, *procedure)
            }
            // A56: any octet after the identifier is the wrong shape.
            _ if reply.after.is_empty() => apply(profile, end, request),
            _ => Event::WrongShape,
        },
    }
}

/// A62: all the rules from "not in use" on, on the end's own picture.
fn apply(profile: &Profile, end: &mut End, request: &Request) -> Event {
    match judge(profile, &end.picture, request) {
        Outcome::Done(change) => {
            end.picture = change.instances;
            Event::Applied
        }
        Outcome::Error(_) | Outcome::List(_) => Event::NotApplicable,
    }
}

/// A61: a list that isn't taken leaves the picture as it was.
fn take_list(after: &[u8], profile: &Profile, end: &mut End, procedure: i32) -> Event {
    let listed = read_list(after).and_then(|entries| pictured(&entries, profile, procedure));
    let Some(listed) = listed else {
        return Event::WrongShape;
    };
    let others = end
        .picture
        .iter()
        .filter(|instance| instance.procedure != procedure);
    end.picture = sorted(others.cloned().chain(listed).collect());
    Event::Listed
}

/// The entries as instances of this procedure, if a picture may hold them all (A59, A60).
fn pictured(entries: &[Entry], profile: &Profile, procedure: i32) -> Option<Vec<Instance>> {
    let instances: Vec<Instance> = entries
        .iter()
        .map(|entry| {
            Some(Instance {
                procedure: entry.procedure,
                number: profile.index_of(&entry.number)?,
                service: entry.service,
                address: entry.address.clone(),
            })
        })
        .collect::<Option<_>>()?;
    let one_procedure = entries.iter().all(|entry| entry.procedure == procedure);
    (one_procedure && good_instances(&instances, profile)).then_some(instances)
}

/// Closes the outstanding request with doubt and says whether there was one. Refusals 3, 4 (A40).
pub fn give_up(profile: &Profile, end: &mut End) -> Result<bool, Refusal> {
    profile.check()?;
    end.check(profile)?;
    let Some(outstanding) = end.outstanding.take() else {
        return Ok(false);
    };
    end.set_mark(outstanding.request.procedure(), IN_DOUBT);
    Ok(true)
}

/// What the page reads of one procedure: its instances if known, `None` in doubt. Refusals 3, 4,
/// 10 (A78).
pub fn shown(
    profile: &Profile,
    end: &End,
    procedure: i32,
) -> Result<Option<Vec<Instance>>, Refusal> {
    profile.check()?;
    end.check(profile)?;
    require(is_procedure(procedure), Refusal::BadRequest)?;
    let known = end.mark(procedure) == Some(KNOWN);
    Ok(known.then(|| sorted(of_procedure(&end.picture, procedure).cloned().collect())))
}
