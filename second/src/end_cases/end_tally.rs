//! How often the cases of the end reached each kind, each cause of doubt, and each cause of
//! refusals 4 and 10.

use std::fmt;

use crate::access_record::access_record;
use crate::end::Event;
use crate::end_line::{EndAct, EndAnswer, EndLine};
use crate::profile::Profile;
use crate::refusal::Refusal;
use crate::soak_kinds::{Kind, KINDS_OF_PATHS};
use crate::tally::{MustReach, Tally};
use crate::transcript::Situation;

use super::bad_lists::{ListFault, LIST_FAULTS};
use super::end_flaws::{EndFlaw, END_FLAWS};
use super::event_kinds::EVENTS;
use super::kinds::Reached;
use super::making_kinds::MAKINGS;
use super::makings::Making;
use super::reached;
use super::refusal_kinds::REFUSALS;
use super::request_flaws::{RequestFlaw, REQUEST_FLAWS};
use super::rubbish::{self, Rubbish, RUBBISH};
use super::shapes::{Shape, SHAPES};

#[derive(Clone, Debug, PartialEq, Eq)]
pub struct EndTally {
    refusals: Tally<Reached>,
    events: Tally<Reached>,
    makings: Tally<Reached>,
    rubbish: Tally<Rubbish>,
    pub path: Tally<Kind>,
    /// Causes of doubt.
    shapes: Tally<Shape>,
    lists: Tally<ListFault>,
    /// Causes of refusal 10 of a request, and of refusal 4 of an end.
    requests: Tally<RequestFlaw>,
    ends: Tally<EndFlaw>,
}

/// Where a line comes from, as far as it was made with intent.
#[derive(Clone, Copy, Debug, Default)]
pub struct Origin {
    pub making: Option<Making>,
    pub request: Option<RequestFlaw>,
    pub end: Option<EndFlaw>,
}

impl EndTally {
    pub fn empty() -> Self {
        EndTally {
            refusals: Tally::of(&REFUSALS),
            events: Tally::of(&EVENTS),
            makings: Tally::of(&MAKINGS),
            rubbish: Tally::of(&RUBBISH),
            path: Tally::of(KINDS_OF_PATHS),
            shapes: Tally::of(&SHAPES),
            lists: Tally::of(&LIST_FAULTS),
            requests: Tally::of(&REQUEST_FLAWS),
            ends: Tally::of(&END_FLAWS),
        }
    }

    /// The profile is the one that the records were made for.
    pub fn add(&mut self, now: &Situation, profile: &Profile, line: &EndLine, origin: Origin) {
        for kind in reached::by(now, profile, line) {
            self.refusals.add(kind, 1);
            self.events.add(kind, 1);
        }
        self.events.add(Reached::Output(now.output), 1);
        if let EndAnswer::Refused(number) = line.answer {
            return self.add_refusal(number, origin);
        }
        for kind in rubbish::by(now, line) {
            self.rubbish.add(kind, 1);
        }
        if now.access != access_record(profile) {
            self.events.add(Reached::AccessRubbish, 1);
        }
        self.add_making(now, line, origin.making);
    }

    fn add_refusal(&mut self, number: u8, origin: Origin) {
        if let Some(flaw) = origin.request {
            let times = u64::from(number == Refusal::BadRequest.number());
            self.requests.add(flaw, times);
        }
        if let Some(flaw) = origin.end {
            let times = u64::from(number == Refusal::BadRecord.number());
            self.ends.add(flaw, times);
        }
        if let Some(Making::Sized(size)) = origin.making {
            let times = u64::from(number == Refusal::ComponentTooLong.number());
            self.makings.add(Reached::Made(Making::Sized(size)), times);
        }
    }

    /// A cause counts only where it gave doubt.
    fn add_making(&mut self, now: &Situation, line: &EndLine, making: Option<Making>) {
        let (Some(making), EndAct::Arrived(component)) = (making, &line.act) else {
            return;
        };
        self.makings.add(Reached::Made(making), 1);
        let taken = now.taken(component).map(|(event, _)| event);
        let times = u64::from(taken == Ok(Event::WrongShape));
        match making {
            Making::WrongShape(shape) => self.shapes.add(shape, times),
            Making::BadList(fault) => self.lists.add(fault, times),
            _ => {}
        }
    }

    /// Each part with what it is about.
    fn parts(&self) -> [(&str, &dyn MustReach); 9] {
        [
            ("refusals", &self.refusals),
            ("events", &self.events),
            ("components", &self.makings),
            ("octets without meaning", &self.rubbish),
            ("the path", &self.path),
            ("doubt: wrong shape", &self.shapes),
            ("doubt: bad list", &self.lists),
            ("causes of refused 10", &self.requests),
            ("causes of refused 4, besides the picture's", &self.ends),
        ]
    }
}

impl MustReach for EndTally {
    fn never_reached(&self) -> Vec<String> {
        let parts = self.parts();
        let never = parts.iter().flat_map(|(about, tally)| {
            let kinds = tally.never_reached().into_iter();
            kinds.map(move |kind| format!("{about}: {kind}"))
        });
        never.collect()
    }
}

impl fmt::Display for EndTally {
    fn fmt(&self, text: &mut fmt::Formatter<'_>) -> fmt::Result {
        for (about, tally) in self.parts() {
            write!(text, "{about}\n{tally}")?;
        }
        Ok(())
    }
}
