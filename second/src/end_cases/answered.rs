//! Episodes of components that arrive: of every making, results, every cause of doubt, and one reply
//! damaged in every place.

use crate::cases::Cases;
use crate::codes::{GREATEST_IDENTIFIER, INTERROGATION};
use crate::end_line::EndAct;
use crate::end_record::EndRecord;
use crate::made;
use crate::profile::Profile;
use crate::request_record::PROCEDURE;

use super::bad_lists::{self, LIST_FAULTS};
use super::end_tally::{EndTally, Origin};
use super::ends_at_random;
use super::makings::{self, Making};
use super::shapes::{self, SHAPES};
use super::waiting::Waiting;

impl Cases<EndTally> {
    /// Components of every making, each for a request that is outstanding as a rule.
    pub(super) fn answered_episode(&mut self) {
        let profile = made::profile(&mut self.random);
        let situation = self.good_situation(&profile);
        self.lines.bring_about(&situation);
        for _ in 0..self.random.one_of(&[4, 8, 16]) {
            let end = &self.lines.now().end;
            let used_up = i32::from(end.held.last) == GREATEST_IDENTIFIER;
            if end.outstanding == 0 && used_up {
                let other = self.good_situation(&profile);
                self.lines.bring_about(&other);
            }
            if self.lines.now().end.outstanding == 0 && !self.random.once_in(8) {
                let act = self.sending(&profile);
                self.case(&profile, act, Origin::default());
            }
            self.any_arrival(&profile);
            if self.random.once_in(3) {
                self.any_showing(&profile);
            }
            if self.random.once_in(8) {
                self.case(&profile, EndAct::GiveUp, Origin::default());
            }
        }
    }

    /// Results, each for another end of the same access, and what is shown then; at times nothing
    /// is outstanding.
    pub(super) fn results_episode(&mut self) {
        let profile = made::profile(&mut self.random);
        let mut situation = self.good_situation(&profile);
        for _ in 0..10 {
            let operation = ends_at_random::operation(&mut self.random);
            let waits = ends_at_random::waiting(&mut self.random, &profile, operation);
            situation.end = waits;
            if let Some(waiting) = Waiting::at(&situation.end) {
                let result = waiting.result(&mut self.random, &profile).written();
                if self.random.once_in(5) {
                    situation.end = ends_at_random::idle(&mut self.random, &profile);
                }
                self.lines.bring_about(&situation);
                self.arrival(&profile, (Making::Result, result));
                let procedure = situation.end.request[PROCEDURE];
                if self.random.once_in(2) {
                    self.case(&profile, EndAct::Shown(procedure), Origin::default());
                }
            }
        }
    }

    /// Every cause of doubt that this access has, each against the same end that waits, and at times
    /// what is shown then.
    pub(super) fn doubted_episode(&mut self) {
        let mut profile = made::roomy_profile(&mut self.random);
        match self.random.below(4) {
            0 => profile.subscribed = [0; 3],
            1 => profile.subscribed = [1; 3],
            _ => profile = made::profile(&mut self.random),
        }
        let mut situation = self.good_situation(&profile);
        let operation = ends_at_random::operation(&mut self.random);
        situation.end = ends_at_random::waiting(&mut self.random, &profile, operation);
        for (making, octets) in self.doubts(&profile, &situation.end) {
            self.lines.bring_about(&situation);
            self.arrival(&profile, (making, octets));
            if self.random.once_in(4) {
                self.any_showing(&profile);
            }
        }
    }

    fn doubts(&mut self, profile: &Profile, end: &EndRecord) -> Vec<makings::Made> {
        let Some(waiting) = Waiting::at(end) else {
            return Vec::new();
        };
        let mut all = Vec::new();
        for (shape, _) in SHAPES {
            let made = shapes::with(&mut self.random, &waiting, &shape);
            all.extend(made.map(|made| (Making::WrongShape(shape), made)));
        }
        for (fault, _) in LIST_FAULTS {
            let made = bad_lists::with(&mut self.random, profile, &waiting, fault);
            all.extend(made.map(|made| (Making::BadList(fault), made)));
        }
        all
    }

    /// One reply damaged in every place, each time against the same end; a quarter of them.
    pub(super) fn swept_episode(&mut self) {
        let profile = made::profile(&mut self.random);
        let mut situation = self.good_situation(&profile);
        situation.end = ends_at_random::waiting(&mut self.random, &profile, INTERROGATION);
        let Some(waiting) = Waiting::at(&situation.end) else {
            return;
        };
        let (making, components) = makings::sweep(&mut self.random, &profile, &waiting);
        for component in components {
            if self.random.once_in(4) {
                self.lines.bring_about(&situation);
                self.arrival(&profile, (making, component));
            }
        }
    }
}
