//! Cases of the exchange made at random from a seed, as lines with the answers of this program's
//! exchange, and a tally of what they reached.

mod makings;
mod reached;
mod run;

use crate::access_record::access_record;
use crate::cases::Cases;
use crate::codes::{place, PROCEDURES};
use crate::made;
use crate::profile::Profile;
use crate::records_at_random::{access, scribble, table};
use crate::refusal::{Refusal, COMPONENT_OUTPUT};
use crate::table::Table;
use crate::table_record::TableRecord;
use crate::tally::Tally;
use crate::transcript::Situation;

pub use makings::Making;
pub use reached::{Reached, KINDS};

/// So many components, the same for the same seed.
pub fn exchange_cases(seed: u64, count: u64) -> Cases<Tally<Reached>> {
    let mut cases = Cases::to_make(seed, count, Tally::of(&KINDS));
    while cases.left > 0 {
        // Refused episodes are short, so that most cases get past the refusals.
        match cases.random.below(14) {
            0..=5 => cases.refused_episode(),
            6..=9 => cases.mixed_episode(),
            10 => cases.growing_episode(),
            11 => cases.swept_episode(),
            _ => cases.flawed_episode(),
        }
    }
    cases
}

impl Cases<Tally<Reached>> {
    /// A good access with a good table and enough output.
    fn good_situation(&mut self, profile: &Profile) -> Situation {
        let random = &mut self.random;
        let held = made::table(random, profile);
        Situation {
            access: access(random, profile),
            table: table(random, profile, &held),
            output: random.one_of(&[COMPONENT_OUTPUT, COMPONENT_OUTPUT, 708, 1_024]),
            ..Situation::at_the_start()
        }
    }

    /// One or more refusals at once.
    fn refused_episode(&mut self) {
        let profile = made::profile(&mut self.random);
        let mut situation = self.good_situation(&profile);
        let faults = self.random.one_of(&[1, 2, 2, 4, 4, 3, 6, 7]);
        self.spoil(&mut situation, &profile, faults, &[0, 1, 706, 706]);
        self.lines.bring_about(&situation);
        for _ in 0..=self.random.below(3) {
            self.any_component(&profile);
        }
    }

    /// Tables with a flaw one after the other, each with a component.
    fn flawed_episode(&mut self) {
        let profile = made::profile(&mut self.random);
        let mut situation = self.good_situation(&profile);
        for _ in 0..5 {
            self.spoil(&mut situation, &profile, 4, &[]);
            self.lines.bring_about(&situation);
            self.any_component(&profile);
        }
    }

    /// Components of every making, one after the other.
    fn mixed_episode(&mut self) {
        let profile = made::profile(&mut self.random);
        let mut situation = self.good_situation(&profile);
        if self.random.once_in(3) {
            situation.table = TableRecord::fresh();
        }
        self.lines.bring_about(&situation);
        for _ in 0..self.random.one_of(&[4, 16, 40]) {
            self.any_component(&profile);
        }
    }

    fn any_component(&mut self, profile: &Profile) {
        let last = i32::from(self.lines.now().table.last);
        let (making, component) = makings::any(&mut self.random, profile, last);
        self.case(profile, making, &component);
    }

    /// One procedure of a wide access, until there is no room; at times with new rubbish in what
    /// is held, and past it.
    fn growing_episode(&mut self) {
        let mut profile = made::roomy_profile(&mut self.random);
        let procedure = self.random.one_of(&PROCEDURES);
        if let Some(flag) = place(procedure).and_then(|at| profile.subscribed.get_mut(at)) {
            *flag = 1;
        }
        profile.in_use = 1;
        let mut situation = self.good_situation(&profile);
        situation.table = table(&mut self.random, &profile, &Table::fresh());
        self.lines.bring_about(&situation);
        for _ in 0..30 {
            if self.random.once_in(4) {
                let mut scribbled = self.lines.now().clone();
                scribble(&mut self.random, &profile, &mut scribbled.table);
                self.lines.bring_about(&scribbled);
            }
            let last = i32::from(self.lines.now().table.last);
            let (making, component) = makings::growing(&mut self.random, &profile, procedure, last);
            self.case(&profile, making, &component);
        }
    }

    /// One request damaged in every place, each time against the same table.
    fn swept_episode(&mut self) {
        let profile = made::profile(&mut self.random);
        let situation = self.good_situation(&profile);
        let last = i32::from(situation.table.last);
        let (making, components) = makings::sweep(&mut self.random, &profile, last);
        for component in components {
            self.lines.bring_about(&situation);
            self.case(&profile, making, &component);
        }
    }

    /// The component arrives, unless there are cases enough.
    fn case(&mut self, profile: &Profile, making: Making, component: &[u8]) {
        if !self.one_more() {
            return;
        }
        let now = self.lines.now();
        let outcome = now.arrived(component);
        let mut reached = vec![Reached::Made(making), Reached::Output(now.output)];
        reached.extend(reached::by(component, &outcome));
        if let Ok((arrived, next)) = &outcome {
            let past_counts = now.access != access_record(profile);
            reached.extend(past_counts.then_some(Reached::AccessRubbish));
            let run = run::by(&now.table, arrived, next);
            reached.extend(run.into_iter().map(Reached::Run));
        }
        for kind in reached {
            self.tally.add(kind, 1);
        }
        if outcome == Err(Refusal::BadRecord) {
            self.table_refused();
        }
        let (said, next) = self.lines.now().said(outcome);
        self.lines.component(component, &said, &next);
    }
}
