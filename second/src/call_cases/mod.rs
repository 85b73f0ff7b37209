//! Calls made at random from a seed, as lines with what this program makes of them, and a tally of
//! what they reached.

mod kinds;
mod makings;
mod reached;

use crate::call_answer::CallAnswer;
use crate::cases::Cases;
use crate::made;
use crate::profile::Profile;
use crate::random::Random;
use crate::records_at_random::{access, bad_access, fill_past_run, table};
use crate::refusal::Refusal;
use crate::table::{Instance, Table};
use crate::tally::Tally;
use crate::transcript::Situation;

pub use kinds::{Reached, KINDS};

/// So many calls, the same for the same seed.
pub fn call_cases(seed: u64, count: u64) -> Cases<Tally<Reached>> {
    let mut cases = Cases::to_make(seed, count, Tally::of(&KINDS));
    while cases.left > 0 {
        // Refused episodes are short, so that most calls get past refusals 3 and 4.
        match cases.random.below(7) {
            0 | 1 => cases.refused_episode(),
            2 => cases.flawed_episode(),
            _ => cases.good_episode(),
        }
    }
    cases
}

impl Cases<Tally<Reached>> {
    /// Seldom a table without instances.
    fn profile_and_table(&mut self) -> (Profile, Table) {
        let random = &mut self.random;
        loop {
            let profile = made::profile(random);
            let held = made::table(random, &profile);
            if !held.instances.is_empty() || random.once_in(8) {
                return (profile, held);
            }
        }
    }

    fn good_situation(&mut self, profile: &Profile, held: &Table) -> Situation {
        let random = &mut self.random;
        let access = access(random, profile);
        let mut table = table(random, profile, held);
        if random.once_in(12) {
            let others = instances_not_held(random, profile, held);
            fill_past_run(random, &mut table, &others, 1);
        }
        Situation {
            access,
            table,
            ..Situation::at_the_start()
        }
    }

    fn good_episode(&mut self) {
        let (profile, held) = self.profile_and_table();
        let situation = self.good_situation(&profile, &held);
        self.lines.bring_about(&situation);
        for _ in 0..self.random.one_of(&[4, 8, 24]) {
            self.case(&profile, &held);
        }
    }

    /// A bad access record, a bad table, or both.
    fn refused_episode(&mut self) {
        let (profile, held) = self.profile_and_table();
        let mut situation = self.good_situation(&profile, &held);
        let faults = self.random.one_of(&[1, 2, 3]);
        if faults & 1 != 0 {
            situation.access = bad_access(&mut self.random, &profile);
        }
        if faults & 2 != 0 {
            situation.table = self.thrown_table(&profile, &held);
        }
        self.lines.bring_about(&situation);
        for _ in 0..=self.random.below(3) {
            self.case(&profile, &held);
        }
    }

    /// Tables with a flaw one after the other, each with a call.
    fn flawed_episode(&mut self) {
        let (profile, held) = self.profile_and_table();
        let mut situation = self.good_situation(&profile, &held);
        for _ in 0..5 {
            situation.table = self.thrown_table(&profile, &held);
            self.lines.bring_about(&situation);
            self.case(&profile, &held);
        }
    }

    /// A call comes, unless there are cases enough.
    fn case(&mut self, profile: &Profile, held: &Table) {
        if !self.one_more() {
            return;
        }
        let (making, record) = makings::any(&mut self.random, profile, held);
        let now = self.lines.now();
        for kind in reached::by(now, making, &record) {
            self.tally.add(kind, 1);
        }
        let answer = now.called(&record);
        if answer == CallAnswer::Refused(Refusal::BadRecord.number()) {
            self.table_refused();
        }
        self.lines.call(&record, &answer);
    }
}

/// They stand past the run's count, so that calls look for such.
fn instances_not_held(random: &mut Random, profile: &Profile, held: &Table) -> Vec<Instance> {
    let mut others = made::instances(random, profile);
    others.retain(|other| held.instances.iter().all(|one| one.key() != other.key()));
    others
}
