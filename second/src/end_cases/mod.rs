//! Cases of the end made at random from a seed, as lines with what this program's end does, and a
//! tally of what they reached. Every history begins with a line `start`.

mod answered;
pub mod bad_addresses;
pub mod bad_lists;
pub mod end_flaws;
mod end_tally;
pub mod ends_at_random;
mod event_kinds;
mod histories;
mod kinds;
mod making_kinds;
mod makings;
mod reached;
mod refusal_kinds;
mod refused;
pub mod request_flaws;
mod rubbish;
pub mod shapes;
pub mod waiting;

use crate::cases::Cases;
use crate::codes::INTERROGATION;
use crate::end_line::{EndAct, EndAnswer, EndLine};
use crate::profile::Profile;
use crate::records_at_random::access;
use crate::refusal::{Refusal, COMPONENT_OUTPUT};
use crate::request_record::PROCEDURE;
use crate::transcript::Situation;

use end_tally::Origin;
use makings::Made;

pub use end_tally::EndTally;

/// So many lines of `send`, `arrived`, `give-up` and `shown`, the same for the same seed.
pub fn end_cases(seed: u64, count: u64) -> Cases<EndTally> {
    let mut cases = Cases::to_make(seed, count, EndTally::empty());
    while cases.left > 0 {
        cases.lines.start();
        match cases.random.below(25) {
            0..=3 => cases.history(),
            4..=8 => cases.answered_episode(),
            9..=12 => cases.results_episode(),
            13 | 14 => cases.doubted_episode(),
            15..=17 => cases.refused_episode(),
            18..=21 => cases.flawed_episode(),
            22 => cases.unsendable_episode(),
            _ => cases.swept_episode(),
        }
    }
    cases
}

impl Cases<EndTally> {
    /// A good access with a good end and enough output.
    fn good_situation(&mut self, profile: &Profile) -> Situation {
        let random = &mut self.random;
        Situation {
            access: access(random, profile),
            end: ends_at_random::any(random, profile),
            output: random.one_of(&[COMPONENT_OUTPUT, COMPONENT_OUTPUT, 708, 1_024, 2_048]),
            ..Situation::at_the_start()
        }
    }

    fn sending(&mut self, profile: &Profile) -> EndAct {
        let operation = ends_at_random::operation(&mut self.random);
        let record = ends_at_random::request(&mut self.random, profile, operation);
        match operation {
            INTERROGATION => EndAct::Interrogate(record[PROCEDURE]),
            _ => EndAct::Send(operation, Box::new(record)),
        }
    }

    fn any_arrival(&mut self, profile: &Profile) {
        let end = &self.lines.now().end;
        let made = makings::any(&mut self.random, profile, end);
        self.arrival(profile, made);
    }

    fn arrival(&mut self, profile: &Profile, (making, octets): Made) {
        let origin = Origin {
            making: Some(making),
            ..Origin::default()
        };
        self.case(profile, EndAct::Arrived(octets), origin);
    }

    /// A procedure as a rule.
    fn any_showing(&mut self, profile: &Profile) {
        let procedure = match self.random.below(10) {
            0 => self.random.one_of(&[3, 4, 128, 255]),
            _ => self.random.below(3) as u8,
        };
        self.case(profile, EndAct::Shown(procedure), Origin::default());
    }

    /// The line is told, unless there are cases enough. Only the lowest refusal that is due is one.
    fn case(&mut self, profile: &Profile, act: EndAct, origin: Origin) -> EndLine {
        let line = EndLine::of(self.lines.now(), act);
        if !self.one_more() {
            return line;
        }
        let now = self.lines.now();
        let due = reached::due(now, profile, &line.act).first().copied();
        let refused = match line.answer {
            EndAnswer::Refused(number) => Some(number),
            _ => None,
        };
        assert_eq!(refused, due, "{:?} at {now:?}", line.act);
        self.tally.add(now, profile, &line, origin);
        if refused == Some(Refusal::BadRecord.number()) && origin.end.is_none() {
            self.table_refused();
        }
        line.tell(&mut self.lines);
        line
    }
}
