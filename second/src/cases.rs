//! Cases made at random from a seed, as lines, with a tally of what they reached.

use std::fmt;

use crate::made;
use crate::profile::Profile;
use crate::random::Random;
use crate::records_at_random::{bad_access, thrown_table};
use crate::table::Table;
use crate::table_flaws::{Flaw, FLAWS};
use crate::table_record::TableRecord;
use crate::tally::{MustReach, Tally};
use crate::transcript::{Situation, Transcript};

pub struct Cases<T> {
    pub lines: Transcript,
    pub tally: T,
    /// Causes of refusal 4.
    pub flaws: Tally<Flaw>,
    pub(crate) random: Random,
    /// How many are still to be made.
    pub(crate) left: u64,
    /// That of the table thrown last.
    flaw: Option<Flaw>,
}

impl<T> Cases<T> {
    /// So many cases are to be made; nothing is tallied yet.
    pub fn to_make(seed: u64, count: u64, tally: T) -> Self {
        Cases {
            lines: Transcript::empty(),
            tally,
            flaws: Tally::of(&FLAWS),
            random: Random::seeded(seed),
            left: count,
            flaw: None,
        }
    }

    /// Whether there is one more to be made; it counts as made.
    pub(crate) fn one_more(&mut self) -> bool {
        let wanted = self.left > 0;
        self.left = self.left.saturating_sub(1);
        wanted
    }

    /// Refusals of this good situation, a bit of the faults each: 1 is one of the outputs that
    /// are too short, 2 a bad access record, 4 a table with a flaw.
    pub(crate) fn spoil(
        &mut self,
        situation: &mut Situation,
        profile: &Profile,
        faults: u8,
        short: &[usize],
    ) {
        let random = &mut self.random;
        if faults & 1 != 0 {
            situation.output = random.pick(short).copied().unwrap_or(0);
        }
        if faults & 2 != 0 {
            situation.access = bad_access(random, profile);
        }
        if faults & 4 != 0 {
            let held = made::table(random, profile);
            situation.table = self.thrown_table(profile, &held);
        }
    }

    /// A table with a flaw, which is known from now on.
    pub(crate) fn thrown_table(&mut self, profile: &Profile, held: &Table) -> TableRecord {
        let (flaw, table) = thrown_table(&mut self.random, profile, held);
        self.flaw = Some(flaw);
        table
    }

    /// Refusal 4: good tables never are, so it is the one thrown last.
    pub(crate) fn table_refused(&mut self) {
        if let Some(flaw) = self.flaw {
            self.flaws.add(flaw, 1);
        }
    }
}

impl<T: MustReach> MustReach for Cases<T> {
    /// Kinds, then causes.
    fn never_reached(&self) -> Vec<String> {
        let flaws = self.flaws.never_reached().into_iter();
        let flaws = flaws.map(|cause| format!("refused 4: {cause}"));
        self.tally
            .never_reached()
            .into_iter()
            .chain(flaws)
            .collect()
    }
}

impl<T: MustReach> fmt::Display for Cases<T> {
    fn fmt(&self, text: &mut fmt::Formatter<'_>) -> fmt::Result {
        write!(text, "{}causes of refused 4\n{}", self.tally, self.flaws)
    }
}
