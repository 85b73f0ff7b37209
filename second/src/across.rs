//! Two meetings with another program over a path that loses, repeats, delays and reorders: this
//! program's end with the other's exchange, and the other's end with this program's exchange.

use std::fmt;

use crate::meeting::{Meeting, Others};
use crate::random::Random;
use crate::soak_kinds::{Kind, KINDS_OF_MEETINGS};
use crate::talk::{Talk, Talked};
use crate::tally::{MustReach, Tally};
use crate::world::{Checks, World};

/// How many events a history can have; the longest goes past the identifiers of one octet.
const LENGTHS: [u64; 5] = [25, 50, 100, 200, 900];

const MEETINGS: [(Others, &str); 2] = [
    (Others::Exchange, "own end, the other's exchange"),
    (Others::End, "the other's end, own exchange"),
];

/// What one kind of meeting has come to.
#[derive(Clone, Debug, PartialEq, Eq)]
struct Count {
    histories: u64,
    events: u64,
    tally: Tally<Kind>,
}

/// That of each kind of meeting.
#[derive(Clone, Debug, PartialEq, Eq)]
pub struct Counts([Count; 2]);

/// What must not be, and what was said since the last `start`.
#[derive(Clone, Debug, PartialEq, Eq)]
pub struct Breach {
    pub others: Others,
    /// How many events there were before.
    pub event: u64,
    pub what: String,
    pub lines: Vec<String>,
}

/// So many events, the same for the same seed as long as the other program answers the same.
pub fn across(
    talk: Box<dyn Talk>,
    seed: u64,
    events: u64,
    checks: Checks,
) -> Result<Counts, Breach> {
    let mut talked = Talked::with(talk);
    let mut random = Random::seeded(seed);
    let mut counts = Counts::none();
    let mut others = Others::Exchange;
    while counts.events() < events {
        let (at, next) = counts.behind();
        others = next;
        let length = random.one_of(&LENGTHS).min(events - counts.events());
        let lived = counts.0[at].history(&mut talked, others, random, length, checks);
        random = lived.map_err(|what| breach(&talked, &counts, others, what))?;
    }
    let ended = talked.ends();
    ended.map_err(|what| breach(&talked, &counts, others, what))?;
    Ok(counts)
}

fn breach(talked: &Talked, counts: &Counts, others: Others, what: String) -> Breach {
    Breach {
        others,
        event: counts.events(),
        what,
        lines: talked.lines().to_vec(),
    }
}

impl Count {
    fn history(
        &mut self,
        talked: &mut Talked,
        others: Others,
        mut random: Random,
        length: u64,
        checks: Checks,
    ) -> Result<Random, String> {
        let meeting = Meeting::fresh(talked, others, &mut random)?;
        let mut world = World::fresh(meeting, random, checks, self.tally.clone());
        self.histories += 1;
        for _ in 0..length {
            world.event()?;
            self.events += 1;
        }
        let (random, tally) = world.closed();
        self.tally = tally;
        Ok(random)
    }
}

impl Counts {
    fn none() -> Self {
        Counts([(); 2].map(|()| Count {
            histories: 0,
            events: 0,
            tally: Tally::of(KINDS_OF_MEETINGS),
        }))
    }

    fn events(&self) -> u64 {
        self.0.iter().map(|count| count.events).sum()
    }

    /// The meeting that has had fewer events.
    fn behind(&self) -> (usize, Others) {
        let [first, second] = &self.0;
        let at = usize::from(second.events < first.events);
        (at, MEETINGS[at].0)
    }

    fn named(&self) -> impl Iterator<Item = (&'static str, &Count)> {
        MEETINGS.iter().map(|(_, name)| *name).zip(&self.0)
    }
}

impl MustReach for Counts {
    fn never_reached(&self) -> Vec<String> {
        let of_each = self.named().flat_map(|(name, count)| {
            let never = count.tally.never_reached().into_iter();
            never.map(move |kind| format!("{name}: {kind}"))
        });
        of_each.collect()
    }
}

impl fmt::Display for Counts {
    fn fmt(&self, text: &mut fmt::Formatter<'_>) -> fmt::Result {
        for (name, count) in self.named() {
            let (histories, events) = (count.histories, count.events);
            writeln!(text, "{name}: {events} events in {histories} histories")?;
            write!(text, "{}", count.tally)?;
        }
        Ok(())
    }
}

impl fmt::Display for Breach {
    fn fmt(&self, text: &mut fmt::Formatter<'_>) -> fmt::Result {
        let named = MEETINGS.iter().find(|(others, _)| *others == self.others);
        let name = named.map_or("", |(_, name)| *name);
        writeln!(text, "breach after {} events, {name}", self.event)?;
        writeln!(text, "{}", self.what)?;
        writeln!(text, "lines since the last start, answers as remarks:")?;
        for line in &self.lines {
            writeln!(text, "{line}")?;
        }
        Ok(())
    }
}
