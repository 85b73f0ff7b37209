//! Demand 3 by running: a counted end and the exchange, fresh, one profile, over a path that
//! loses, repeats, delays and reorders. At every moment each procedure shown as known equals
//! the exchange's table; and a whole interrogation that is handled, whose result is the first
//! matching reply to come, makes its procedure known.

use crate::codes::GREATEST_IDENTIFIER;
use crate::made;
use crate::profile::Profile;
use crate::random::Random;
use crate::sides::Own;
use crate::soak_kinds::{Kind, KINDS_OF_SOAKS};
use crate::tally::Tally;
use crate::world::{Checks, World};
use crate::wrong::Wrong;

/// What went wrong, and where to find it again.
#[derive(Clone, Debug, PartialEq, Eq)]
pub struct Fault {
    pub seed: u64,
    pub step: u64,
    pub what: String,
}

/// Runs every seed for so many steps; the tally of all, or the first fault.
pub fn soak(seeds: u64, steps: u64) -> Result<Tally<Kind>, Fault> {
    soak_of(None, Checks::All, seeds, steps)
}

/// The same with a wrong end or exchange, or with fewer checks.
pub fn soak_of(
    wrong: Option<Wrong>,
    checks: Checks,
    seeds: u64,
    steps: u64,
) -> Result<Tally<Kind>, Fault> {
    let mut tally = Tally::of(KINDS_OF_SOAKS);
    for seed in 0..seeds {
        let mut world = fresh(Random::seeded(seed), wrong, checks, tally);
        for step in 0..steps {
            let event = world.event();
            event.map_err(|what| Fault { seed, step, what })?;
            if world.used() == GREATEST_IDENTIFIER {
                let (random, tally) = world.closed();
                world = fresh(random, wrong, checks, tally);
            }
        }
        (_, tally) = world.closed();
    }
    Ok(tally)
}

fn fresh(
    mut random: Random,
    wrong: Option<Wrong>,
    checks: Checks,
    tally: Tally<Kind>,
) -> World<Own> {
    let sides = Own::fresh(counted_profile(&mut random), wrong);
    World::fresh(sides, random, checks, tally)
}

/// Any good profile of a counted end.
pub fn counted_profile(random: &mut Random) -> Profile {
    Profile {
        counted: 1,
        ..made::profile(random)
    }
}
