//! What an arrival did to the run, apart from what its instances mean.

use crate::answer::Answer;
use crate::exchange::Arrived;
use crate::table_record::{key_at, TableRecord};
use crate::table_rubbish::{in_an_instance, past_counts, past_the_run};

#[derive(Clone, Copy, Debug, PartialEq, Eq)]
pub enum Run {
    /// An instance that stays stands at another place.
    MovedByActivation,
    MovedByDeactivation,
    /// Octets past an instance's counts, though the run is written anew.
    RubbishStays,
    /// Octets past an instance's counts, but that instance is made anew.
    RubbishReplaced,
    /// Octets past the run's count, but the run is written anew.
    RubbishCleared,
    /// Of a run that stays as it was.
    RubbishKept,
    RubbishKeptPastCount,
}

pub fn by(before: &TableRecord, arrived: &Arrived, next: &TableRecord) -> Vec<Run> {
    let found = match arrived.answer {
        Answer::Result { .. } => written_anew(before, arrived, next),
        _ => vec![
            (in_an_instance(next), Run::RubbishKept),
            (past_the_run(next), Run::RubbishKeptPastCount),
        ],
    };
    let there = found.into_iter().filter(|(there, _)| *there);
    there.map(|(_, run)| run).collect()
}

fn written_anew(before: &TableRecord, arrived: &Arrived, next: &TableRecord) -> Vec<(bool, Run)> {
    let activated = !arrived.made.is_empty();
    let moved = moved(before, arrived, next);
    let mut replaced = arrived.made.iter().filter_map(|key| before.held(*key));
    vec![
        (moved && activated, Run::MovedByActivation),
        (moved && !activated, Run::MovedByDeactivation),
        (in_an_instance(next), Run::RubbishStays),
        (replaced.any(past_counts), Run::RubbishReplaced),
        (past_the_run(before), Run::RubbishCleared),
    ]
}

fn moved(before: &TableRecord, arrived: &Arrived, next: &TableRecord) -> bool {
    let mut places = next.places.iter().zip(&before.places);
    places.any(|(now, former)| {
        let key = key_at(now);
        let stays = before.held(key).is_some() && !arrived.made.contains(&key);
        stays && next.held(key).is_some() && key_at(former) != key
    })
}
