//! The request that an end waits for, and what may answer it.

use crate::answer::{Answer, Entry, Problem};
use crate::codes::INTERROGATION;
use crate::end_record::EndRecord;
use crate::full_tables::instances_of;
use crate::profile::Profile;
use crate::random::Random;
use crate::request_record::PROCEDURE;
use crate::table::{Instance, MOST_INSTANCES};

#[derive(Clone, Copy, Debug, PartialEq, Eq)]
pub struct Waiting {
    pub identifier: i32,
    pub operation: i32,
    pub procedure: i32,
}

impl Waiting {
    /// `None` where nothing is outstanding.
    pub fn at(end: &EndRecord) -> Option<Self> {
        (end.outstanding == 1).then(|| Waiting {
            identifier: i32::from(end.held.last),
            operation: i32::from(end.operation),
            procedure: i32::from(end.request[PROCEDURE]),
        })
    }

    /// Without contents, or a good list.
    pub fn result(&self, random: &mut Random, profile: &Profile) -> Answer {
        let identifier = self.identifier;
        if self.operation != INTERROGATION {
            return Answer::Result { identifier };
        }
        let mut entries = Vec::new();
        if profile.subscribes(self.procedure) && !random.once_in(4) {
            entries = good_list(random, profile, self.procedure);
        }
        Answer::List {
            identifier,
            entries,
        }
    }

    pub fn error(&self, random: &mut Random) -> Answer {
        Answer::Error {
            identifier: self.identifier,
            code: random.one_of(&[0, 3, 6, 8, 11, 12, 14, 15, 46, 1, 300, -1, -300]),
        }
    }

    pub fn reject(&self, random: &mut Random) -> Answer {
        let problem = random.one_of(&[
            Problem::Invoke(0),
            Problem::Invoke(1),
            Problem::Invoke(2),
            Problem::General(1),
        ]);
        Answer::Reject {
            identifier: Some(self.identifier),
            problem,
        }
    }
}

/// One to eight entries of different numbers and services; half of the time in another order.
pub fn good_list(random: &mut Random, profile: &Profile, procedure: i32) -> Vec<Entry> {
    let pairs = profile.numbers.len() * profile.services.len();
    let wanted = random.one_of(&[1, 2, 3, 5, MOST_INSTANCES]).min(pairs);
    let instances = instances_of(random, profile, procedure, wanted).unwrap_or_default();
    let mut entries: Vec<Entry> = instances
        .iter()
        .filter_map(|instance| entry(profile, instance))
        .collect();
    if random.once_in(2) {
        for at in 1..entries.len() {
            entries.swap(at, random.below(at + 1));
        }
    }
    entries
}

/// As a list carries it.
pub fn entry(profile: &Profile, instance: &Instance) -> Option<Entry> {
    Some(Entry {
        number: profile.number(instance.number)?.clone(),
        service: instance.service,
        procedure: instance.procedure,
        address: instance.address.clone(),
    })
}
