//! The table of active instances with the last handled identifier, and the rules that tables,
//! pictures and sheets obey (refusal 4).

use crate::codes::{is_procedure, GREATEST_IDENTIFIER, PROCEDURES};
use crate::numbers::Address;
use crate::profile::Profile;
use crate::refusal::{require, Refusal};

/// The most instances of one procedure.
pub const MOST_INSTANCES: usize = 8;

/// The number is held by its index in the profile, the service by its code (A5).
#[derive(Clone, Debug, PartialEq, Eq, PartialOrd, Ord)]
pub struct Instance {
    pub procedure: i32,
    pub number: i32,
    pub service: i32,
    pub address: Address,
}

#[derive(Clone, Debug, PartialEq, Eq)]
pub struct Table {
    pub last: i32,
    /// In any order (A8): a record's or a sheet's is judged where that is read.
    pub instances: Vec<Instance>,
}

impl Instance {
    /// What at most one instance may have.
    pub fn key(&self) -> (i32, i32, i32) {
        (self.procedure, self.number, self.service)
    }

    fn good(&self, profile: &Profile) -> bool {
        is_procedure(self.procedure)
            && profile.subscribes(self.procedure)
            && profile.number(self.number).is_some()
            && profile.has_service(self.service)
            && self.address.good()
    }
}

impl Table {
    pub fn fresh() -> Self {
        Table {
            last: 0,
            instances: Vec::new(),
        }
    }

    pub fn check(&self, profile: &Profile) -> Result<(), Refusal> {
        require(self.good(profile), Refusal::BadRecord)
    }

    pub fn good(&self, profile: &Profile) -> bool {
        good_last(self.last) && good_instances(&self.instances, profile)
    }

    /// The same table with its instances in the sheet's order, for comparing tables.
    pub fn sorted(&self) -> Table {
        Table {
            last: self.last,
            instances: sorted(self.instances.clone()),
        }
    }
}

/// A4: 0 to 32,767, counted end or not.
pub fn good_last(last: i32) -> bool {
    (0..=GREATEST_IDENTIFIER).contains(&last)
}

pub fn good_instances(instances: &[Instance], profile: &Profile) -> bool {
    few_enough(instances)
        && instances.iter().all(|instance| instance.good(profile))
        && keys_differ(instances)
}

/// At most 8 for each procedure; a code that is no procedure fails elsewhere.
pub fn few_enough(instances: &[Instance]) -> bool {
    PROCEDURES
        .iter()
        .all(|procedure| count(instances, *procedure) <= MOST_INSTANCES)
}

pub fn count(instances: &[Instance], procedure: i32) -> usize {
    of_procedure(instances, procedure).count()
}

pub fn of_procedure(instances: &[Instance], procedure: i32) -> impl Iterator<Item = &Instance> {
    instances
        .iter()
        .filter(move |instance| instance.procedure == procedure)
}

pub fn keys_differ(instances: &[Instance]) -> bool {
    let mut keys: Vec<_> = instances.iter().map(Instance::key).collect();
    keys.sort_unstable();
    keys.windows(2).all(|pair| pair[0] != pair[1])
}

/// Ascending by procedure, number index, service code.
pub fn sorted(mut instances: Vec<Instance>) -> Vec<Instance> {
    instances.sort_by_key(Instance::key);
    instances
}
