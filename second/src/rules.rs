//! The judge: what a readable request does to good instances, test by test in document 01's
//! order. The exchange asks it of its table, the end of its picture.

use crate::answer::Entry;
use crate::codes::{
    ALL_SERVICES, DIVERSION_TO_SERVED_NUMBER, INTERNATIONAL, INVALID_DIVERTED_TO_NUMBER,
    INVALID_SERVED_NUMBER, NOT_ACTIVATED, NOT_AVAILABLE, NOT_SUBSCRIBED, RESOURCE_UNAVAILABLE,
    SERVICE_NOT_PROVIDED, SPECIAL_SERVICE_NUMBER,
};
use crate::numbers::{Address, Number, Subaddress, PUBLIC, UNKNOWN};
use crate::profile::Profile;
use crate::request::{Request, Served};
use crate::table::{count, sorted, Instance, MOST_INSTANCES};

/// The most digits of a forwarded-to number of public type 1.
const MOST_INTERNATIONAL_DIGITS: usize = 15;

#[derive(Clone, Debug, PartialEq, Eq)]
pub enum Outcome {
    Error(i32),
    Done(Change),
    List(Vec<Entry>),
}

/// What an activation or deactivation did, all together.
#[derive(Clone, Debug, PartialEq, Eq)]
pub struct Change {
    /// The instances afterwards.
    pub instances: Vec<Instance>,
    /// Procedure, number and service of each instance that was made, be it that one with the same
    /// address was there before.
    pub made: Vec<(i32, i32, i32)>,
}

/// The selected numbers (by index, in the profile's order) and service of one procedure.
struct Selection {
    procedure: i32,
    numbers: Vec<i32>,
    service: i32,
}

pub fn judge(profile: &Profile, instances: &[Instance], request: &Request) -> Outcome {
    let selection = match select(profile, request) {
        Ok(selection) => selection,
        Err(code) => return Outcome::Error(code),
    };
    match request {
        Request::Activation { address, .. } => activate(profile, instances, &selection, address),
        Request::Deactivation { .. } => deactivate(instances, &selection),
        Request::Interrogation { .. } => interrogate(profile, instances, &selection),
    }
}

/// The rows every operation shares: 3, 0, 6.
fn select(profile: &Profile, request: &Request) -> Result<Selection, i32> {
    if profile.in_use != 1 {
        return Err(NOT_AVAILABLE);
    }
    if !profile.subscribes(request.procedure()) {
        return Err(NOT_SUBSCRIBED);
    }
    let numbers = selected_numbers(profile, request.served()).ok_or(INVALID_SERVED_NUMBER)?;
    Ok(Selection {
        procedure: request.procedure(),
        numbers,
        service: request.service(),
    })
}

fn selected_numbers(profile: &Profile, served: &Served) -> Option<Vec<i32>> {
    let all = profile.indexes().collect();
    if profile.msn != 1 {
        // Read but ignored; the profile's only number is selected (A29, A74).
        return Some(all);
    }
    match served {
        Served::AllNumbers => (profile.all_numbers == 1).then_some(all),
        Served::Individual(number) => profile.index_of(number).map(|index| vec![index]),
    }
}

impl Selection {
    fn holds(&self, instance: &Instance) -> bool {
        instance.procedure == self.procedure
            && self.numbers.contains(&instance.number)
            && (self.service == ALL_SERVICES || instance.service == self.service)
    }
}

fn activate(
    profile: &Profile,
    instances: &[Instance],
    selection: &Selection,
    address: &Address,
) -> Outcome {
    if let Some(code) = forwarding_error(profile, selection, address) {
        return Outcome::Error(code);
    }
    let others = instances
        .iter()
        .filter(|instance| !selection.holds(instance))
        .cloned();
    let new = new_instances(profile, selection, address);
    let made = new.iter().map(Instance::key).collect();
    let after = sorted(others.chain(new).collect());
    // A32: over all numbers, replaced ones once.
    if count(&after, selection.procedure) > MOST_INSTANCES {
        return Outcome::Error(RESOURCE_UNAVAILABLE);
    }
    Outcome::Done(Change {
        instances: after,
        made,
    })
}

/// The errors that hang on the request alone, in their order: 8, 11, 12, 14, 15.
fn forwarding_error(profile: &Profile, selection: &Selection, address: &Address) -> Option<i32> {
    let number = &address.number;
    if selection.service != ALL_SERVICES && !profile.has_service(selection.service) {
        Some(SERVICE_NOT_PROVIDED)
    } else if address.subaddress == Subaddress::UserSpecified {
        Some(RESOURCE_UNAVAILABLE)
    } else if invalid_diverted_to(number) {
        Some(INVALID_DIVERTED_TO_NUMBER)
    } else if profile
        .prefixes
        .iter()
        .any(|prefix| number.digits.starts_with(prefix))
    {
        Some(SPECIAL_SERVICE_NUMBER)
    } else if selection
        .numbers
        .iter()
        .any(|index| profile.number(*index) == Some(number))
    {
        Some(DIVERSION_TO_SERVED_NUMBER)
    } else {
        None
    }
}

fn invalid_diverted_to(number: &Number) -> bool {
    match number.form {
        UNKNOWN => false,
        PUBLIC => {
            number.number_type == INTERNATIONAL && number.digits.len() > MOST_INTERNATIONAL_DIGITS
        }
        _ => true,
    }
}

/// One for each selected number and service, in order.
fn new_instances(profile: &Profile, selection: &Selection, address: &Address) -> Vec<Instance> {
    let services: Vec<i32> = if selection.service == ALL_SERVICES {
        profile.services.clone()
    } else {
        vec![selection.service]
    };
    let numbers = selection.numbers.iter();
    numbers
        .flat_map(|number| {
            services.iter().map(|service| Instance {
                procedure: selection.procedure,
                number: *number,
                service: *service,
                address: address.clone(),
            })
        })
        .collect()
}

/// House: 46 exactly if no selected instance is active, so an unsubscribed service gives 46
/// (A30, A34).
fn deactivate(instances: &[Instance], selection: &Selection) -> Outcome {
    let (removed, left): (Vec<Instance>, Vec<Instance>) = instances
        .iter()
        .cloned()
        .partition(|instance| selection.holds(instance));
    if removed.is_empty() {
        return Outcome::Error(NOT_ACTIVATED);
    }
    Outcome::Done(Change {
        instances: left,
        made: Vec::new(),
    })
}

/// By profile number, then service code; each entry carries the profile's own number (A33).
fn interrogate(profile: &Profile, instances: &[Instance], selection: &Selection) -> Outcome {
    let selected = instances
        .iter()
        .filter(|instance| selection.holds(instance));
    let entries = sorted(selected.cloned().collect())
        .into_iter()
        .filter_map(|instance| {
            Some(Entry {
                number: profile.number(instance.number)?.clone(),
                service: instance.service,
                procedure: instance.procedure,
                address: instance.address,
            })
        });
    Outcome::List(entries.collect())
}
