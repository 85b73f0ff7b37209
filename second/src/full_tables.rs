//! As many instances of a procedure as are wanted, be it full or too full, and the longest table.

use crate::codes::PROCEDURES;
use crate::made;
use crate::numbers::{Address, Number, Subaddress};
use crate::profile::Profile;
use crate::random::Random;
use crate::table::{Instance, Table, MOST_INSTANCES};

/// Instances with different numbers and services; `None` where the profile hasn't so many.
pub fn instances_of(
    random: &mut Random,
    profile: &Profile,
    procedure: i32,
    count: usize,
) -> Option<Vec<Instance>> {
    let numbers = profile.indexes();
    let mut pairs: Vec<(i32, i32)> = numbers
        .flat_map(|number| profile.services.iter().map(move |code| (number, *code)))
        .collect();
    let mut surplus = pairs.len().checked_sub(count)?;
    while surplus > 0 {
        pairs.swap_remove(random.below(pairs.len()));
        surplus -= 1;
    }
    let instances = pairs.into_iter().map(|(number, service)| Instance {
        procedure,
        number,
        service,
        address: made::forwarded_to(random, profile),
    });
    Some(instances.collect())
}

/// Nine instances of a subscribed procedure, and the others as they were; `None` where the profile
/// can't.
pub fn nine_of_a_procedure(random: &mut Random, profile: &Profile, held: &Table) -> Option<Table> {
    let procedure = random.one_of(&PROCEDURES);
    let nine = instances_of(random, profile, procedure, MOST_INSTANCES + 1)?;
    let mut table = held.clone();
    table.instances.retain(|held| held.procedure != procedure);
    table.instances.extend(nine);
    profile.subscribes(procedure).then_some(table)
}

/// Every procedure full and every part as long as it may be; `None` where the profile can't.
pub fn longest_table(random: &mut Random, profile: &Profile) -> Option<Table> {
    let mut instances = Vec::new();
    for procedure in PROCEDURES {
        instances.extend(instances_of(random, profile, procedure, MOST_INSTANCES)?);
    }
    for instance in &mut instances {
        instance.address = longest_address(random);
    }
    let subscribed = PROCEDURES.iter().all(|one| profile.subscribes(*one));
    subscribed.then_some(Table {
        last: random.between(16_384, 32_767),
        instances,
    })
}

/// Octets above 127 take two in a sheet.
fn longest_address(random: &mut Random) -> Address {
    Address {
        number: Number {
            digits: (0..20).map(|_| b'0' + random.below(10) as u8).collect(),
            ..made::number(random)
        },
        subaddress: Subaddress::Octets((0..20).map(|_| 128 + random.below(128) as u8).collect()),
    }
}
