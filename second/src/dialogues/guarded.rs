//! An access on which every error of an activation can be earned, and activations that earn them.

use crate::codes::CFB;
use crate::numbers::{Address, Number};
use crate::profile::Profile;
use crate::request::Served;
use crate::samples::{instance, wide_profile};
use crate::table::Instance;

use super::script::{dialogue, Dialogue};
use super::words::{activation, error, individual};

/// Sixteen digits, one more than error 12 lets pass for public type 1.
pub const SIXTEEN: &str = "4490000000000000";
/// Sixteen digits that begin with the special prefix.
pub const SIXTEEN_PREFIXED: &str = "1120000000000000";
pub const PREFIXED: &str = "11255";
/// The digits of the number that most requests name.
pub const OWN: &str = "13579";

/// MSN with numbers that would earn 12 or 14 as forwarded-to numbers, special prefix 112, not
/// counted.
pub fn guarded() -> Profile {
    Profile {
        numbers: vec![
            Number::unknown(OWN),
            Number::unknown(PREFIXED),
            Number::public(1, SIXTEEN),
            Number::public(1, SIXTEEN_PREFIXED),
        ],
        services: vec![1, 3, 32],
        prefixes: vec![b"112".to_vec()],
        ..wide_profile()
    }
}

/// Eight instances of cfb, none of them of the first number.
pub fn full() -> Vec<Instance> {
    let of_second_and_third = [(1, 1), (1, 3), (1, 32), (2, 1), (2, 3), (2, 32)];
    let of_fourth = [(3, 1), (3, 3)];
    let places = of_second_and_third.iter().chain(&of_fourth);
    places
        .map(|(number, service)| instance(CFB, *number, *service, "1"))
        .collect()
}

pub fn own() -> Served {
    individual(&Number::unknown(OWN))
}

/// A number that the profile has not.
pub fn foreign() -> Served {
    individual(&Number::unknown("999"))
}

/// An activation of cfb, and the error it earns.
pub struct Fault {
    pub service: i32,
    pub address: Address,
    pub served: Served,
    pub code: i32,
}

pub fn fault(service: i32, address: Address, served: Served, code: i32) -> Fault {
    Fault {
        service,
        address,
        served,
        code,
    }
}

/// The faults one after the other; the table stays.
pub fn earns(
    name: &str,
    access: &Profile,
    table: &[Instance],
    faults: impl IntoIterator<Item = Fault>,
) -> Dialogue {
    let talk = dialogue(name, access).table(0, table);
    faults.into_iter().fold(talk, |talk, one| {
        let request = activation(CFB, one.service, one.address, one.served);
        talk.asks(1, &request, error(1, one.code))
    })
}
