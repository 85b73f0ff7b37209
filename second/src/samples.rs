//! Document 01's sample access, a wide one, and short words for what tables hold.

use crate::numbers::{Address, Number, Subaddress};
use crate::profile::Profile;
use crate::table::{Instance, Table};

pub const INTERROGATION_OF_CFB: &str = "A1 10 02 01 01 02 01 0B 30 08 0A 01 01 0A 01 00 05 00";
pub const ACTIVATION_OF_CFB: &str =
    "A1 19 02 01 02 02 01 07 30 11 0A 01 01 0A 01 01 30 07 80 05 32 34 36 38 30 05 00";

/// "unknown 13579 alone, no MSN, speech, cfb, in use, counted, no prefix"
pub fn sample_profile() -> Profile {
    Profile {
        numbers: vec![Number::unknown("13579")],
        services: vec![1],
        subscribed: [0, 1, 0],
        msn: 0,
        all_numbers: 0,
        in_use: 1,
        counted: 1,
        notification: 2,
        release_own_number: 1,
        diversion_limit: 5,
        prefixes: vec![],
    }
}

/// MSN with four numbers of every form, six services, everything subscribed, uncounted.
pub fn wide_profile() -> Profile {
    Profile {
        numbers: vec![
            Number::unknown("100"),
            Number::public(0, "100"),
            Number::public(1, "4912345"),
            Number::public(6, "7"),
        ],
        services: vec![1, 2, 5, 32, 33, 42],
        subscribed: [1, 1, 1],
        msn: 1,
        all_numbers: 1,
        in_use: 1,
        counted: 0,
        notification: 2,
        release_own_number: 1,
        diversion_limit: 5,
        prefixes: vec![],
    }
}

pub fn to(number: Number) -> Address {
    Address {
        number,
        subaddress: Subaddress::Absent,
    }
}

pub fn instance(procedure: i32, number: i32, service: i32, digits: &str) -> Instance {
    Instance {
        procedure,
        number,
        service,
        address: to(Number::unknown(digits)),
    }
}

pub fn table(last: i32, instances: &[Instance]) -> Table {
    Table {
        last,
        instances: instances.to_vec(),
    }
}
