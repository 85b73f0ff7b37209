//! The profile of an access, and the rules it must keep (refusal 3).

use crate::codes::{is_flag, is_procedure, is_service, place};
use crate::numbers::{good_digits, Number};
use crate::refusal::{require, Refusal};

pub const MOST_NUMBERS: usize = 4;
pub const MOST_SERVICES: usize = 6;
const MOST_PREFIXES: usize = 16;

/// Every "yes or no" is 1 or 0; any other value breaks a rule.
#[derive(Clone, Debug, PartialEq, Eq)]
pub struct Profile {
    pub numbers: Vec<Number>,
    pub services: Vec<i32>,
    /// By procedure: cfu, cfb, cfnr.
    pub subscribed: [i32; 3],
    pub msn: i32,
    pub all_numbers: i32,
    pub in_use: i32,
    pub counted: i32,
    pub notification: i32,
    pub release_own_number: i32,
    pub diversion_limit: i32,
    pub prefixes: Vec<Vec<u8>>,
}

impl Profile {
    pub fn check(&self) -> Result<(), Refusal> {
        require(self.good(), Refusal::BadProfile)
    }

    pub fn good(&self) -> bool {
        self.good_numbers()
            && self.good_services()
            && self.good_flags()
            && (0..=2).contains(&self.notification)
            && (1..=5).contains(&self.diversion_limit)
            && self.good_prefixes()
    }

    fn good_numbers(&self) -> bool {
        let count_fits = if self.msn == 0 {
            self.numbers.len() == 1
        } else {
            // A2: MSN asks for no second number.
            (1..=MOST_NUMBERS).contains(&self.numbers.len())
        };
        count_fits && self.numbers.iter().all(Number::good) && self.numbers_differ()
    }

    fn numbers_differ(&self) -> bool {
        self.numbers.iter().enumerate().all(|(at, number)| {
            let later = self.numbers.iter().skip(at + 1);
            later.into_iter().all(|other| other != number)
        })
    }

    fn good_services(&self) -> bool {
        // A1: strictly ascending.
        let ascending = self.services.windows(2).all(|pair| pair[0] < pair[1]);
        (1..=MOST_SERVICES).contains(&self.services.len())
            && self.services.iter().all(|code| is_service(*code))
            && ascending
    }

    fn good_flags(&self) -> bool {
        let flags = [
            self.msn,
            self.all_numbers,
            self.in_use,
            self.counted,
            self.release_own_number,
        ];
        flags.into_iter().chain(self.subscribed).all(is_flag)
    }

    fn good_prefixes(&self) -> bool {
        // A3: prefixes may repeat; each is 1 to 20 digits.
        self.prefixes.len() <= MOST_PREFIXES
            && self.prefixes.iter().all(|digits| good_digits(digits))
    }

    pub fn subscribes(&self, procedure: i32) -> bool {
        place(procedure).and_then(|at| self.subscribed.get(at)) == Some(&1)
    }

    pub fn has_service(&self, service: i32) -> bool {
        self.services.contains(&service)
    }

    pub fn number(&self, index: i32) -> Option<&Number> {
        place(index).and_then(|at| self.numbers.get(at))
    }

    /// The index of the same number (form, type and digits agree).
    pub fn index_of(&self, number: &Number) -> Option<i32> {
        self.indexes()
            .find(|index| self.number(*index) == Some(number))
    }

    pub fn indexes(&self) -> impl Iterator<Item = i32> {
        (0..).take(self.numbers.len())
    }

    /// Whether an interrogation of all services and all numbers can have a result.
    pub fn allows_whole_interrogation(&self, procedure: i32) -> bool {
        is_procedure(procedure)
            && self.in_use == 1
            && self.subscribes(procedure)
            && (self.msn == 0 || self.all_numbers == 1)
    }
}
