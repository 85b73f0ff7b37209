//! The ways a call record is made for a case.

use crate::call_record::{call_record, write_call, CALL_OCTETS};
use crate::calls::Call;
use crate::made;
use crate::profile::Profile;
use crate::random::Random;
use crate::spoiled::spoil_call;
use crate::table::Table;

#[derive(Clone, Copy, Debug, PartialEq, Eq)]
pub enum Making {
    /// A good call, at times with rubbish past its digits.
    Good,
    /// A good call but for one value.
    Spoiled(Value),
    /// One octet changed, which may leave it good.
    OneOctet,
    /// Cut off, or with octets added, to this size.
    Sized(usize),
    /// Any octets of the right size.
    Octets,
}

/// A value of a call, in the order of its record.
#[derive(Clone, Copy, Debug, PartialEq, Eq)]
pub enum Value {
    Number,
    Service,
    Event,
    Counter,
    Option,
    Presentation,
    Preference,
    Digits,
}

impl Making {
    /// Whether refusal 5 is certain on a good access with a good table.
    pub fn is_bad(self) -> bool {
        matches!(self, Making::Spoiled(_) | Making::Sized(_))
    }
}

pub fn any(random: &mut Random, profile: &Profile, held: &Table) -> (Making, Vec<u8>) {
    let call = likely_call(random, profile, held);
    match random.below(40) {
        0 | 1 => spoiled(random, profile, call),
        2 => {
            let mut record = written(random, &call);
            record[random.below(CALL_OCTETS)] = random.octet();
            (Making::OneOctet, record)
        }
        3 => {
            let size = random.one_of(&[0, 1, CALL_OCTETS - 1, CALL_OCTETS + 1, 64]);
            let mut record = written(random, &call);
            record.resize(size, 0);
            (Making::Sized(size), record)
        }
        4 => {
            let octets = (0..CALL_OCTETS).map(|_| random.octet());
            (Making::Octets, octets.collect())
        }
        _ => (Making::Good, written(random, &call)),
    }
}

/// Counters below the limit and subscribed services come more often than by chance.
fn likely_call(random: &mut Random, profile: &Profile, held: &Table) -> Call {
    let mut call = made::call(random, profile, held);
    if random.once_in(2) {
        call.counter = random.between(0, profile.diversion_limit - 1);
    }
    if !profile.has_service(call.service) && !random.once_in(3) {
        call.service = random.pick(&profile.services).copied().unwrap_or(1);
    }
    call
}

fn written(random: &mut Random, call: &Call) -> Vec<u8> {
    if !random.once_in(3) {
        return call_record(call);
    }
    let mut record: Vec<u8> = (0..CALL_OCTETS).map(|_| random.octet()).collect();
    write_call(&mut record, call);
    record
}

fn spoiled(random: &mut Random, profile: &Profile, good: Call) -> (Making, Vec<u8>) {
    let mut bad = good.clone();
    spoil_call(random, profile, &mut bad);
    let record = written(random, &bad);
    (Making::Spoiled(changed_value(&good, &bad)), record)
}

/// Exactly one value differs.
fn changed_value(good: &Call, bad: &Call) -> Value {
    if good.number != bad.number {
        Value::Number
    } else if good.service != bad.service {
        Value::Service
    } else if good.event != bad.event {
        Value::Event
    } else if good.counter != bad.counter {
        Value::Counter
    } else if good.option != bad.option {
        Value::Option
    } else if good.original_allowed != bad.original_allowed {
        Value::Presentation
    } else if good.preference != bad.preference {
        Value::Preference
    } else {
        Value::Digits
    }
}
