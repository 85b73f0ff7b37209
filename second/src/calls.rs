//! Calls at the exchange that may divert them (001, 2.5.2.5.1.2).

use crate::codes::{is_flag, is_service, place, REASONS};
use crate::numbers::{good_or_no_digits, Address, Number};
use crate::profile::Profile;
use crate::refusal::{require, Refusal};
use crate::table::{Instance, Table};

/// Events by the procedure they look at.
pub const OFFERED: i32 = 0;
pub const BUSY: i32 = 1;
pub const NO_REPLY: i32 = 2;

pub const PREFERRED: i32 = 0;
pub const NOT_REQUIRED: i32 = 1;
pub const REQUIRED: i32 = 2;

#[derive(Clone, Debug, PartialEq, Eq)]
pub struct Call {
    /// A profile number by its index (A45).
    pub number: i32,
    pub service: i32,
    pub event: i32,
    pub counter: i32,
    /// The notification option received with the chain.
    pub option: i32,
    /// The original number's digits, empty if absent (A46).
    pub original: Vec<u8>,
    /// 1 if its presentation is allowed, else 0.
    pub original_allowed: i32,
    pub preference: i32,
}

/// The caller's notice.
#[derive(Clone, Debug, PartialEq, Eq)]
pub enum Notice {
    None,
    /// "Call is diverting", without number.
    Diverting,
    /// The same with the forwarded-to number, no subaddress (A50).
    DivertingTo(Number),
}

impl Notice {
    /// The option that gives it.
    pub fn number(&self) -> i32 {
        match self {
            Notice::None => 0,
            Notice::Diverting => 1,
            Notice::DivertingTo(_) => 2,
        }
    }
}

#[derive(Clone, Debug, PartialEq, Eq)]
pub struct Diverted {
    pub counter: i32,
    pub reason: i32,
    pub called: Address,
    pub redirecting: Number,
    pub redirecting_allowed: i32,
    /// Digits only (A49).
    pub original: Vec<u8>,
    pub original_allowed: i32,
    pub preference: i32,
    pub option: i32,
    pub notice: Notice,
}

#[derive(Clone, Debug, PartialEq, Eq)]
pub enum CallOutcome {
    NotDiverted,
    Diverted(Box<Diverted>),
}

impl Call {
    pub fn check(&self, profile: &Profile) -> Result<(), Refusal> {
        require(self.good(profile), Refusal::BadCall)
    }

    fn good(&self, profile: &Profile) -> bool {
        profile.number(self.number).is_some()
            && is_service(self.service)
            && [OFFERED, BUSY, NO_REPLY].contains(&self.event)
            && (0..=5).contains(&self.counter)
            && (0..=2).contains(&self.option)
            && good_or_no_digits(&self.original)
            && is_flag(self.original_allowed)
            && [PREFERRED, NOT_REQUIRED, REQUIRED].contains(&self.preference)
    }

    pub fn first_diversion(&self) -> bool {
        self.counter == 0
    }

    /// The key of the instance it looks at: offered at cfu, busy at cfb, no reply at cfnr, which
    /// have the same numbers.
    pub fn key(&self) -> (i32, i32, i32) {
        (self.event, self.number, self.service)
    }
}

/// Refusals 3, 4, 5, and 6 last of all.
pub fn call(profile: &Profile, table: &Table, call: &Call) -> Result<CallOutcome, Refusal> {
    profile.check()?;
    table.check(profile)?;
    call.check(profile)?;
    let (Some(instance), Some(served)) =
        (applying(profile, table, call), profile.number(call.number))
    else {
        return Ok(CallOutcome::NotDiverted);
    };
    require(
        call.counter < profile.diversion_limit,
        Refusal::DiversionLimit,
    )?;
    Ok(CallOutcome::Diverted(Box::new(divert(
        profile, served, instance, call,
    ))))
}

/// The instance the event looks at; none while the access is not in use (A52).
fn applying<'a>(profile: &Profile, table: &'a Table, call: &Call) -> Option<&'a Instance> {
    let mut instances = table.instances.iter();
    instances.find(|instance| profile.in_use == 1 && instance.key() == call.key())
}

fn divert(profile: &Profile, served: &Number, instance: &Instance, call: &Call) -> Diverted {
    let first = call.first_diversion();
    let released = profile.release_own_number;
    let option = if first {
        profile.notification
    } else {
        call.option.min(profile.notification)
    };
    let preference = if first && call.preference == NOT_REQUIRED {
        PREFERRED
    } else {
        call.preference
    };
    Diverted {
        counter: call.counter + 1,
        reason: reason(instance.procedure),
        called: instance.address.clone(),
        redirecting: served.clone(),
        redirecting_allowed: released,
        original: handed_on(served, call).to_vec(),
        original_allowed: if first {
            released
        } else {
            call.original_allowed
        },
        preference,
        option,
        notice: notice(option, &instance.address.number),
    }
}

fn reason(procedure: i32) -> i32 {
    let found = place(procedure).and_then(|at| REASONS.get(at));
    found.copied().unwrap_or_default()
}

/// A stretch of one of two records: the access's on the first diversion, the call's afterwards.
fn handed_on<'a>(served: &'a Number, call: &'a Call) -> &'a [u8] {
    if call.first_diversion() {
        &served.digits
    } else {
        &call.original
    }
}

/// Judged by the resulting option (A50).
fn notice(option: i32, forwarded_to: &Number) -> Notice {
    match option {
        0 => Notice::None,
        1 => Notice::Diverting,
        _ => Notice::DivertingTo(forwarded_to.clone()),
    }
}

/// The original called number handed on; the empty stretch where the call is refused or not
/// diverted (A77).
pub fn original<'a>(profile: &'a Profile, table: &Table, lent: &'a Call) -> &'a [u8] {
    match (call(profile, table, lent), profile.number(lent.number)) {
        (Ok(CallOutcome::Diverted(_)), Some(served)) => handed_on(served, lent),
        _ => &[],
    }
}
