//! What one case of a call reached.

use crate::access_record::access_record;
use crate::call_answer::Lent;
use crate::call_record::call_record;
use crate::calls::{CallOutcome, Diverted};
use crate::numbers::Subaddress;
use crate::onward_record::Carried;
use crate::refusal::Refusal;
use crate::table_record::key_at;
use crate::table_rubbish::{in_an_instance, past_the_run};
use crate::transcript::Situation;

use super::kinds::{Cause, Original, Reached, Rubbish, Smaller};
use super::makings::Making;

/// A making counts only where access and table are good, so that the call itself was judged.
pub fn by(now: &Situation, making: Making, record: &[u8]) -> Vec<Reached> {
    let lent = match now.lent(record) {
        Ok(lent) => lent,
        Err(refusal) => return by_refusal(refusal, making),
    };
    let mut reached = vec![
        Reached::Made(making),
        Reached::Event(lent.call.event),
        Reached::Counter(lent.call.counter),
    ];
    reached.extend(rubbish_lent(now, &lent, record));
    match lent.outcome() {
        Err(refusal) => {
            reached.push(Reached::Refusal(refusal.number()));
            reached.push(Reached::Limit(lent.profile.diversion_limit));
        }
        Ok(CallOutcome::NotDiverted) => reached.extend(by_passing(now, &lent)),
        Ok(CallOutcome::Diverted(diverted)) => {
            reached.extend(by_diversion(&lent, &diverted));
            reached.extend(rubbish_handed_on(now, &lent, &diverted));
        }
    }
    reached
}

fn by_refusal(refusal: Refusal, making: Making) -> Vec<Reached> {
    let number = refusal.number();
    let mut reached = vec![Reached::Refusal(number)];
    if refusal == Refusal::BadCall {
        reached.push(Reached::Made(making));
    } else if making.is_bad() {
        reached.push(Reached::BeforeBadCall(number));
    }
    reached
}

fn by_passing(now: &Situation, lent: &Lent) -> Vec<Reached> {
    let cause = cause(lent);
    let mut reached = vec![Reached::Passed(cause)];
    if lent.call.counter >= lent.profile.diversion_limit {
        reached.push(Reached::PassedAtLimit(cause));
    }
    let mut uncounted = now.table.uncounted().iter();
    if cause == Cause::NoInstance && uncounted.any(|place| key_at(place) == lent.call.key()) {
        reached.push(Reached::Rubbish(Rubbish::LookedFor));
    }
    reached
}

fn cause(lent: &Lent) -> Cause {
    let mut instances = lent.table.instances.iter();
    if !lent.profile.has_service(lent.call.service) {
        Cause::ServiceNotSubscribed
    } else if !lent.profile.subscribes(lent.call.event) {
        Cause::ProcedureNotSubscribed
    } else if instances.any(|held| held.key() == lent.call.key()) {
        Cause::NotInUse
    } else {
        Cause::NoInstance
    }
}

fn by_diversion(lent: &Lent, diverted: &Diverted) -> Vec<Reached> {
    let first = lent.call.first_diversion();
    let mut reached = vec![
        Reached::Reason(diverted.reason),
        Reached::Notice(diverted.notice.number()),
        Reached::Original(original(first, diverted)),
        Reached::Released(lent.profile.release_own_number),
        Reached::Preference(first, lent.call.preference),
        Reached::Served(diverted.redirecting.form),
        Reached::Subaddress(diverted.called.subaddress != Subaddress::Absent),
    ];
    if first {
        reached.push(Reached::First);
    } else {
        reached.extend([Reached::Later, Reached::Smaller(smaller(lent))]);
    }
    reached
}

fn original(first: bool, diverted: &Diverted) -> Original {
    if first {
        Original::Access
    } else if diverted.original.is_empty() {
        Original::Absent
    } else {
        Original::Call
    }
}

fn smaller(lent: &Lent) -> Smaller {
    let (received, own) = (lent.call.option, lent.profile.notification);
    if received < own {
        Smaller::Received
    } else if own < received {
        Smaller::Profiles
    } else {
        Smaller::Neither
    }
}

/// Octets past a count.
fn rubbish_lent(now: &Situation, lent: &Lent, record: &[u8]) -> Vec<Reached> {
    kinds_of([
        (now.access != access_record(&lent.profile), Rubbish::Access),
        (in_an_instance(&now.table), Rubbish::Instance),
        (past_the_run(&now.table), Rubbish::PastRun),
        (record != call_record(&lent.call), Rubbish::Call),
    ])
}

fn rubbish_handed_on(now: &Situation, lent: &Lent, diverted: &Diverted) -> Vec<Reached> {
    let clean = Carried::clean(diverted);
    let carried = now.carried(lent, diverted);
    kinds_of([
        (carried.called != clean.called, Rubbish::Called),
        (
            carried.redirecting != clean.redirecting,
            Rubbish::Redirecting,
        ),
        (carried.noticed != clean.noticed, Rubbish::Noticed),
    ])
}

fn kinds_of<const N: usize>(found: [(bool, Rubbish); N]) -> Vec<Reached> {
    let there = found.into_iter().filter(|(there, _)| *there);
    there.map(|(_, place)| Reached::Rubbish(place)).collect()
}
