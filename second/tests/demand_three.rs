//! Demand 3: counted end and exchange, fresh, one profile, a path that loses, repeats, delays,
//! reorders.

mod common;

use common::*;
use second::end::{self, End, Event, IN_DOUBT, KNOWN};
use second::exchange::arrive;
use second::refusal::Refusal;
use second::request::Served;
use second::soak::soak;
use second::table::Table;
use second::tally::MustReach;

#[test]
fn at_every_moment_each_known_procedure_equals_the_table() {
    let tally = soak(300, 500).unwrap_or_else(|fault| panic!("{fault:?}"));
    assert_eq!(tally.never_reached(), Vec::<String>::new());
}

#[test]
fn over_long_runs_as_well() {
    if let Err(fault) = soak(8, 20_000) {
        panic!("{fault:?}");
    }
}

#[test]
fn one_seed_goes_past_the_last_identifier() {
    if let Err(fault) = soak(1, 150_000) {
        panic!("{fault:?}");
    }
}

#[test]
fn an_end_uses_every_identifier_and_then_none() {
    let profile = sample_profile();
    let mut end = End::fresh();
    let mut table = Table::fresh();
    for identifier in 1..=32_767 {
        let sent = interrogate(&profile, &mut end, 1);
        assert_eq!(end.last_used, identifier);
        let mut output = [0; 707];
        let arrived = arrive(&mut output, &sent, &profile, &table).expect("handled");
        table = arrived.next;
        assert_eq!(table.last, identifier);
        let reply = &output[..arrived.length];
        assert_eq!(end::arrived(reply, &profile, &mut end), Ok(Event::Listed));
    }
    let mut output = [0; 707];
    let refused = end::send_interrogation(&mut output, &profile, &mut end, 1);
    assert_eq!(refused, Err(Refusal::IdentifiersUsedUp));
    assert_eq!(end.marks, [KNOWN; 3]);
}

/// A66: without a counted end a late activation is handled again, and the picture is wrong. The
/// same run on a counted end is right.
#[test]
fn an_uncounted_end_cannot_have_it() {
    for counted in [0, 1] {
        let mut profile = sample_profile();
        profile.counted = counted;
        let mut end = End::fresh();
        let mut table = Table::fresh();
        let late = activate(&profile, &mut end, (1, 1), "24680", Served::AllNumbers);
        assert_eq!(end::give_up(&profile, &mut end), Ok(true));
        assert_eq!(end.marks[1], IN_DOUBT);
        let asked = interrogate(&profile, &mut end, 1);
        let (next, reply) = ask(&profile, &table, &asked);
        table = next;
        assert_eq!(end::arrived(&reply, &profile, &mut end), Ok(Event::Listed));
        let (table, _) = ask(&profile, &table, &late);
        let shown = end::shown(&profile, &end, 1).expect("good").expect("known");
        assert_eq!(shown == table.instances, counted == 1);
    }
}
