//! Demand 1 by running: any octets and records are thrown at the customer end.

mod common;

use std::collections::BTreeMap;

use common::thrown::first_refusal;
use second::end::{self, End, Event, IN_DOUBT, KNOWN};
use second::loose;
use second::made;
use second::profile::Profile;
use second::random::Random;
use second::refusal::Refusal;
use second::request::Request;
use second::spoiled;

/// An end that waits for a reply, most often, with some picture and marks.
fn waiting_end(random: &mut Random, profile: &Profile) -> End {
    let mut end = End::fresh();
    end.picture = made::instances(random, profile);
    end.marks = [random.flag(), random.flag(), random.flag()];
    end.last_used = random.one_of(&[0, 1, 126, 127, 128, 300, 32_765]);
    let mut output = [0; 707];
    let request = made::request(random, profile);
    let procedure = request.procedure();
    let what = (procedure, request.service());
    let sent = match request {
        _ if random.once_in(10) => Ok(0),
        Request::Deactivation { served, .. } => {
            end::send_deactivation(&mut output, profile, &mut end, what, served)
        }
        Request::Activation {
            address, served, ..
        } if random.once_in(3) => {
            end::send_activation(&mut output, profile, &mut end, what, address, served)
        }
        _ => end::send_interrogation(&mut output, profile, &mut end, procedure),
    };
    sent.expect("sent");
    end
}

#[test]
fn anything_thrown_at_the_end() {
    let mut random = Random::seeded(3);
    let mut reached: BTreeMap<String, u32> = BTreeMap::new();
    for _ in 0..150_000 {
        *reached.entry(throw(&mut random)).or_default() += 1;
    }
    for event in [
        "Dropped",
        "Applied",
        "NotApplicable",
        "Listed",
        "Restored",
        "Rejected",
        "WrongShape",
        "refusal 2",
        "refusal 3",
        "refusal 4",
    ] {
        let times = reached.remove(event).unwrap_or(0);
        assert!(times > 20, "{event} was reached {times} times");
    }
    assert!(reached.is_empty(), "{reached:?}");
}

/// Throws one component at one end and tells what came of it.
fn throw(random: &mut Random) -> String {
    let mut profile = made::profile(random);
    let mut end = waiting_end(random, &profile);
    let component = loose::reply(random, &profile, &end);
    let bad_end = random.once_in(20);
    if bad_end {
        spoiled::spoil_end(random, &profile, &mut end);
    }
    let bad_profile = random.once_in(20);
    if bad_profile {
        spoiled::spoil_profile(random, &mut profile);
    }
    let expected = first_refusal(&[
        (component.len() > 1_024, Refusal::ComponentTooLong),
        (bad_profile, Refusal::BadProfile),
        (bad_end, Refusal::BadRecord),
    ]);
    let before = end.clone();
    match end::arrived(&component, &profile, &mut end) {
        Err(refusal) => {
            assert_eq!(Some(refusal), expected);
            assert_eq!(end, before);
            format!("refusal {}", refusal.number())
        }
        Ok(event) => {
            assert_eq!(expected, None);
            follows_the_marks(event, &before, &end);
            assert!(end.check(&profile).is_ok());
            format!("{event:?}")
        }
    }
}

fn follows_the_marks(event: Event, before: &End, after: &End) {
    if event == Event::Dropped {
        assert_eq!(after, before);
        return;
    }
    let outstanding = before.outstanding.as_ref().expect("outstanding");
    let procedure = outstanding.request.procedure();
    assert_eq!(after.outstanding, None);
    assert_eq!(after.last_used, before.last_used);
    let expected = match event {
        Event::Listed => KNOWN,
        Event::Applied | Event::Restored => outstanding.mark_before,
        _ => IN_DOUBT,
    };
    assert_eq!(after.mark(procedure), Some(expected));
    for other in (0..3).filter(|other| *other != procedure) {
        assert_eq!(after.mark(other), before.mark(other));
    }
    let changed = matches!(event, Event::Applied | Event::Listed);
    assert!(changed || after.picture == before.picture);
    let others = |end: &End| {
        let mut others = end.picture.clone();
        others.retain(|instance| instance.procedure != procedure);
        others.sort();
        others
    };
    assert_eq!(others(after), others(before));
}
