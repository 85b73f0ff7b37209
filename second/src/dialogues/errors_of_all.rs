//! Errors 3, 0 and 6, which every operation shares, in their order; and error 46.

use crate::codes::{CFB, CFNR, CFU};
use crate::profile::Profile;
use crate::request::{Request, Served};
use crate::samples::{instance, sample_profile, wide_profile};
use crate::table::Instance;

use super::guarded::foreign;
use super::script::{dialogue, Dialogue};
use super::words::{
    activation, all_numbers, deactivation, error, individual, interrogation, nine_pairs, result,
    to, SPEECH,
};

pub fn dialogues() -> Vec<Dialogue> {
    let mut all = each_error();
    all.extend(pairs());
    all.extend(nothing_active());
    all.extend(nothing_selected_active());
    all.extend(deactivations());
    all
}

/// The three operations of cfb and speech.
fn each_operation(served: &Served) -> [Request; 3] {
    [
        activation(CFB, SPEECH, to("24680"), served.clone()),
        deactivation(CFB, SPEECH, served.clone()),
        interrogation(CFB, SPEECH, served.clone()),
    ]
}

fn without_cfb(profile: Profile) -> Profile {
    Profile {
        subscribed: [1, 0, 1],
        ..profile
    }
}

fn not_in_use(profile: Profile) -> Profile {
    Profile {
        in_use: 0,
        ..profile
    }
}

/// Each operation in turn, identifiers 1, 2, 3 of a counted end.
fn each_earns(talk: Dialogue, served: &Served, code: i32) -> Dialogue {
    let numbered = (1..).zip(each_operation(served));
    numbered.fold(talk, |talk, (identifier, request)| {
        let moved = talk.asks(identifier, &request, error(identifier, code));
        moved.then_last(identifier as u16)
    })
}

fn each_error() -> Vec<Dialogue> {
    let all = all_numbers();
    let unsubscribed = without_cfb(nine_pairs());
    vec![
        each_earns(
            dialogue("error 3: not in use", &not_in_use(nine_pairs())),
            &all,
            3,
        ),
        each_earns(
            dialogue("error 0: procedure not subscribed", &unsubscribed),
            &all,
            0,
        ),
        each_earns(
            dialogue("error 6: number not in the profile", &nine_pairs()),
            &foreign(),
            6,
        ),
    ]
}

/// Both faults, then the earlier one mended by another profile.
fn pairs() -> Vec<Dialogue> {
    let neither = not_in_use(without_cfb(wide_profile()));
    let mut talks = Vec::new();
    for request in each_operation(&foreign()) {
        let operation = request.operation();
        talks.push(
            dialogue(
                format!("operation {operation}: 3 before 0 before 6"),
                &neither,
            )
            .asks(1, &request, error(1, 3))
            .moves_to(&without_cfb(wide_profile()))
            .asks(1, &request, error(1, 0))
            .moves_to(&wide_profile())
            .asks(1, &request, error(1, 6)),
        );
    }
    talks.push(
        dialogue("operation 7: 3 before 6", &not_in_use(wide_profile())).asks(
            1,
            &activation(CFB, SPEECH, to("24680"), foreign()),
            error(1, 3),
        ),
    );
    talks
}

fn nothing_active() -> Vec<Dialogue> {
    let ask = deactivation(CFB, SPEECH, all_numbers());
    let of_foreign = deactivation(CFB, SPEECH, foreign());
    vec![
        dialogue("error 46: nothing active, counted", &sample_profile())
            .asks(1, &ask, error(1, 46))
            .then_last(1)
            .asks(2, &deactivation(CFB, 0, all_numbers()), error(2, 46))
            .then_last(2),
        dialogue("error 46: nothing active, not counted", &wide_profile()).asks(
            1,
            &ask,
            error(1, 46),
        ),
        dialogue("3, 0 and 6 before 46", &not_in_use(wide_profile()))
            .asks(1, &ask, error(1, 3))
            .moves_to(&without_cfb(wide_profile()))
            .asks(1, &ask, error(1, 0))
            .moves_to(&wide_profile())
            .asks(1, &of_foreign, error(1, 6)),
        dialogue("3 though something is active", &not_in_use(wide_profile()))
            .table(0, &[instance(CFB, 0, SPEECH, "24680")])
            .asks(1, &ask, error(1, 3)),
    ]
}

/// Of nine pairs: cfu and cfb of the first number's speech, cfb of its service 32, and cfb of the
/// second number's speech.
fn four_held() -> [Instance; 4] {
    [
        instance(CFU, 0, SPEECH, "1"),
        instance(CFB, 0, SPEECH, "2"),
        instance(CFB, 0, 32, "3"),
        instance(CFB, 1, SPEECH, "4"),
    ]
}

fn on_four(name: &str) -> Dialogue {
    dialogue(name, &nine_pairs()).table(7, &four_held())
}

/// Active instances that a deactivation doesn't select don't save it from 46.
fn nothing_selected_active() -> Vec<Dialogue> {
    let access = nine_pairs();
    let [first, second] = [0, 1].map(|at| individual(&access.numbers[at]));
    vec![
        on_four("error 46: active are another procedure, number or service")
            .asks(8, &deactivation(CFNR, 0, all_numbers()), error(8, 46))
            .then_last(8)
            .asks(9, &deactivation(CFB, 32, second), error(9, 46))
            .then_last(9)
            .asks(10, &deactivation(CFB, 3, first), error(10, 46))
            .then_last(10),
        on_four("error 46: an unsubscribed service is never active (A30)")
            .asks(8, &deactivation(CFB, 42, all_numbers()), error(8, 46))
            .then_last(8),
    ]
}

fn deactivations() -> Vec<Dialogue> {
    let first = || individual(&nine_pairs().numbers[0]);
    let [of_cfu, _, service_32, of_second] = four_held();
    let all_but_one = [of_cfu.clone(), service_32.clone(), of_second.clone()];
    vec![
        on_four("deactivation of one number and service")
            .asks(8, &deactivation(CFB, SPEECH, first()), result(8))
            .then_holds(8, &all_but_one)
            .asks(9, &deactivation(CFB, SPEECH, first()), error(9, 46))
            .then_last(9),
        on_four("deactivation of one service of all numbers")
            .asks(8, &deactivation(CFB, SPEECH, all_numbers()), result(8))
            .then_holds(8, &[of_cfu.clone(), service_32]),
        on_four("deactivation of all services of one number, some not active (A34)")
            .asks(8, &deactivation(CFB, 0, first()), result(8))
            .then_holds(8, &[of_cfu.clone(), of_second]),
        on_four("deactivation of all services and numbers of one procedure")
            .asks(8, &deactivation(CFB, 0, all_numbers()), result(8))
            .then_holds(8, &[of_cfu]),
    ]
}
