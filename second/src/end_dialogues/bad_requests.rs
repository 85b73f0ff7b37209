//! Requests that may not be sent, refusal 10, and requests that earn an error but are still sent.

use crate::dialogues::script::{dialogue, Dialogue};
use crate::samples::sample_profile;

use super::bad_ends::{NOT_TO_BE_SENT, NOT_TO_BE_SENT_AS_7};
use super::words::{deactivation_sent, idle, request, CFB_IN_DOUBT, CFU, CFU_IN_DOUBT};

pub fn dialogues() -> Vec<Dialogue> {
    let mut all = vec![refused(7), refused(8), of_addresses(), not_judged()];
    all.extend(still_sent());
    all
}

fn refused(operation: i32) -> Dialogue {
    let talk = dialogue(
        format!("a request of {operation} with a bad code or served number: refused 10"),
        &sample_profile(),
    );
    NOT_TO_BE_SENT.iter().fold(talk, |talk, text| {
        talk.send_refused(10, operation, request(text))
    })
}

fn of_addresses() -> Dialogue {
    let talk = dialogue(
        "an activation to an address that no table holds: refused 10",
        &sample_profile(),
    );
    NOT_TO_BE_SENT_AS_7
        .iter()
        .fold(talk, |talk, text| talk.send_refused(10, 7, request(text)))
}

/// A deactivation's forwarded-to address, and the number where all are named.
fn not_judged() -> Dialogue {
    let scribbled = request("01 01 01 FF*23 FF*45");
    dialogue(
        "a deactivation's forwarded-to address and the number beside \"all numbers\" are not judged",
        &sample_profile(),
    )
    .sends(8, scribbled, &deactivation_sent(1))
    .then_end(idle(1).waits_for(8, 1, scribbled).marked(CFB_IN_DOUBT))
}

/// They would earn 0, 8 and 6, but their codes and numbers are of the kinds that there are.
fn still_sent() -> Vec<Dialogue> {
    let of_cfu = request("00 2A 01 00*23 00 00 05 32 34 36 38 30 00*15 00 00*20 00");
    let longest = request("01 00 00 01 06 14 39*20 01 01 14 38*20 14 C8*20 00");
    let twenty = |digit: &str| vec![digit; 20].join(" ");
    let (nines, eights, octets) = (twenty("39"), twenty("38"), twenty("C8"));
    vec![
        dialogue(
            "an activation of what is not subscribed is sent, though it would earn an error",
            &sample_profile(),
        )
        .sends(
            7,
            of_cfu,
            "A1 19 02 01 01 02 01 07 30 11 0A 01 00 0A 01 2A 30 07 80 05 32 34 36 38 30 05 00",
        )
        .then_end(idle(1).waits_for(7, 1, of_cfu).marked(CFU_IN_DOUBT))
        .shows_doubt(CFU),
        dialogue(
            "the longest activation: 20 digits twice, public, and a subaddress of 20 octets",
            &sample_profile(),
        )
        .end(idle(32_766))
        .sends(
            7,
            longest,
            &format!(
                "A1 5D 02 02 7F FF 02 01 07 30 54 0A 01 01 0A 01 00 \
                 30 31 A1 19 0A 01 01 12 14 {eights} 04 14 {octets} \
                 A1 19 0A 01 06 12 14 {nines}"
            ),
        )
        .then_end(idle(32_767).waits_for(7, 1, longest).marked(CFB_IN_DOUBT)),
    ]
}
