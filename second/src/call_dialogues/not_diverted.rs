//! Calls that are not diverted: no instance, or the access not in use.

use crate::calls::{Call, BUSY};
use crate::dialogues::script::{dialogue, Dialogue};
use crate::profile::Profile;
use crate::samples::wide_profile;

use super::words::{first_call, forwarded, passed, talk, talk_on};

pub fn dialogues() -> Vec<Dialogue> {
    vec![
        dialogue("no instance at all", &wide_profile()).calls(&first_call(), passed()),
        not_in_use(),
        not_subscribed_procedure(),
        not_subscribed_services(),
    ]
}

fn not_in_use() -> Dialogue {
    let access = Profile {
        in_use: 0,
        ..wide_profile()
    };
    talk_on("an instance, but the access is not in use", &access).calls(&first_call(), passed())
}

/// A52: a table holds no instance of it.
fn not_subscribed_procedure() -> Dialogue {
    let access = Profile {
        subscribed: [1, 0, 1],
        ..wide_profile()
    };
    let [cfu, _, cfnr] = forwarded();
    let busy = Call {
        event: BUSY,
        ..first_call()
    };
    talk_on("cfb is not subscribed", &access)
        .table(0, &[cfu, cfnr])
        .calls(&busy, passed())
}

/// A47: a service of the sixteen is a good value, subscribed or not.
fn not_subscribed_services() -> Dialogue {
    let talk = talk("services of the sixteen that are not subscribed");
    [3, 41].into_iter().fold(talk, |talk, service| {
        let call = Call {
            service,
            ..first_call()
        };
        talk.calls(&call, passed())
    })
}
