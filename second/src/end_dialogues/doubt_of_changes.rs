//! Replies to an activation or a deactivation that give doubt: of a wrong shape, rejects, and results
//! that the rules refuse on the picture. Each leaves the picture as it was.

use crate::dialogues::guarded::guarded;
use crate::dialogues::script::{dialogue, Dialogue};
use crate::dialogues::words::nine_pairs;
use crate::profile::Profile;
use crate::request_record::RequestRecord;
use crate::samples::sample_profile;

use super::words::{
    activation_sent, component, deactivation_sent, held_24680, idle, off, place, request, result,
    shown_24680, to_24680, CFB, CFB_IN_DOUBT,
};

/// The tag, and what follows the identifier.
const SHAPES: [(&str, u8, &str); 12] = [
    ("a reject", 0xA4, "81 01 00"),
    ("an error with nothing after its identifier", 0xA3, ""),
    ("an error with two values", 0xA3, "02 01 2E 02 01 2E"),
    ("an error with a parameter", 0xA3, "02 01 2E 30 00"),
    (
        "a result with operation and NULL",
        0xA2,
        "30 05 02 01 07 05 00",
    ),
    ("a result with an operation alone", 0xA2, "30 03 02 01 08"),
    ("a result with an empty list", 0xA2, "30 05 02 01 0B 31 00"),
    ("a result with an empty sequence", 0xA2, "30 00"),
    ("a result with a NULL", 0xA2, "05 00"),
    ("a result with a private element", 0xA2, "C0 00"),
    ("a result with one octet more", 0xA2, "00"),
    ("a result with what is no element", 0xA2, "1F FF"),
];

pub fn dialogues() -> Vec<Dialogue> {
    let mut all: Vec<Dialogue> = SHAPES
        .iter()
        .flat_map(|(name, tag, after)| both(name, &component(*tag, 5, after)))
        .collect();
    all.push(nothing_to_remove());
    all.extend(against_the_request());
    all.extend(against_the_access());
    all.extend(against_the_selection());
    all
}

/// The same reply to an activation and to a deactivation, known before.
fn both(name: &str, reply: &[u8]) -> [Dialogue; 2] {
    let holds = |used| idle(used).holds(&[held_24680()]);
    let talk = |what, operation, record, sent: &str| {
        dialogue(format!("{what}, doubt: {name}"), &sample_profile())
            .end(holds(4))
            .shows(CFB, &[shown_24680()])
            .sends(i32::from(operation), record, sent)
            .then_end(
                holds(5)
                    .waits_for(operation, 1, record)
                    .marked(CFB_IN_DOUBT),
            )
            .takes_octets(reply.to_vec())
            .then_end(holds(5).marked(CFB_IN_DOUBT))
            .shows_doubt(CFB)
    };
    [
        talk("activation", 7, to_24680(), &activation_sent(5)),
        talk("deactivation", 8, off(), &deactivation_sent(5)),
    ]
}

fn nothing_to_remove() -> Dialogue {
    dialogue(
        "deactivation, doubt: a result, though by the picture there is nothing to remove (46)",
        &sample_profile(),
    )
    .shows(CFB, &[])
    .sends(8, off(), &deactivation_sent(1))
    .then_end(idle(1).waits_for(8, 1, off()).marked(CFB_IN_DOUBT))
    .takes(&result(1))
    .then_end(idle(1).marked(CFB_IN_DOUBT))
    .shows_doubt(CFB)
}

/// An activation that earns an error by the rules, and a result for it all the same.
fn refused_by_rule(name: &str, access: &Profile, record: RequestRecord, sent: &str) -> Dialogue {
    let name = format!("activation, doubt: a result, though the rules give error {name}");
    dialogue(name, access)
        .shows(CFB, &[])
        .sends(7, record, sent)
        .then_end(idle(1).waits_for(7, 1, record).marked(CFB_IN_DOUBT))
        .takes(&result(1))
        .then_end(idle(1).marked(CFB_IN_DOUBT))
        .shows_doubt(CFB)
}

/// The rules on the request alone, at the samples' profile.
fn against_the_request() -> Vec<Dialogue> {
    let sample = sample_profile();
    let of_service_2 = request("01 02 01 00*23 00 00 05 32 34 36 38 30 00*15 00 00*20 00");
    let to_itself = request("01 01 01 00*23 00 00 05 31 33 35 37 39 00*15 00 00*20 00");
    let to_sixteen = request("01 01 01 00*23 01 01 10 34*16 00*4 00 00*20 00");
    let sent = activation_sent(1);
    let sent_of_service_2 = sent.replace("0A 01 01 30 07", "0A 01 02 30 07");
    let sent_to_itself = sent.replace("32 34 36 38 30", "31 33 35 37 39");
    let sent_to_sixteen =
        "A1 29 02 01 01 02 01 07 30 21 0A 01 01 0A 01 01 30 17 A1 15 0A 01 01 12 10 \
         34 34 34 34 34 34 34 34 34 34 34 34 34 34 34 34 05 00";
    vec![
        refused_by_rule(
            "8, service not subscribed",
            &sample,
            of_service_2,
            &sent_of_service_2,
        ),
        refused_by_rule(
            "15, the served number itself",
            &sample,
            to_itself,
            &sent_to_itself,
        ),
        refused_by_rule(
            "12, type 1 with 16 digits",
            &sample,
            to_sixteen,
            sent_to_sixteen,
        ),
    ]
}

/// The rules on what the access has.
fn against_the_access() -> Vec<Dialogue> {
    let not_in_use = Profile {
        in_use: 0,
        ..sample_profile()
    };
    let without_cfb = Profile {
        subscribed: [1, 0, 1],
        ..sample_profile()
    };
    let prefixed = request("01 01 01 00*23 00 00 05 31 31 32 35 35 00*15 00 00*20 00");
    let sent = activation_sent(1);
    let sent_prefixed = sent.replace("32 34 36 38 30", "31 31 32 35 35");
    vec![
        refused_by_rule("3, not in use", &not_in_use, to_24680(), &sent),
        refused_by_rule("0, not subscribed", &without_cfb, to_24680(), &sent),
        refused_by_rule(
            "14, special prefix 112",
            &guarded(),
            prefixed,
            &sent_prefixed,
        ),
    ]
}

/// The rules on numbers and room; the access has nine pairs of number and service.
fn against_the_selection() -> Vec<Dialogue> {
    let foreign = request("01 01 00 00 00 03 39*3 00*17 00 00 01 37 00*19 00 00*20 00");
    let all_nine = request("01 00 01 00*23 00 00 01 37 00*19 00 00*20 00");
    vec![
        refused_by_rule(
            "6, a number that the profile has not",
            &nine_pairs(),
            foreign,
            "A1 18 02 01 01 02 01 07 30 10 0A 01 01 0A 01 01 30 03 80 01 37 80 03 39 39 39",
        ),
        refused_by_rule(
            "11, nine instances",
            &nine_pairs(),
            all_nine,
            "A1 15 02 01 01 02 01 07 30 0D 0A 01 01 0A 01 00 30 03 80 01 37 05 00",
        ),
        not_beside_others(),
    ]
}

/// The picture holds eight, all of which stay; a ninth has no room.
fn not_beside_others() -> Dialogue {
    let pairs = [
        "00 01", "00 03", "00 20", "01 01", "01 03", "01 20", "02 01", "02 03",
    ];
    let eight = pairs.map(|pair| place(&format!("01 {pair} 00 00 01 39 00*19 00 00*20")));
    let ninth = request("01 20 00 00 00 03 35 30 33 00*17 00 00 01 37 00*19 00 00*20 00");
    let holds = |used| idle(used).holds(&eight);
    dialogue(
        "activation, doubt: a result for a ninth instance beside eight in the picture",
        &nine_pairs(),
    )
    .end(holds(0))
    .sends(
        7,
        ninth,
        "A1 18 02 01 01 02 01 07 30 10 0A 01 01 0A 01 20 30 03 80 01 37 80 03 35 30 33",
    )
    .then_end(holds(1).waits_for(7, 1, ninth).marked(CFB_IN_DOUBT))
    .takes(&result(1))
    .then_end(holds(1).marked(CFB_IN_DOUBT))
    .shows_doubt(CFB)
}
