//! What is dropped: everything but a reply for the outstanding identifier. It leaves the end as it
//! was.

use crate::dialogues::script::{dialogue, Dialogue};
use crate::end_record::EndRecord;
use crate::samples::sample_profile;

use super::words::{
    activation_sent, asking, duplicate, empty_list, error, held_24680, idle, interrogation_sent,
    list_of_24680, result, to_24680, CFB, CFB_IN_DOUBT,
};

/// Against an end that waits for the reply to identifier 5.
const NOT_FOR_FIVE: [(&str, &[&str]); 6] = [
    ("no octets", &[""]),
    (
        "badly built: more after the element, less than its length, a length 80 or 83, tag BF",
        &[
            "A2 03 02 01 05 00",
            "A2 04 02 01 05",
            "A2 80 02 01 05 00 00",
            "A2 83 00 00 03 02 01 05",
            "BF 03 02 01 05",
            "A2",
        ],
    ),
    (
        "an A1, be it with the identifier",
        &[
            "A1 03 02 01 05",
            "A1 10 02 01 05 02 01 0B 30 08 0A 01 01 0A 01 00 05 00",
        ],
    ),
    (
        "another outer tag",
        &[
            "A0 03 02 01 05",
            "A5 03 02 01 05",
            "82 03 02 01 05",
            "30 03 02 01 05",
        ],
    ),
    (
        "a reject with NULL in place of the identifier",
        &["A4 05 05 00 80 01 02", "A4 05 05 00 80 01 00"],
    ),
    (
        "an identifier that can't be read",
        &[
            "A2 00",
            "A2 02 02 00",
            "A2 04 02 02 00 05",
            "A2 05 02 03 00 00 05",
            "A3 06 0A 01 05 02 01 00",
            "A4 03 82 01 05",
        ],
    ),
];

pub fn dialogues() -> Vec<Dialogue> {
    let mut all: Vec<Dialogue> = NOT_FOR_FIVE
        .iter()
        .map(|(name, components)| {
            let talk = waiting(&format!("dropped: {name}"));
            let talk = components.iter().fold(talk, |talk, one| talk.takes(one));
            talk.takes(&empty_list(5)).then_end(idle(5))
        })
        .collect();
    all.push(another_identifier());
    all.extend(nothing_outstanding());
    all
}

/// Fresh but for its identifiers, it interrogates cfb, and takes the empty list at the end.
fn waiting(name: &str) -> Dialogue {
    dialogue(name, &sample_profile())
        .end(idle(4))
        .interrogates(CFB, &interrogation_sent(5, CFB))
        .then_end(idle(5).waits_for(11, 1, asking(CFB)))
}

fn another_identifier() -> Dialogue {
    let other = [
        result(4),
        error(4, 46),
        duplicate(4),
        list_of_24680(4),
        duplicate(6),
        empty_list(6),
        error(0, 0),
        // -251, and 261: their last octets are those of 5.
        "A3 07 02 02 FF 05 02 01 00".to_string(),
        "A3 07 02 02 01 05 02 01 00".to_string(),
    ];
    let talk = waiting("dropped: every kind of reply for another identifier");
    let talk = other.iter().fold(talk, |talk, one| talk.takes(one));
    talk.takes(&list_of_24680(5))
        .then_end(idle(5).holds(&[held_24680()]))
}

/// The mark, the picture and all else stay, whatever comes for the last used identifier.
fn nothing_outstanding() -> Vec<Dialogue> {
    let late = |name: &str, end: EndRecord| {
        let talk = dialogue(format!("dropped: {name}"), &sample_profile()).end(end);
        [result(5), error(5, 46), duplicate(5), list_of_24680(5)]
            .iter()
            .fold(talk, |talk, one| talk.takes(one))
    };
    vec![
        late(
            "any reply for the last identifier after it was closed",
            idle(5),
        ),
        late(
            "any reply for an identifier that was given up",
            idle(5).holds(&[held_24680()]).marked(CFB_IN_DOUBT),
        ),
        dialogue(
            "dropped: the reply again, once it was taken",
            &sample_profile(),
        )
        .sends(7, to_24680(), &activation_sent(1))
        .then_end(idle(1).waits_for(7, 1, to_24680()).marked(CFB_IN_DOUBT))
        .takes(&result(1))
        .then_end(idle(1).holds(&[held_24680()]))
        .takes(&result(1)),
    ]
}
