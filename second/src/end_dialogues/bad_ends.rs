//! Ends that break one rule each, refusal 4, and ends that just keep them.

use crate::dialogues::script::{dialogue, Dialogue};
use crate::dialogues::words::narrow_access;
use crate::end_record::EndRecord;
use crate::request_record::RequestRecord;
use crate::samples::sample_profile;
use crate::table_record::Place;

use super::words::{
    asking, held_24680, idle, off, place, request, shown_24680, to_24680, CFB, CFB_IN_DOUBT,
};

pub fn dialogues() -> Vec<Dialogue> {
    let mut all = vec![codes()];
    all.extend(outstanding());
    all.push(outstanding_requests());
    all.extend(pictures());
    all.extend(counts_of_pictures());
    all.extend(just_good());
    all
}

/// Every function refuses it.
fn refuses(name: &str, ends: Vec<EndRecord>) -> Dialogue {
    let talk = dialogue(format!("bad end: {name}"), &sample_profile());
    ends.into_iter().fold(talk, |talk, end| {
        talk.end(end)
            .send_refused(4, 7, to_24680())
            .send_refused(4, 8, off())
            .interrogation_refused(4, CFB)
            .arrival_refused(4, vec![0xA2, 0x03, 0x02, 0x01, 0x01])
            .giving_up_refused(4)
            .showing_refused(4, CFB)
    })
}

fn codes() -> Dialogue {
    let with_outstanding = |outstanding| EndRecord {
        outstanding,
        ..idle(1).waits_for(7, 1, to_24680())
    };
    refuses(
        "an identifier over 32,767; \"outstanding\" over 1; a mark over 1",
        vec![
            idle(32_768),
            idle(65_535),
            with_outstanding(2),
            with_outstanding(255),
            idle(1).marked([2, 1, 1]),
            idle(1).marked([1, 255, 1]),
            idle(1).marked([1, 1, 2]),
        ],
    )
}

fn outstanding() -> Vec<Dialogue> {
    vec![
        refuses(
            "a request is outstanding, but no identifier is used",
            vec![idle(0).waits_for(7, 1, to_24680())],
        ),
        refuses(
            "the mark from before is over 1",
            vec![
                idle(1).waits_for(7, 2, to_24680()),
                idle(1).waits_for(11, 255, asking(CFB)),
            ],
        ),
        refuses(
            "the operation is not 7, 8 or 11",
            [0, 6, 9, 10, 12, 255]
                .map(|operation| idle(1).waits_for(operation, 1, off()))
                .to_vec(),
        ),
        refuses(
            "an interrogation of one service, or of one number",
            vec![
                idle(1).waits_for(11, 1, request("01 01 01 00*68")),
                idle(1).waits_for(
                    11,
                    1,
                    request("01 00 00 00 00 05 31 33 35 37 39 00*15 00*45"),
                ),
            ],
        ),
    ]
}

/// Refusal 10 for a request that is to be sent, refusal 4 for one that is outstanding.
pub const NOT_TO_BE_SENT: [&str; 9] = [
    // Procedure 3, services 6 and 255, "all numbers" 2.
    "03 01 01 00*23 00 00 05 32 34 36 38 30 00*15 00 00*20 00",
    "01 06 01 00*23 00 00 05 32 34 36 38 30 00*15 00 00*20 00",
    "01 FF 01 00*23 00 00 05 32 34 36 38 30 00*15 00 00*20 00",
    "01 01 02 00*23 00 00 05 32 34 36 38 30 00*15 00 00*20 00",
    // Served numbers: another kind, unknown with a type, no digits, 21 digits, no digit.
    "01 01 00 02 00 00 00*20 00 00 05 32 34 36 38 30 00*15 00 00*20 00",
    "01 01 00 00 01 05 31*5 00*15 00 00 05 32 34 36 38 30 00*15 00 00*20 00",
    "01 01 00 00 00 00 00*20 00 00 05 32 34 36 38 30 00*15 00 00*20 00",
    "01 01 00 00 00 15 31*20 00 00 05 32 34 36 38 30 00*15 00 00*20 00",
    "01 01 00 00 00 05 31*4 3A 00*15 00 00 05 32 34 36 38 30 00*15 00 00*20 00",
];

/// The same, of an activation alone: the forwarded-to address.
pub const NOT_TO_BE_SENT_AS_7: [&str; 9] = [
    // Numbers: another kind, public type 5, unknown with a type, no digits, 21 digits, no digit.
    "01 01 01 00*23 02 00 00 00*20 00 00*20 00",
    "01 01 01 00*23 01 05 05 32 34 36 38 30 00*15 00 00*20 00",
    "01 01 01 00*23 00 04 05 32 34 36 38 30 00*15 00 00*20 00",
    "01 01 01 00*23 00 00 00 00*20 00 00*20 00",
    "01 01 01 00*23 00 00 15 32*20 00 00*20 00",
    "01 01 01 00*23 00 00 05 32 34 36 38 20 00*15 00 00*20 00",
    // A subaddress of 21 octets, a user-specified one, and a flag that is none.
    "01 01 01 00*23 00 00 05 32 34 36 38 30 00*15 15 37*20 00",
    "01 01 01 00*23 00 00 05 32 34 36 38 30 00*15 00 00*20 01",
    "01 01 01 00*23 00 00 05 32 34 36 38 30 00*15 00 00*20 02",
];

fn outstanding_requests() -> Dialogue {
    let of_7 = NOT_TO_BE_SENT.iter().chain(&NOT_TO_BE_SENT_AS_7);
    let records = of_7.map(|text| (7, request(text)));
    let of_8 = NOT_TO_BE_SENT.iter().map(|text| (8, request(text)));
    let ends = records
        .chain(of_8)
        .map(|(operation, record)| idle(1).waits_for(operation, 1, record));
    let talk = dialogue(
        "bad end: the outstanding request may not be sent",
        &sample_profile(),
    );
    ends.fold(talk, |talk, end| {
        talk.end(end).giving_up_refused(4).showing_refused(4, CFB)
    })
}

/// The picture is judged as a table is; the access has three numbers and not cfnr.
fn refuses_pictures(name: &str, ends: Vec<EndRecord>) -> Dialogue {
    let talk = dialogue(format!("bad end: {name}"), &narrow_access());
    ends.into_iter().fold(talk, |talk, end| {
        talk.end(end)
            .interrogation_refused(4, CFB)
            .showing_refused(4, CFB)
    })
}

/// A procedure, a number and a service, to 7.
fn to_seven(key: &str) -> Place {
    place(&format!("{key} 00 00 01 37 00*19 00 00*20"))
}

fn of(places: &[Place]) -> EndRecord {
    idle(1).holds(places)
}

fn pictures() -> Vec<Dialogue> {
    let alone = |key| of(&[to_seven(key)]);
    let both = |keys: [&str; 2]| of(&keys.map(to_seven));
    let address = |text: &str| of(&[place(&format!("01 00 01 {text}"))]);
    vec![
        refuses_pictures(
            "a picture's instances out of order, or one twice",
            vec![
                both(["01 00 02", "01 00 01"]),
                both(["01 00 01", "00 00 01"]),
                both(["01 00 01", "01 00 01"]),
            ],
        ),
        refuses_pictures(
            "a picture's procedure, number or service that the profile has not",
            vec![alone("02 00 01"), alone("01 03 01"), alone("01 00 2A")],
        ),
        refuses_pictures(
            "a picture's address that no table holds",
            vec![
                address("02 00 00 00*20 00 00*20"),
                address("00 00 00 00*20 00 00*20"),
                address("00 00 01 37 00*19 15 00*20"),
            ],
        ),
    ]
}

fn counts_of_pictures() -> Vec<Dialogue> {
    let mut past_24 = idle(1);
    past_24.held.count = 25;
    let mut one_too_many = of(&[to_seven("01 00 01")]);
    one_too_many.held.count = 2;
    let nine = [
        "01 00 01", "01 00 02", "01 00 03", "01 01 01", "01 01 02", "01 01 03", "01 02 01",
        "01 02 02", "01 02 03",
    ];
    vec![
        refuses_pictures(
            "a picture's count over 24, or past its instances",
            vec![past_24, one_too_many],
        ),
        refuses_pictures(
            "nine instances of a procedure in the picture",
            vec![of(&nine.map(to_seven))],
        ),
    ]
}

fn just_good() -> Vec<Dialogue> {
    let waits = |operation, record: RequestRecord| idle(32_767).waits_for(operation, 0, record);
    let gives_up = |talk: Dialogue, end| {
        let in_doubt = idle(32_767).marked(CFB_IN_DOUBT);
        talk.end(end).gives_up().then_end(in_doubt)
    };
    let ends = [
        waits(7, to_24680()),
        waits(8, off()),
        waits(11, asking(CFB)),
        // A deactivation's address and an interrogation's numbers carry no meaning.
        waits(8, request("01 2A 01 FF*23 FF*45")),
        waits(11, request("01 00 01 FF*23 FF*45")),
        // A41: the mark of an outstanding activation need not be doubt.
        idle(32_767).waits_for(7, 1, to_24680()).marked([1, 1, 1]),
    ];
    let talk = dialogue(
        "good end: the last identifier outstanding, of every operation",
        &sample_profile(),
    );
    let rubbish = EndRecord {
        operation: 9,
        before: 255,
        request: [0xEE; 71],
        ..idle(1).holds(&[held_24680()])
    };
    vec![
        ends.into_iter().fold(talk, gives_up),
        dialogue(
            "good end: with nothing outstanding, the fields of a request are not looked at",
            &sample_profile(),
        )
        .end(rubbish)
        .shows(CFB, &[shown_24680()])
        .gives_up()
        .takes("A2 03 02 01 01"),
    ]
}
