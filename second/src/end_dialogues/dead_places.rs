//! Octets that carry no meaning: in requests, in the picture and in the fields of a request that is
//! not outstanding. They are never judged; only a picture that is written anew and a request that is
//! closed have zeros there.

use crate::dialogues::script::{dialogue, Dialogue};
use crate::dialogues::words::{nine_pairs, scribbled, scribbled_access, RUBBISH};
use crate::end_record::EndRecord;
use crate::request_record::RequestRecord;
use crate::samples::sample_profile;
use crate::table_record::Place;

use super::words::{
    activation_sent, asking, duplicate, empty_list, entry, error, held_24680, idle,
    interrogation_sent, list_of, list_of_24680, listed, off, place, request, result, to_24680, CFB,
    CFB_IN_DOUBT, CFU,
};

pub fn dialogues() -> Vec<Dialogue> {
    let mut all = vec![sent_as_given(), applied(), fields_of_no_request(), shown()];
    all.extend(picture_kept());
    all.extend(picture_anew());
    all
}

/// Document 01's activation with rubbish in every place that carries no meaning.
fn scribbled_request() -> RequestRecord {
    request("01 01 01 AA*23 00 00 05 32 34 36 38 30 BB*15 00 CC*20 00")
}

/// What it puts into the picture.
fn applied_place() -> Place {
    place("01 00 01 00 00 05 32 34 36 38 30 BB*15 00 CC*20")
}

/// Rubbish past the picture's count, in its second and last places.
fn followed(end: EndRecord) -> EndRecord {
    let mut end = end;
    end.held.places[1] = RUBBISH;
    end.held.places[23] = held_24680();
    end
}

fn sent_as_given() -> Dialogue {
    let waits = |used| {
        idle(used)
            .waits_for(7, 1, scribbled_request())
            .marked(CFB_IN_DOUBT)
    };
    dialogue(
        "a request stands as it was given, what is dropped leaves it, and closed it is zeros",
        &sample_profile(),
    )
    .sends(7, scribbled_request(), &activation_sent(1))
    .then_end(waits(1))
    .takes(&result(2))
    .takes("A4 05 05 00 80 01 02")
    .takes(&duplicate(1))
    .then_end(idle(1).marked(CFB_IN_DOUBT))
    .end(waits(1))
    .gives_up()
    .then_end(idle(1).marked(CFB_IN_DOUBT))
    .end(waits(1))
    .takes(&error(1, 3))
    .then_end(idle(1))
}

fn applied() -> Dialogue {
    let shown = entry(
        "00 00 05 31 33 35 37 39 00*15 01 01 \
         00 00 05 32 34 36 38 30 BB*15 00 CC*20",
    );
    dialogue(
        "an applied request's address is put into the picture octet for octet; a list's has zeros",
        &sample_profile(),
    )
    .sends(7, scribbled_request(), &activation_sent(1))
    .then_end(
        idle(1)
            .waits_for(7, 1, scribbled_request())
            .marked(CFB_IN_DOUBT),
    )
    .takes(&result(1))
    .then_end(idle(1).holds(&[applied_place()]))
    .shows(CFB, &[shown])
    .interrogates(CFB, &interrogation_sent(2, CFB))
    .then_end(
        idle(2)
            .holds(&[applied_place()])
            .waits_for(11, 1, asking(CFB)),
    )
    .takes(&list_of_24680(2))
    .then_end(idle(2).holds(&[held_24680()]))
}

fn fields_of_no_request() -> Dialogue {
    let rubbish = |used| EndRecord {
        operation: 0xEE,
        before: 0xDD,
        request: [0xCC; 71],
        ..idle(used)
    };
    dialogue(
        "the fields of no request: kept by what is dropped and by giving up, written over by sending",
        &sample_profile(),
    )
    .end(rubbish(4))
    .takes(&result(4))
    .takes("")
    .gives_up()
    .output(706)
    .send_refused(1, 7, to_24680())
    .output(707)
    .interrogates(CFB, &interrogation_sent(5, CFB))
    .then_end(idle(5).waits_for(11, 1, asking(CFB)))
}

/// The number as it stands in the access record, the address as it stands in the picture.
fn shown() -> Dialogue {
    dialogue(
        "what is shown has the octets past counts as they stand in the access record and the picture",
        &sample_profile(),
    )
    .access(scribbled_access(&sample_profile()))
    .end(idle(4).holds(&[scribbled(1, 0, 1)]))
    .shows(
        CFB,
        &[entry(
            "00 00 05 31 33 35 37 39 FF*15 01 01 \
             00 00 05 32 34 36 38 30 EE*15 00 3A*20",
        )],
    )
}

/// Whatever does not write it anew.
fn picture_kept() -> Vec<Dialogue> {
    let holds = |used| followed(idle(used).holds(&[scribbled(1, 0, 1)]));
    let in_doubt = |used| holds(used).marked(CFB_IN_DOUBT);
    let waits = || in_doubt(5).waits_for(8, 1, off());
    let talk = |name: &str| dialogue(name, &sample_profile()).end(waits());
    vec![
        talk("rubbish in the picture: kept by an error")
            .takes(&error(5, 46))
            .then_end(holds(5)),
        talk("rubbish in the picture: kept by a reject")
            .takes(&duplicate(5))
            .then_end(in_doubt(5)),
        talk("rubbish in the picture: kept by a reply of the wrong shape")
            .takes(&empty_list(5))
            .then_end(in_doubt(5)),
        talk("rubbish in the picture: kept by giving up")
            .gives_up()
            .then_end(in_doubt(5)),
        talk("rubbish in the picture: kept by what is dropped and by refusals")
            .takes(&result(4))
            .send_refused(7, 8, off())
            .arrival_refused(2, vec![0; 1_025]),
        dialogue("rubbish in the picture: kept by sending", &sample_profile())
            .end(holds(4))
            .interrogates(CFU, &interrogation_sent(5, CFU))
            .then_end(holds(5).waits_for(11, 1, asking(CFU))),
    ]
}

fn picture_anew() -> Vec<Dialogue> {
    // cfu of 501, cfb of 501 and 502; cfb is interrogated, taken away, or set.
    let before = [scribbled(0, 0, 1), scribbled(1, 0, 1), scribbled(1, 1, 3)];
    let holds = |used| followed_by_three(idle(used), &before);
    let of_501 = request("01 01 00 00 00 03 35 30 31 00*17 00 00 01 37 AB*19 00 CD*20 00");
    let to_seven = place("01 00 01 00 00 01 37 AB*19 00 CD*20");
    let off_501 = request("01 00 00 00 00 03 35 30 31 AA*17 BB*45");
    let listed = listed("80 03 35 30 31", 1, CFB, "80 05 32 34 36 38 30");
    let clean = place("01 00 01 00 00 05 32 34 36 38 30 00*15 00 00*20");
    let talk = |name: &str, waits: EndRecord| dialogue(name, &nine_pairs()).end(waits);
    vec![
        talk(
            "picture anew by a list: other procedures keep rubbish, its own has none, nor has what \
             stands past the count",
            holds(5).waits_for(11, 1, asking(CFB)),
        )
        .takes_octets(list_of(5, &[listed]))
        .then_end(idle(5).holds(&[before[0], clean])),
        talk(
            "picture anew by an activation: what stays keeps rubbish, what is made has the request's",
            holds(5).waits_for(7, 1, of_501).marked(CFB_IN_DOUBT),
        )
        .takes(&result(5))
        .then_end(idle(5).holds(&[before[0], to_seven, before[2]])),
        talk(
            "picture anew by a deactivation: what stays keeps rubbish, and none is past the count",
            holds(5).waits_for(8, 1, off_501).marked(CFB_IN_DOUBT),
        )
        .takes(&result(5))
        .then_end(idle(5).holds(&[before[0], before[2]])),
    ]
}

fn followed_by_three(end: EndRecord, counted: &[Place]) -> EndRecord {
    let mut end = end.holds(counted);
    end.held.places[3] = scribbled(1, 2, 32);
    end.held.places[22] = RUBBISH;
    end
}
