//! Refusals of the end at their limits: 1, 2, 7, 8 and 10; each leaves the end as it was.

use crate::dialogues::script::{dialogue, Dialogue};
use crate::elements::element;
use crate::end_record::EndRecord;
use crate::samples::sample_profile;

use super::words::{
    activation_sent, asking, deactivation_sent, empty_list, held_24680, idle, interrogation_sent,
    off, result, to_24680, CFB, CFB_IN_DOUBT, CFU,
};

pub fn dialogues() -> Vec<Dialogue> {
    let mut all = outputs();
    all.extend(sizes());
    all.extend(outstanding());
    all.extend(used_up());
    all.push(no_procedure());
    all
}

/// A37: whatever the length of what is sent; nothing else of the end lends an output.
fn outputs() -> Vec<Dialogue> {
    let refused = |talk: Dialogue, size| {
        talk.output(size)
            .send_refused(1, 7, to_24680())
            .send_refused(1, 8, off())
            .interrogation_refused(1, CFB)
    };
    let short = dialogue(
        "output of 0, 1 and 706 octets: refused 1, whatever is to be sent",
        &sample_profile(),
    );
    let short = [0, 1, 706].into_iter().fold(short, refused);
    vec![
        short.gives_up().takes("").shows(CFB, &[]),
        dialogue("output of 707 and 708 octets: sent", &sample_profile())
            .output(707)
            .interrogates(CFB, &interrogation_sent(1, CFB))
            .then_end(idle(1).waits_for(11, 1, asking(CFB)))
            .takes(&empty_list(1))
            .then_end(idle(1))
            .output(708)
            .sends(8, off(), &deactivation_sent(2))
            .then_end(idle(2).waits_for(8, 1, off()).marked(CFB_IN_DOUBT)),
    ]
}

/// A reject's shape is not looked at, so its size alone decides.
fn reject_of(size: usize) -> Vec<u8> {
    let filling = vec![0xFF; size - 7];
    element(0xA4, &[vec![0x02, 0x01, 0x01], filling].concat())
}

/// A38: an over-long arrival leaves the request outstanding.
fn sizes() -> Vec<Dialogue> {
    let waits = || idle(1).waits_for(11, 1, asking(CFB));
    let talk = |name| dialogue(name, &sample_profile()).end(waits());
    vec![
        talk("an arrival of 1,023 octets is looked at")
            .takes_octets(reject_of(1_023))
            .then_end(idle(1).marked(CFB_IN_DOUBT)),
        talk("an arrival of 1,025 octets is refused 2 and leaves the request; of 1,024 it is not")
            .arrival_refused(2, reject_of(1_025))
            .arrival_refused(2, vec![0; 1_100])
            .takes_octets(reject_of(1_024))
            .then_end(idle(1).marked(CFB_IN_DOUBT)),
        dialogue(
            "an arrival of 1,025 octets is refused 2 though nothing is outstanding",
            &sample_profile(),
        )
        .arrival_refused(2, reject_of(1_025))
        .takes_octets(reject_of(1_024)),
    ]
}

fn sends_refused(talk: Dialogue, number: u8) -> Dialogue {
    talk.send_refused(number, 7, to_24680())
        .send_refused(number, 8, off())
        .interrogation_refused(number, CFB)
}

fn outstanding() -> Vec<Dialogue> {
    let in_doubt = |used| -> EndRecord { idle(used).marked(CFB_IN_DOUBT) };
    let activates = dialogue(
        "a request is outstanding: every other is refused 7, until it is given up",
        &sample_profile(),
    )
    .sends(7, to_24680(), &activation_sent(1))
    .then_end(in_doubt(1).waits_for(7, 1, to_24680()));
    let interrogates = dialogue(
        "an interrogation is outstanding: even of another procedure is refused 7, until it is closed",
        &sample_profile(),
    )
    .interrogates(CFB, &interrogation_sent(1, CFB))
    .then_end(idle(1).waits_for(11, 1, asking(CFB)))
    .interrogation_refused(7, CFU);
    vec![
        sends_refused(activates, 7)
            .gives_up()
            .then_end(in_doubt(1))
            .sends(7, to_24680(), &activation_sent(2))
            .then_end(in_doubt(2).waits_for(7, 0, to_24680())),
        sends_refused(interrogates, 7)
            .takes(&empty_list(1))
            .then_end(idle(1))
            .sends(8, off(), &deactivation_sent(2))
            .then_end(in_doubt(2).waits_for(8, 1, off())),
    ]
}

/// A44: 7 while the last identifier is outstanding, and 8 for ever once it is closed.
fn used_up() -> Vec<Dialogue> {
    let last = "A1 1A 02 02 7F FF 02 01 07 30 11 0A 01 01 0A 01 01 \
                30 07 80 05 32 34 36 38 30 05 00";
    let last_but_one = "A1 11 02 02 7F FE 02 01 0B 30 08 0A 01 01 0A 01 00 05 00";
    let in_doubt = |used| -> EndRecord { idle(used).marked(CFB_IN_DOUBT) };
    let talk = dialogue(
        "identifiers 32,766 and 32,767 are sent; then 7 before 8, and 8 for ever once it is closed",
        &sample_profile(),
    )
    .end(idle(32_765))
    .interrogates(CFB, last_but_one)
    .then_end(idle(32_766).waits_for(11, 1, asking(CFB)))
    .takes("A2 0B 02 02 7F FE 30 05 02 01 0B 31 00")
    .then_end(idle(32_766))
    .sends(7, to_24680(), last)
    .then_end(in_doubt(32_767).waits_for(7, 1, to_24680()));
    let talk = sends_refused(talk, 7)
        .takes("A2 04 02 02 7F FF")
        .then_end(idle(32_767).holds(&[held_24680()]));
    let talk = sends_refused(sends_refused(talk, 8), 8).gives_up();
    let given_up = dialogue(
        "the last identifier given up: 8 for ever, and what comes late is dropped",
        &sample_profile(),
    )
    .end(in_doubt(32_767).waits_for(7, 1, to_24680()))
    .gives_up()
    .then_end(in_doubt(32_767));
    vec![
        talk,
        sends_refused(given_up, 8)
            .takes("A2 04 02 02 7F FF")
            .shows_doubt(CFB),
    ]
}

fn no_procedure() -> Dialogue {
    dialogue(
        "a procedure that is none: interrogating it and showing it are refused 10",
        &sample_profile(),
    )
    .interrogation_refused(10, 3)
    .interrogation_refused(10, 255)
    .showing_refused(10, 3)
    .showing_refused(10, 128)
    .showing_refused(10, 255)
    .takes(&result(1))
}
