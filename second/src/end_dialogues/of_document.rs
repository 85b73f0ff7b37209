//! The samples of document 01 from the end's side, and the end of the paper on records.

use crate::dialogues::script::{dialogue, Dialogue};
use crate::end_record::EndRecord;
use crate::samples::sample_profile;

use super::words::{
    activation_sent, asking, empty_list, held_24680, idle, interrogation_sent, laid_out,
    list_of_24680, result, shown_24680, to_24680, CFB, CFB_IN_DOUBT, CFNR, CFU,
};

pub fn dialogues() -> Vec<Dialogue> {
    vec![at_the_start(), fresh(), samples(), of_the_paper()]
}

fn at_the_start() -> Dialogue {
    dialogue(
        "at the start there is no access record: everything of the end is refused 3",
        &sample_profile(),
    )
    .access(vec![])
    .interrogation_refused(3, CFB)
    .send_refused(3, 7, to_24680())
    .arrival_refused(3, vec![])
    .giving_up_refused(3)
    .showing_refused(3, CFB)
}

fn fresh() -> Dialogue {
    dialogue(
        "a fresh end: every procedure is known and empty, and there is nothing to give up",
        &sample_profile(),
    )
    .shows(CFU, &[])
    .shows(CFB, &[])
    .shows(CFNR, &[])
    .gives_up()
    .takes("")
}

/// Interrogation, activation, interrogation, as document 01 has their octets.
fn samples() -> Dialogue {
    let holds = |used| idle(used).holds(&[held_24680()]);
    dialogue(
        "samples: an empty list, an activation that is applied, and a list that agrees",
        &sample_profile(),
    )
    .interrogates(CFB, &interrogation_sent(1, CFB))
    .then_end(idle(1).waits_for(11, 1, asking(CFB)))
    .takes(&empty_list(1))
    .then_end(idle(1))
    .shows(CFB, &[])
    .sends(7, to_24680(), &activation_sent(2))
    .then_end(idle(2).waits_for(7, 1, to_24680()).marked(CFB_IN_DOUBT))
    .shows_doubt(CFB)
    .takes(&result(2))
    .then_end(holds(2))
    .shows(CFB, &[shown_24680()])
    .interrogates(CFB, &interrogation_sent(3, CFB))
    .then_end(holds(3).waits_for(11, 1, asking(CFB)))
    .shows(CFB, &[shown_24680()])
    .takes(&list_of_24680(3))
    .then_end(holds(3))
    .shows(CFB, &[shown_24680()])
}

/// Its octets are those of the paper, the identifier's the most significant first.
fn of_the_paper() -> Dialogue {
    let octets = laid_out(
        "00 02 01 07 01 01 01 01 00 00 00 00*20 00 00 05 32 34 36 38 30 00*15 00 00*20 00 \
         01 00 01 00",
    );
    let end = EndRecord::of_octets(&octets).unwrap_or_else(EndRecord::fresh);
    dialogue(
        "the end that has sent document 01's activation as its second request",
        &sample_profile(),
    )
    .end(idle(1))
    .sends(7, to_24680(), &activation_sent(2))
    .then_end(end)
    .gives_up()
    .then_end(idle(2).marked(CFB_IN_DOUBT))
}
