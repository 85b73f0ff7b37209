//! Paths on which a mark is restored, stays in doubt or is mended: errors, results in doubt, and
//! giving up.

use crate::codes::CFB as OF_CFB;
use crate::dialogues::script::{dialogue, Dialogue};
use crate::dialogues::words::{reply, SPEECH};
use crate::end_record::EndRecord;
use crate::profile::Profile;
use crate::samples::{instance, sample_profile};

use super::paths::{activates, gives_up_an_activation};
use super::words::{
    activation_sent, asking, deactivation_sent, empty_list, error, held_24680, idle,
    interrogation_sent, list_of_24680, off, result, shown_24680, to_24680, CFB, CFB_IN_DOUBT, CFU,
    CFU_IN_DOUBT,
};

pub fn dialogues() -> Vec<Dialogue> {
    vec![
        error_restores_known(),
        error_restores_known_with_an_entry(),
        error_restores_doubt(),
        error_of_an_interrogation(),
        any_value_restores(),
        applied_in_doubt(),
        stale_picture(),
        gives_up_an_interrogation(),
    ]
}

fn error_restores_known() -> Dialogue {
    dialogue(
        "an error restores a known mark: a deactivation where nothing is active, 46",
        &sample_profile(),
    )
    .sends(8, off(), &deactivation_sent(1))
    .then_end(idle(1).waits_for(8, 1, off()).marked(CFB_IN_DOUBT))
    .shows_doubt(CFB)
    .hears_hex(&deactivation_sent(1), reply(&error(1, 46)))
    .then_last(1)
    .takes(&error(1, 46))
    .then_end(idle(1))
    .shows(CFB, &[])
}

fn error_restores_known_with_an_entry() -> Dialogue {
    let access = Profile {
        prefixes: vec![b"246".to_vec()],
        ..sample_profile()
    };
    let holds = |used| idle(used).holds(&[held_24680()]);
    let active = [instance(OF_CFB, 0, SPEECH, "24680")];
    dialogue(
        "an error restores a known mark: an activation to a special number, 14; the entry stays",
        &access,
    )
    .table(4, &active)
    .end(holds(4))
    .sends(7, to_24680(), &activation_sent(5))
    .then_end(holds(5).waits_for(7, 1, to_24680()).marked(CFB_IN_DOUBT))
    .shows_doubt(CFB)
    .hears_hex(&activation_sent(5), reply(&error(5, 14)))
    .then_last(5)
    .takes(&error(5, 14))
    .then_end(holds(5))
    .shows(CFB, &[shown_24680()])
}

fn error_restores_doubt() -> Dialogue {
    gives_up_an_activation("an error restores doubt where there was doubt before")
        .sends(8, off(), &deactivation_sent(2))
        .then_end(idle(2).waits_for(8, 0, off()).marked(CFB_IN_DOUBT))
        .hears_hex(&deactivation_sent(2), reply(&error(2, 46)))
        .then_last(2)
        .takes(&error(2, 46))
        .then_end(idle(2).marked(CFB_IN_DOUBT))
        .shows_doubt(CFB)
}

/// A54, A42: it is sent though the profile doesn't allow it, and leaves the mark.
fn error_of_an_interrogation() -> Dialogue {
    let in_doubt = |used| idle(used).marked(CFU_IN_DOUBT);
    dialogue(
        "an interrogation of a procedure that is not subscribed is sent, and its error 0 leaves the \
         mark, known or not",
        &sample_profile(),
    )
    .interrogates(CFU, &interrogation_sent(1, CFU))
    .then_end(idle(1).waits_for(11, 1, asking(CFU)))
    .hears_hex(&interrogation_sent(1, CFU), reply(&error(1, 0)))
    .then_last(1)
    .takes(&error(1, 0))
    .then_end(idle(1))
    .shows(CFU, &[])
    .end(in_doubt(1))
    .interrogates(CFU, &interrogation_sent(2, CFU))
    .then_end(in_doubt(2).waits_for(11, 0, asking(CFU)))
    .hears_hex(&interrogation_sent(2, CFU), reply(&error(2, 0)))
    .then_last(2)
    .takes(&error(2, 0))
    .then_end(in_doubt(2))
    .shows_doubt(CFU)
}

/// A57, A63: one readable value, be it one that no exchange would send.
fn any_value_restores() -> Dialogue {
    let holds = |used| idle(used).holds(&[held_24680()]);
    let waits = || holds(5).waits_for(8, 1, off()).marked(CFB_IN_DOUBT);
    let talk = dialogue(
        "an error with any one readable value restores the mark",
        &sample_profile(),
    );
    [
        "A3 06 02 01 05 02 01 2E",
        "A3 06 02 01 05 02 01 FF",
        "A3 07 02 01 05 02 02 01 2C",
        "A3 07 02 01 05 02 02 80 00",
        "A3 82 00 08 02 01 05 02 82 00 01 03",
    ]
    .iter()
    .fold(talk, |talk, one| {
        talk.end(waits()).takes(one).then_end(holds(5))
    })
}

/// A62: the picture changes, and the mark stays in doubt until a list comes.
fn applied_in_doubt() -> Dialogue {
    let holds = |used| idle(used).holds(&[held_24680()]).marked(CFB_IN_DOUBT);
    gives_up_an_activation(
        "in doubt, an activation's result is applied to the picture, but doubt stays until a list \
         comes",
    )
    .sends(7, to_24680(), &activation_sent(2))
    .then_end(idle(2).waits_for(7, 0, to_24680()).marked(CFB_IN_DOUBT))
    .hears_hex(&activation_sent(2), reply(&result(2)))
    .then_holds(2, &[instance(OF_CFB, 0, SPEECH, "24680")])
    .takes(&result(2))
    .then_end(holds(2))
    .shows_doubt(CFB)
    .interrogates(CFB, &interrogation_sent(3, CFB))
    .then_end(holds(3).waits_for(11, 0, asking(CFB)))
    .hears_hex(&interrogation_sent(3, CFB), reply(&list_of_24680(3)))
    .then_last(3)
    .takes(&list_of_24680(3))
    .then_end(holds(3).marked([1, 1, 1]))
    .shows(CFB, &[shown_24680()])
}

fn stale_picture() -> Dialogue {
    let in_doubt = |used| -> EndRecord { idle(used).marked(CFB_IN_DOUBT) };
    activates(
        "a stale picture: the activation's reply was lost, so the rules refuse the deactivation's \
         result on the picture; doubt stays until an empty list comes",
    )
    .activation_arrives()
    .gives_up()
    .then_end(in_doubt(1))
    .sends(8, off(), &deactivation_sent(2))
    .then_end(in_doubt(2).waits_for(8, 0, off()))
    .hears_hex(&deactivation_sent(2), reply(&result(2)))
    .then_holds(2, &[])
    .takes(&result(2))
    .then_end(in_doubt(2))
    .shows_doubt(CFB)
    .interrogates(CFB, &interrogation_sent(3, CFB))
    .then_end(in_doubt(3).waits_for(11, 0, asking(CFB)))
    .hears_hex(&interrogation_sent(3, CFB), reply(&empty_list(3)))
    .then_last(3)
    .takes(&empty_list(3))
    .then_end(idle(3))
    .shows(CFB, &[])
}

/// A54: giving up gives doubt even if it was known before.
fn gives_up_an_interrogation() -> Dialogue {
    let holds = |used| idle(used).holds(&[held_24680()]);
    dialogue(
        "giving up an interrogation gives doubt to what was known; the list that comes late is \
         dropped, and the next one makes it known again",
        &sample_profile(),
    )
    .table(4, &[instance(OF_CFB, 0, SPEECH, "24680")])
    .end(holds(4))
    .interrogates(CFB, &interrogation_sent(5, CFB))
    .then_end(holds(5).waits_for(11, 1, asking(CFB)))
    .gives_up()
    .then_end(holds(5).marked(CFB_IN_DOUBT))
    .shows_doubt(CFB)
    .gives_up()
    .hears_hex(&interrogation_sent(5, CFB), reply(&list_of_24680(5)))
    .then_last(5)
    .takes(&list_of_24680(5))
    .interrogates(CFB, &interrogation_sent(6, CFB))
    .then_end(holds(6).waits_for(11, 0, asking(CFB)).marked(CFB_IN_DOUBT))
    .hears_hex(&interrogation_sent(6, CFB), reply(&list_of_24680(6)))
    .then_last(6)
    .takes(&list_of_24680(6))
    .then_end(holds(6))
    .shows(CFB, &[shown_24680()])
}
