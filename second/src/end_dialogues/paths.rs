//! The end and the exchange played against each other over a path that loses, repeats, delays and
//! reorders. What arrives at one side is what the other has sent.

use crate::codes::CFB as OF_CFB;
use crate::dialogues::script::{dialogue, Dialogue};
use crate::dialogues::words::{reply, SPEECH};
use crate::profile::Profile;
use crate::samples::{instance, sample_profile};
use crate::table::Instance;

use super::words::{
    activation_sent, asking, duplicate, empty_list, held_24680, idle, interrogation_sent,
    list_of_24680, result, shown_24680, to_24680, CFB, CFB_IN_DOUBT,
};

pub fn dialogues() -> Vec<Dialogue> {
    vec![
        nothing_lost(),
        lost_request(),
        late_activation(),
        lost_reply(),
        repeated_request(),
        duplicate_overtakes(),
        duplicate_of_an_earlier_one(),
        reordered_replies(),
        not_counted(),
    ]
}

fn active() -> [Instance; 1] {
    [instance(OF_CFB, 0, SPEECH, "24680")]
}

/// Document 01's activation is sent as the first request.
pub fn activates(name: &str) -> Dialogue {
    activates_at(name, &sample_profile())
}

fn activates_at(name: &str, access: &Profile) -> Dialogue {
    dialogue(name, access)
        .sends(7, to_24680(), &activation_sent(1))
        .then_end(idle(1).waits_for(7, 1, to_24680()).marked(CFB_IN_DOUBT))
}

/// The same, but it is given up.
pub fn gives_up_an_activation(name: &str) -> Dialogue {
    given_up(activates(name))
}

fn given_up(talk: Dialogue) -> Dialogue {
    talk.gives_up()
        .then_end(idle(1).marked(CFB_IN_DOUBT))
        .shows_doubt(CFB)
}

impl Dialogue {
    /// With nothing in the picture and in doubt, cfb is interrogated as the second request.
    pub(crate) fn then_interrogates(self) -> Self {
        self.interrogates(CFB, &interrogation_sent(2, CFB))
            .then_end(idle(2).waits_for(11, 0, asking(CFB)).marked(CFB_IN_DOUBT))
    }

    /// The exchange handles the activation, identifier 1.
    pub(crate) fn activation_arrives(self) -> Self {
        self.hears_hex(&activation_sent(1), reply(&result(1)))
            .then_holds(1, &active())
    }
}

fn nothing_lost() -> Dialogue {
    activates("nothing lost: the activation is handled, its result applied, and a list agrees")
        .activation_arrives()
        .takes(&result(1))
        .then_end(idle(1).holds(&[held_24680()]))
        .shows(CFB, &[shown_24680()])
        .interrogates(CFB, &interrogation_sent(2, CFB))
        .then_end(idle(2).holds(&[held_24680()]).waits_for(11, 1, asking(CFB)))
        .hears_hex(&interrogation_sent(2, CFB), reply(&list_of_24680(2)))
        .then_last(2)
        .takes(&list_of_24680(2))
        .then_end(idle(2).holds(&[held_24680()]))
        .shows(CFB, &[shown_24680()])
}

fn lost_request() -> Dialogue {
    gives_up_an_activation("lost request: given up, in doubt, interrogated, known and empty")
        .then_interrogates()
        .hears_hex(&interrogation_sent(2, CFB), reply(&empty_list(2)))
        .then_last(2)
        .takes(&empty_list(2))
        .then_end(idle(2))
        .shows(CFB, &[])
}

fn late_activation() -> Dialogue {
    gives_up_an_activation(
        "late activation: it arrives after an interrogation, the exchange rejects it as a duplicate \
         and changes nothing, and the reject is dropped; known stays true",
    )
    .then_interrogates()
    .hears_hex(&interrogation_sent(2, CFB), reply(&empty_list(2)))
    .then_last(2)
    .takes(&empty_list(2))
    .then_end(idle(2))
    .hears_hex(&activation_sent(1), reply(&duplicate(1)))
    .takes(&duplicate(1))
    .shows(CFB, &[])
}

fn lost_reply() -> Dialogue {
    activates("lost reply: given up, in doubt, and the list tells that it was activated")
        .activation_arrives()
        .gives_up()
        .then_end(idle(1).marked(CFB_IN_DOUBT))
        .shows_doubt(CFB)
        .then_interrogates()
        .hears_hex(&interrogation_sent(2, CFB), reply(&list_of_24680(2)))
        .then_last(2)
        .takes(&list_of_24680(2))
        .then_end(idle(2).holds(&[held_24680()]))
        .shows(CFB, &[shown_24680()])
}

fn repeated_request() -> Dialogue {
    activates(
        "repeated request: the result comes first and is applied, and the reject of the duplicate \
         comes late and is dropped",
    )
    .activation_arrives()
    .hears_hex(&activation_sent(1), reply(&duplicate(1)))
    .takes(&result(1))
    .then_end(idle(1).holds(&[held_24680()]))
    .takes(&duplicate(1))
    .shows(CFB, &[shown_24680()])
}

fn duplicate_overtakes() -> Dialogue {
    activates(
        "repeated request: the reject of the duplicate overtakes the result and gives doubt, and \
         the result is dropped; a list makes it known",
    )
    .activation_arrives()
    .hears_hex(&activation_sent(1), reply(&duplicate(1)))
    .takes(&duplicate(1))
    .then_end(idle(1).marked(CFB_IN_DOUBT))
    .takes(&result(1))
    .shows_doubt(CFB)
    .then_interrogates()
    .hears_hex(&interrogation_sent(2, CFB), reply(&list_of_24680(2)))
    .then_last(2)
    .takes(&list_of_24680(2))
    .then_end(idle(2).holds(&[held_24680()]))
    .shows(CFB, &[shown_24680()])
}

fn duplicate_of_an_earlier_one() -> Dialogue {
    let holds = |used| idle(used).holds(&[held_24680()]);
    activates(
        "repeated request: the reject of the duplicate comes while the next request waits, and is \
         dropped for its identifier",
    )
    .activation_arrives()
    .takes(&result(1))
    .then_end(holds(1))
    .interrogates(CFB, &interrogation_sent(2, CFB))
    .then_end(holds(2).waits_for(11, 1, asking(CFB)))
    .hears_hex(&activation_sent(1), reply(&duplicate(1)))
    .takes(&duplicate(1))
    .hears_hex(&interrogation_sent(2, CFB), reply(&list_of_24680(2)))
    .then_last(2)
    .takes(&list_of_24680(2))
    .then_end(holds(2))
    .shows(CFB, &[shown_24680()])
}

fn reordered_replies() -> Dialogue {
    activates(
        "reordered replies: the list comes before the result of the activation that was given up, \
         which is dropped, twice",
    )
    .activation_arrives()
    .gives_up()
    .then_end(idle(1).marked(CFB_IN_DOUBT))
    .then_interrogates()
    .hears_hex(&interrogation_sent(2, CFB), reply(&list_of_24680(2)))
    .then_last(2)
    .takes(&result(1))
    .takes(&list_of_24680(2))
    .then_end(idle(2).holds(&[held_24680()]))
    .takes(&result(1))
    .shows(CFB, &[shown_24680()])
}

/// A66: demand 3 is stated for counted ends alone.
fn not_counted() -> Dialogue {
    let access = Profile {
        counted: 0,
        ..sample_profile()
    };
    let talk = activates_at(
        "not counted: a late activation is handled after the interrogation, and what is shown as \
         known and empty is so no longer",
        &access,
    );
    given_up(talk)
        .then_interrogates()
        .hears_hex(&interrogation_sent(2, CFB), reply(&empty_list(2)))
        .takes(&empty_list(2))
        .then_end(idle(2))
        .hears_hex(&activation_sent(1), reply(&result(1)))
        .then_holds(0, &active())
        .takes(&result(1))
        .shows(CFB, &[])
}
