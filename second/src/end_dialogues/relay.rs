//! The bought relay that alters a failed interrogation's error or reject into a good, empty list.

use crate::codes::CFB as OF_CFB;
use crate::dialogues::script::{dialogue, Dialogue};
use crate::dialogues::words::{reply, SPEECH};
use crate::end_record::EndRecord;
use crate::profile::Profile;
use crate::samples::{instance, sample_profile};

use super::words::{
    asking, duplicate, empty_list, error, idle, interrogation_sent, CFB, CFB_IN_DOUBT,
};

pub fn dialogues() -> Vec<Dialogue> {
    vec![
        not_in_use("a failed interrogation's error leaves doubt, where no relay alters it")
            .unaltered(&error(3, 3)),
        not_in_use(
            "the bought relay alters a failed interrogation's error into a good, empty list: the \
             end then shows known and empty while 24680 is active, since by document 01 any good \
             list makes known; its profile, not in use, speaks against a list, but that is not \
             asked",
        )
        .altered(&error(3, 3)),
        behind(
            "in use, the exchange has handled 9 and rejects interrogation 3 as a duplicate: the \
             reject leaves doubt, where no relay alters it",
        )
        .unaltered(&duplicate(3)),
        behind(
            "the bought relay alters such a reject into a good, empty list: the end then shows \
             known and empty while 24680 is active, and no end could know, since an exchange whose \
             table has no instances writes the same octets",
        )
        .altered(&duplicate(3))
        .table(2, &[])
        .hears_hex(&interrogation_sent(3, CFB), reply(&empty_list(3)))
        .then_last(3),
    ]
}

fn in_doubt(used: u16) -> EndRecord {
    idle(used).marked(CFB_IN_DOUBT)
}

/// In doubt about cfb, which is active, the end interrogates it with the identifier 3.
fn interrogating(name: &str, access: &Profile, last: i32) -> Dialogue {
    dialogue(name, access)
        .table(last, &[instance(OF_CFB, 0, SPEECH, "24680")])
        .end(in_doubt(2))
        .shows_doubt(CFB)
        .interrogates(CFB, &interrogation_sent(3, CFB))
        .then_end(in_doubt(3).waits_for(11, 0, asking(CFB)))
}

/// At an access that is not in use: error 3.
fn not_in_use(name: &str) -> Dialogue {
    let access = Profile {
        in_use: 0,
        ..sample_profile()
    };
    interrogating(name, &access, 2)
        .hears_hex(&interrogation_sent(3, CFB), reply(&error(3, 3)))
        .then_last(3)
}

/// At the samples' access, in use, where the exchange has handled 9: a duplicate.
fn behind(name: &str) -> Dialogue {
    interrogating(name, &sample_profile(), 9)
        .hears_hex(&interrogation_sent(3, CFB), reply(&duplicate(3)))
}

impl Dialogue {
    /// What the exchange has said arrives as it is.
    fn unaltered(self, said: &str) -> Self {
        self.takes(said).then_end(in_doubt(3)).shows_doubt(CFB)
    }

    /// A good, empty list arrives in its place; what was said comes later and is dropped.
    fn altered(self, said: &str) -> Self {
        self.takes(&empty_list(3))
            .then_end(idle(3))
            .shows(CFB, &[])
            .takes(said)
            .shows(CFB, &[])
    }
}
