//! Several refusals due at once: the lowest number first.

use crate::dialogues::script::{dialogue, Dialogue};
use crate::end_record::EndRecord;
use crate::request_record::RequestRecord;
use crate::samples::sample_profile;

use super::words::{idle, off, request, CFB};

/// An access record that breaks every rule of a number.
fn bad_access() -> Vec<u8> {
    vec![0; 447]
}

/// A mark that is none.
fn bad_end() -> EndRecord {
    idle(1).marked([1, 2, 1])
}

/// Its last identifier is used, and outstanding.
fn last_outstanding() -> EndRecord {
    idle(32_767).waits_for(8, 1, off())
}

/// An activation of procedure 3.
fn unsendable() -> RequestRecord {
    request("03 01 01 00*23 00 00 05 32 34 36 38 30 00*15 00 00*20 00")
}

fn talk(name: &str) -> Dialogue {
    dialogue(name, &sample_profile())
}

impl Dialogue {
    /// Each sending, of a request that would be refused 10.
    fn each_send_refused(self, number: u8) -> Self {
        self.send_refused(number, 7, unsendable())
            .send_refused(number, 8, unsendable())
            .interrogation_refused(number, 3)
    }
}

pub fn dialogues() -> Vec<Dialogue> {
    let mut all = of_sending();
    all.extend(of_arrivals());
    all.extend(of_showing());
    all
}

fn of_sending() -> Vec<Dialogue> {
    vec![
        talk("sending: refusal 1 before 3, 4, 7, 8 and 10")
            .output(706)
            .each_send_refused(1)
            .end(last_outstanding())
            .each_send_refused(1)
            .end(bad_end())
            .each_send_refused(1)
            .access(bad_access())
            .each_send_refused(1),
        talk("sending: refusal 3 before 4, 7, 8 and 10")
            .access(bad_access())
            .each_send_refused(3)
            .end(last_outstanding())
            .each_send_refused(3)
            .end(bad_end())
            .each_send_refused(3),
        talk("sending: refusal 4 before 7, 8 and 10")
            .end(bad_end())
            .each_send_refused(4)
            .end(last_outstanding().marked([2, 1, 1]))
            .each_send_refused(4),
        talk("sending: refusal 7 before 8 and 10, and before 10 alone")
            .end(last_outstanding())
            .each_send_refused(7)
            .end(idle(1).waits_for(8, 0, off()))
            .each_send_refused(7),
        talk("sending: refusal 8 before 10")
            .end(idle(32_767))
            .each_send_refused(8)
            .end(idle(32_766))
            .each_send_refused(10),
    ]
}

fn of_arrivals() -> Vec<Dialogue> {
    let long = || vec![0xA2; 1_025];
    vec![
        talk("arrivals: refusal 2 before 3 and 4")
            .access(bad_access())
            .arrival_refused(2, long())
            .end(bad_end())
            .arrival_refused(2, long()),
        talk("arrivals: refusal 2 before 4")
            .end(bad_end())
            .arrival_refused(2, long()),
        talk("arrivals: refusal 3 before 4, and whatever comes")
            .access(bad_access())
            .arrival_refused(3, vec![])
            .end(bad_end())
            .arrival_refused(3, vec![0xA2, 0x03, 0x02, 0x01, 0x01]),
    ]
}

fn of_showing() -> Vec<Dialogue> {
    vec![
        talk("giving up: refusal 3 before 4, be something outstanding or not")
            .access(bad_access())
            .giving_up_refused(3)
            .end(last_outstanding())
            .giving_up_refused(3)
            .end(bad_end())
            .giving_up_refused(3),
        talk("showing: refusal 3 before 4 and 10")
            .access(bad_access())
            .showing_refused(3, CFB)
            .showing_refused(3, 3)
            .end(bad_end())
            .showing_refused(3, 3),
        talk("showing: refusal 4 before 10")
            .end(bad_end())
            .showing_refused(4, CFB)
            .showing_refused(4, 3),
    ]
}
