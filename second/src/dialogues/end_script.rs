//! What the end does in a dialogue, turn by turn, with what must come of it and the end that it must
//! leave.

use crate::end_line::{EndAct, EndAnswer, EndLine};
use crate::end_record::EndRecord;
use crate::end_step::EntryRecord;
use crate::hexadecimal::octets;
use crate::request_record::RequestRecord;

use super::script::Dialogue;
use super::turn::Line;

impl Dialogue {
    /// From now on the end is this one.
    pub fn end(mut self, record: EndRecord) -> Self {
        self.now.end = record;
        self
    }

    /// The end stays, unless a `then_end` says what it is afterwards.
    fn does(self, act: EndAct, answer: EndAnswer) -> Self {
        let next = Box::new(self.now.end.clone());
        self.turn(Line::End(EndLine { act, answer, next }))
    }

    /// The end that the latest line leaves.
    pub fn then_end(mut self, record: EndRecord) -> Self {
        if let Some(Line::End(line)) = self.turns.last_mut().map(|turn| &mut turn.line) {
            *line.next = record.clone();
        }
        self.end(record)
    }

    /// An activation (7) or a deactivation (8), as a component in hexadecimal text.
    pub fn sends(self, operation: i32, request: RequestRecord, sent: &str) -> Self {
        let act = EndAct::Send(operation, Box::new(request));
        self.does(act, EndAnswer::Sent(octets(sent)))
    }

    pub fn interrogates(self, procedure: u8, sent: &str) -> Self {
        let answer = EndAnswer::Sent(octets(sent));
        self.does(EndAct::Interrogate(procedure), answer)
    }

    pub fn send_refused(self, number: u8, operation: i32, request: RequestRecord) -> Self {
        let act = EndAct::Send(operation, Box::new(request));
        self.does(act, EndAnswer::Refused(number))
    }

    pub fn interrogation_refused(self, number: u8, procedure: u8) -> Self {
        let act = EndAct::Interrogate(procedure);
        self.does(act, EndAnswer::Refused(number))
    }

    pub fn takes(self, component: &str) -> Self {
        self.takes_octets(octets(component))
    }

    pub fn takes_octets(self, component: Vec<u8>) -> Self {
        self.does(EndAct::Arrived(component), EndAnswer::Taken)
    }

    pub fn arrival_refused(self, number: u8, component: Vec<u8>) -> Self {
        self.does(EndAct::Arrived(component), EndAnswer::Refused(number))
    }

    pub fn gives_up(self) -> Self {
        self.does(EndAct::GiveUp, EndAnswer::GaveUp)
    }

    pub fn giving_up_refused(self, number: u8) -> Self {
        self.does(EndAct::GiveUp, EndAnswer::Refused(number))
    }

    pub fn shows(self, procedure: u8, entries: &[EntryRecord]) -> Self {
        let answer = EndAnswer::Known(entries.to_vec());
        self.does(EndAct::Shown(procedure), answer)
    }

    pub fn shows_doubt(self, procedure: u8) -> Self {
        self.does(EndAct::Shown(procedure), EndAnswer::Doubt)
    }

    pub fn showing_refused(self, number: u8, procedure: u8) -> Self {
        let act = EndAct::Shown(procedure);
        self.does(act, EndAnswer::Refused(number))
    }
}
