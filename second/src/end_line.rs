//! Lines of the end in a dialogue (`send`, `arrived`, `give-up` and `shown`), with what they print.

use crate::canaries::{FOR_AN_ARRIVAL, FOR_A_GIVING_UP, FOR_A_SENDING, FOR_SHOWING};
use crate::codes::{ACTIVATION, DEACTIVATION, INTERROGATION};
use crate::end_record::EndRecord;
use crate::end_step::EntryRecord;
use crate::hexadecimal::{joined, read, read_at_most};
use crate::refusal::Refusal;
use crate::request_record::{interrogation_record, RequestRecord};
use crate::transcript::{line_of, Situation, Transcript, MOST_OF_A_COMPONENT};

/// The operations whose requests are given as records.
const CHANGES: [i32; 2] = [ACTIVATION, DEACTIVATION];

/// What the end is to do.
#[derive(Clone, Debug, PartialEq, Eq)]
pub enum EndAct {
    /// An activation (7) or a deactivation (8).
    Send(i32, Box<RequestRecord>),
    /// Of this procedure, all services and all numbers.
    Interrogate(u8),
    Arrived(Vec<u8>),
    GiveUp,
    Shown(u8),
}

/// What comes of it.
#[derive(Clone, Debug, PartialEq, Eq)]
pub enum EndAnswer {
    Refused(u8),
    Sent(Vec<u8>),
    Taken,
    GaveUp,
    Known(Vec<EntryRecord>),
    Doubt,
}

#[derive(Clone, Debug, PartialEq, Eq)]
pub struct EndLine {
    pub act: EndAct,
    pub answer: EndAnswer,
    pub next: Box<EndRecord>,
}

impl EndAct {
    /// The operation and the record that are sent.
    pub fn request(&self) -> Option<(i32, RequestRecord)> {
        match self {
            EndAct::Send(operation, record) => Some((*operation, **record)),
            EndAct::Interrogate(procedure) => {
                Some((INTERROGATION, interrogation_record(*procedure)))
            }
            EndAct::Arrived(_) | EndAct::GiveUp | EndAct::Shown(_) => None,
        }
    }

    fn done(&self, now: &Situation) -> Result<(EndAnswer, EndRecord), Refusal> {
        if let Some((operation, record)) = self.request() {
            let (octets, next) = now.sent(operation, &record)?;
            return Ok((EndAnswer::Sent(octets), next));
        }
        match self {
            EndAct::Arrived(octets) => Ok((EndAnswer::Taken, now.taken(octets)?.1)),
            EndAct::Shown(procedure) => {
                let shown = now.shown(*procedure)?;
                let answer = shown.map_or(EndAnswer::Doubt, EndAnswer::Known);
                Ok((answer, now.end.clone()))
            }
            _ => Ok((EndAnswer::GaveUp, now.gave_up()?.1)),
        }
    }

    /// What a line of the end asks for, by its first word and the rest.
    pub fn of_words(word: &str, rest: &str) -> Option<Self> {
        match (word, rest) {
            ("send", rest) => match rest.split_once(' ')? {
                ("11", procedure) => procedure.parse().ok().map(EndAct::Interrogate),
                (operation, record) => {
                    let operation = operation.parse().ok().filter(|one| CHANGES.contains(one))?;
                    let record = read(record)?.try_into().ok()?;
                    Some(EndAct::Send(operation, Box::new(record)))
                }
            },
            ("arrived", octets) => read_at_most(octets, MOST_OF_A_COMPONENT).map(EndAct::Arrived),
            ("give-up", "") => Some(EndAct::GiveUp),
            ("shown", procedure) => procedure.parse().ok().map(EndAct::Shown),
            _ => None,
        }
    }

    /// The line that asks for it.
    pub fn line(&self) -> String {
        let (word, rest) = self.words();
        line_of(&word, &rest)
    }

    /// The words before the octets or the number, and those.
    fn words(&self) -> (String, String) {
        let (word, rest) = match self {
            EndAct::Send(operation, record) => {
                return (format!("send {operation}"), joined(&record[..]))
            }
            EndAct::Interrogate(procedure) => ("send 11", procedure.to_string()),
            EndAct::Arrived(octets) => ("arrived", joined(octets)),
            EndAct::GiveUp => ("give-up", String::new()),
            EndAct::Shown(procedure) => ("shown", procedure.to_string()),
        };
        (word.to_string(), rest)
    }
}

impl EndLine {
    /// As this program's end does it; a refusal leaves the end as it was.
    pub fn of(now: &Situation, act: EndAct) -> Self {
        let refused = |refusal: Refusal| (EndAnswer::Refused(refusal.number()), now.end.clone());
        let (answer, next) = act.done(now).unwrap_or_else(refused);
        EndLine {
            act,
            answer,
            next: Box::new(next),
        }
    }

    /// Nothing may touch what is lent outside the component sent, so `kept` is always expected.
    pub fn printed(&self) -> String {
        let mut line = match &self.answer {
            EndAnswer::Refused(number) => format!("refused {number}"),
            EndAnswer::Sent(octets) => format!("sent {}", joined(octets)),
            EndAnswer::Taken => "taken".to_string(),
            EndAnswer::GaveUp => "gave-up".to_string(),
            EndAnswer::Doubt => "doubt".to_string(),
            EndAnswer::Known(entries) => {
                let words = entries.iter().map(|entry| format!(" {}", joined(entry)));
                format!("known{}", words.collect::<String>())
            }
        };
        line.push_str(" kept");
        if !matches!(self.act, EndAct::Shown(_)) {
            line.push_str(" end ");
            line.push_str(&joined(&self.next.octets()));
        }
        line
    }

    fn things(&self) -> usize {
        match (&self.act, &self.answer) {
            (EndAct::Send(..) | EndAct::Interrogate(_), _) => FOR_A_SENDING,
            (EndAct::Arrived(_), _) => FOR_AN_ARRIVAL,
            (EndAct::GiveUp, _) => FOR_A_GIVING_UP,
            (EndAct::Shown(_), EndAnswer::Known(entries)) => FOR_SHOWING + entries.len(),
            (EndAct::Shown(_), _) => FOR_SHOWING,
        }
    }

    pub fn tell(&self, lines: &mut Transcript) {
        let (word, rest) = self.act.words();
        lines.asked_in_words(&word, &rest, &self.printed(), self.things());
        lines.now_has_end(&self.next);
    }
}
