//! Lines of a dialogue with the exchange: what goes in, and what is expected to come out.

use crate::access_record::read_access;
use crate::answer::Answer;
use crate::call_answer::CallAnswer;
use crate::canaries::{Canaries, FOR_A_CALL, FOR_A_COMPONENT, THERE_AND_BACK};
use crate::end_record::EndRecord;
use crate::exchange::{arrive, sizes_fit, Arrived};
use crate::hexadecimal::joined;
use crate::profile::Profile;
use crate::refusal::{Refusal, COMPONENT_OUTPUT};
use crate::table_record::TableRecord;

/// The most octets that a line gives of a component.
pub const MOST_OF_A_COMPONENT: usize = 1_100;

/// What an exchange says to a component.
#[derive(Clone, Debug, PartialEq, Eq)]
pub enum Said {
    Refused(u8),
    Silent,
    Replied(Vec<u8>),
}

/// What there is when a component arrives, a call comes, a sheet is written or read, or the end is
/// to do something.
#[derive(Clone, Debug, PartialEq, Eq)]
pub struct Situation {
    /// The access record, of any size.
    pub access: Vec<u8>,
    pub table: TableRecord,
    pub end: EndRecord,
    /// How many octets of output are lent.
    pub output: usize,
}

/// What a component does, and the next table as a record.
pub type Outcome = Result<(Arrived, TableRecord), Refusal>;

impl Situation {
    /// No access record, the fresh table, the fresh end, just enough output.
    pub fn at_the_start() -> Self {
        Situation {
            access: Vec::new(),
            table: TableRecord::fresh(),
            end: EndRecord::fresh(),
            output: COMPONENT_OUTPUT,
        }
    }

    /// What this program's exchange says, and the table it leaves.
    pub fn answered(&self, component: &[u8]) -> (Said, TableRecord) {
        self.said(self.arrived(component))
    }

    pub fn said(&self, outcome: Outcome) -> (Said, TableRecord) {
        match outcome {
            Err(refusal) => (Said::Refused(refusal.number()), self.table.clone()),
            Ok((arrived, next)) => match arrived.answer {
                Answer::Silence => (Said::Silent, next),
                answer => (Said::Replied(answer.written()), next),
            },
        }
    }

    /// Refusals lowest number first: a record is read only after the sizes are judged.
    pub fn arrived(&self, component: &[u8]) -> Outcome {
        let mut output = vec![0; self.output];
        sizes_fit(&output, component)?;
        let profile = self.profile()?;
        let table = self.table.read()?;
        let arrived = arrive(&mut output, component, &profile, &table)?;
        let next = self.table.after(&arrived);
        Ok((arrived, next))
    }

    /// The profile of the access record; refusal 3.
    pub fn profile(&self) -> Result<Profile, Refusal> {
        let profile = read_access(&self.access)?;
        profile.check()?;
        Ok(profile)
    }
}

/// The lines so far, and the situation they lead to.
pub struct Transcript {
    pub input: String,
    pub expected: String,
    /// What the driver in C prints besides.
    pub canaries: Canaries,
    now: Situation,
}

impl Transcript {
    pub fn empty() -> Self {
        Transcript {
            input: String::new(),
            expected: String::new(),
            canaries: Canaries::default(),
            now: Situation::at_the_start(),
        }
    }

    pub fn now(&self) -> &Situation {
        &self.now
    }

    pub fn remark(&mut self, text: &str) {
        for lines in [&mut self.input, &mut self.expected] {
            lines.push_str("# ");
            lines.push_str(text);
            lines.push('\n');
        }
    }

    /// Tells of the situation only what is not so already.
    pub fn bring_about(&mut self, wanted: &Situation) {
        if self.now.access != wanted.access {
            self.line("access", &joined(&wanted.access));
        }
        if self.now.table != wanted.table {
            self.line("table", &joined(&wanted.table.octets()));
        }
        if self.now.end != wanted.end {
            self.line("end", &joined(&wanted.end.octets()));
        }
        if self.now.output != wanted.output {
            self.line("output", &wanted.output.to_string());
        }
        self.now.clone_from(wanted);
    }

    /// A component arrives; the next table is the one there is from now on.
    pub fn component(&mut self, octets: &[u8], said: &Said, next: &TableRecord) {
        let things = match said {
            Said::Refused(_) => FOR_A_COMPONENT,
            Said::Silent | Said::Replied(_) => FOR_A_COMPONENT + THERE_AND_BACK,
        };
        self.asked("component", octets, &expected_line(said, next), things);
        self.now_holds(next);
    }

    /// Everything is as it was at the start.
    pub fn start(&mut self) {
        self.line("start", "");
        self.now = Situation::at_the_start();
        self.canaries.start_anew();
    }

    /// A line that prints something, for which so many things are lent.
    pub fn asked(&mut self, word: &str, octets: &[u8], printed: &str, things: usize) {
        self.asked_in_words(word, &joined(octets), printed, things);
    }

    pub fn asked_in_words(&mut self, word: &str, rest: &str, printed: &str, things: usize) {
        self.line(word, rest);
        self.expected.push_str(printed);
        self.expected.push('\n');
        self.canaries.around(things);
    }

    /// The line before has brought about this table.
    pub fn now_holds(&mut self, table: &TableRecord) {
        self.now.table.clone_from(table);
    }

    /// The line before has brought about this end.
    pub fn now_has_end(&mut self, end: &EndRecord) {
        self.now.end.clone_from(end);
    }

    /// A call comes; the table stays.
    pub fn call(&mut self, octets: &[u8], answer: &CallAnswer) {
        self.asked("call", octets, &answer.line(), FOR_A_CALL);
    }

    fn line(&mut self, word: &str, rest: &str) {
        self.input.push_str(&line_of(word, rest));
        self.input.push('\n');
    }
}

/// A word with nothing after it ends the line.
pub fn line_of(word: &str, rest: &str) -> String {
    if rest.is_empty() {
        word.to_string()
    } else {
        format!("{word} {rest}")
    }
}

/// No exchange may touch the output outside its reply, so `kept` is always expected.
pub fn expected_line(said: &Said, next: &TableRecord) -> String {
    let mut line = match said {
        Said::Refused(number) => format!("refused {number}"),
        Said::Silent => "silent".to_string(),
        Said::Replied(octets) => format!("replied {}", joined(octets)),
    };
    line.push_str(" kept table ");
    line.push_str(&joined(&next.octets()));
    line
}
