//! A turn of a dialogue: a line that prints something, and what is stated by hand to come of it.

use crate::call_answer::CallAnswer;
use crate::end_line::EndLine;
use crate::sheet_line::SheetLine;
use crate::table_record::TableRecord;
use crate::transcript::{expected_line, Said, Situation, Transcript};

pub struct Turn {
    pub before: Situation,
    pub line: Line,
}

pub enum Line {
    /// A component arrives; what is said to it, and the next table.
    Component {
        octets: Vec<u8>,
        said: Said,
        next: Box<TableRecord>,
    },
    /// A call comes; what becomes of it.
    Call { octets: Vec<u8>, answer: CallAnswer },
    /// A night sheet is written, read or listed.
    Sheet(SheetLine),
    /// The end does something.
    End(EndLine),
}

impl Turn {
    /// What is stated to be printed.
    pub fn stated(&self) -> String {
        match &self.line {
            Line::Component { said, next, .. } => expected_line(said, next),
            Line::Call { answer, .. } => answer.line(),
            Line::Sheet(line) => line.printed(),
            Line::End(line) => line.printed(),
        }
    }

    /// What this program prints.
    pub fn answered(&self) -> String {
        match &self.line {
            Line::Component { octets, .. } => {
                let (said, next) = self.before.answered(octets);
                expected_line(&said, &next)
            }
            Line::Call { octets, .. } => self.before.called(octets).line(),
            Line::Sheet(line) => line.answered(&self.before).printed(),
            Line::End(line) => EndLine::of(&self.before, line.act.clone()).printed(),
        }
    }

    /// The lines of the turn, with what is stated.
    pub fn tell(&self, lines: &mut Transcript) {
        lines.bring_about(&self.before);
        match &self.line {
            Line::Component { octets, said, next } => lines.component(octets, said, next),
            Line::Call { octets, answer } => lines.call(octets, answer),
            Line::Sheet(line) => line.tell(lines),
            Line::End(line) => line.tell(lines),
        }
    }
}
