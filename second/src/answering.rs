//! Answering lines of the exchange and of the end by this program's own rules, or by those of a
//! wrong exchange or end.

use crate::end_line::{EndAct, EndAnswer, EndLine};
use crate::end_record::EndRecord;
use crate::hexadecimal::{read, read_at_most};
use crate::refusal::Refusal;
use crate::table_record::TableRecord;
use crate::talk::Talk;
use crate::transcript::{expected_line, Outcome, Situation, MOST_OF_A_COMPONENT};
use crate::wrong::{Moment, Wrong};

const MOST_OF_AN_ACCESS: usize = 512;
const MOST_OF_AN_OUTPUT: usize = 2_048;

pub struct Answerer {
    now: Situation,
    wrong: Option<Wrong>,
}

impl Answerer {
    pub fn new(wrong: Option<Wrong>) -> Self {
        Answerer {
            now: Situation::at_the_start(),
            wrong,
        }
    }

    /// What is printed, if anything is; an error for a line that is none of these.
    pub fn answer(&mut self, line: &str) -> Result<Option<String>, String> {
        let (word, rest) = line.split_once(' ').unwrap_or((line, ""));
        let answered = match word {
            "#" => Some(Some(line.to_string())),
            "component" => self.component(rest).map(Some),
            "send" | "arrived" | "give-up" | "shown" => self.end(word, rest).map(Some),
            _ => self.told(word, rest).map(|()| None),
        };
        answered.ok_or_else(|| format!("no line to be answered: {line}"))
    }

    /// A line that prints nothing.
    fn told(&mut self, word: &str, rest: &str) -> Option<()> {
        match word {
            "start" if rest.is_empty() => self.now = Situation::at_the_start(),
            "access" => self.now.access = read_at_most(rest, MOST_OF_AN_ACCESS)?,
            "table" => self.now.table = TableRecord::of_octets(&read(rest)?)?,
            "end" => self.now.end = EndRecord::of_octets(&read(rest)?)?,
            "output" => {
                let output = rest.parse().ok();
                self.now.output = output.filter(|size| *size <= MOST_OF_AN_OUTPUT)?;
            }
            _ => return None,
        }
        Some(())
    }

    fn component(&mut self, rest: &str) -> Option<String> {
        let octets = read_at_most(rest, MOST_OF_A_COMPONENT)?;
        let right = self.now.arrived(&octets);
        let outcome = match self.wrong {
            Some(wrong) => self.wrongly_arrived(wrong, &octets, right),
            None => right,
        };
        let (said, next) = self.now.said(outcome);
        let line = expected_line(&said, &next);
        self.now.table = next;
        Some(line)
    }

    /// The record is the right one as long as it means the same.
    fn wrongly_arrived(&self, wrong: Wrong, octets: &[u8], right: Outcome) -> Outcome {
        let (right, next) = right?;
        let (profile, table) = (self.now.profile()?, self.now.table.read()?);
        let spoiled = wrong.exchange(octets, &profile, &table, right.clone());
        let next = if spoiled.next == right.next {
            next
        } else {
            TableRecord::of(&spoiled.next)
        };
        Ok((spoiled, next))
    }

    fn end(&mut self, word: &str, rest: &str) -> Option<String> {
        let mut line = EndLine::of(&self.now, EndAct::of_words(word, rest)?);
        if let Some(wrong) = self.wrong {
            if let Ok(Some(spoiled)) = self.wrong_end(wrong, &line) {
                *line.next = spoiled;
            }
        }
        self.now.end.clone_from(&line.next);
        Some(line.printed())
    }

    /// `None` where it means the same as the right one.
    fn wrong_end(&self, wrong: Wrong, line: &EndLine) -> Result<Option<EndRecord>, Refusal> {
        let moment = match (&line.act, &line.answer) {
            (_, EndAnswer::Refused(_)) | (EndAct::Shown(_), _) => return Ok(None),
            (EndAct::Send(..) | EndAct::Interrogate(_), _) => Moment::Sent,
            (EndAct::Arrived(octets), _) => Moment::Arrived(octets),
            (EndAct::GiveUp, _) => Moment::GaveUp,
        };
        let (before, right) = (self.now.end.read()?, line.next.read()?);
        let spoiled = wrong.end(&moment, &self.now.profile()?, &before, &right);
        Ok((spoiled != right).then(|| EndRecord::of(&spoiled)))
    }
}

impl Talk for Answerer {
    fn tell(&mut self, line: &str) -> Result<(), String> {
        match self.answer(line)? {
            None => Ok(()),
            Some(said) => Err(format!("it said, unasked: {said}")),
        }
    }

    fn ask(&mut self, line: &str) -> Result<String, String> {
        let said = self.answer(line)?;
        said.ok_or_else(|| format!("no answer to: {line}"))
    }
}
