//! How often the cases of sheets reached each kind, and each cause of refusal 9.

use std::fmt;

use crate::refusal::Refusal;
use crate::sheet_line::SheetLine;
use crate::tally::{MustReach, Tally};
use crate::transcript::Situation;

use super::faults::{Fault, FAULTS, FAULTS_OF_FORM};
use super::makings::Making;
use super::reached::{self, Reached, KINDS};

#[derive(Clone, Debug, PartialEq, Eq)]
pub struct SheetTally {
    pub reached: Tally<Reached>,
    /// Causes of refusal 9: only of sheets made with one fault is the cause known.
    pub read_causes: Tally<Fault>,
    pub list_causes: Tally<Fault>,
    /// Octets of the longest sheet that was written, read or listed.
    pub longest: usize,
}

impl SheetTally {
    pub fn empty() -> Self {
        SheetTally {
            reached: Tally::of(&KINDS),
            read_causes: Tally::of(&FAULTS),
            list_causes: Tally::of(FAULTS_OF_FORM),
            longest: 0,
        }
    }

    pub fn add(&mut self, now: &Situation, line: &SheetLine) {
        for kind in reached::by(now, line) {
            self.reached.add(kind, 1);
        }
        if let SheetLine::Write(Ok(sheet))
        | SheetLine::Read(sheet, Ok(_))
        | SheetLine::List(sheet, Ok(_)) = line
        {
            self.longest = self.longest.max(sheet.len());
        }
    }

    /// How the sheet of this line was made.
    pub fn add_making(&mut self, making: Making, line: &SheetLine) {
        let Making::Faulty(fault) = making else {
            return self.reached.add(Reached::Made(making), 1);
        };
        let nine = Refusal::NotASheet.number();
        match line {
            SheetLine::Read(_, Err(number)) if *number == nine => self.read_causes.add(fault, 1),
            SheetLine::List(_, Err(number)) if *number == nine => self.list_causes.add(fault, 1),
            _ => {}
        }
    }
}

impl MustReach for SheetTally {
    /// Kinds, then causes.
    fn never_reached(&self) -> Vec<String> {
        let kinds = self.reached.never_reached().into_iter();
        let read = self.read_causes.never_reached().into_iter();
        let read = read.map(|cause| format!("read refused 9: {cause}"));
        let list = self.list_causes.never_reached().into_iter();
        let list = list.map(|cause| format!("list refused 9: {cause}"));
        kinds.chain(read).chain(list).collect()
    }
}

impl fmt::Display for SheetTally {
    fn fmt(&self, text: &mut fmt::Formatter<'_>) -> fmt::Result {
        write!(text, "{}", self.reached)?;
        writeln!(text, "{:>12}  octets of the longest sheet", self.longest)?;
        write!(text, "causes of read: refused 9\n{}", self.read_causes)?;
        write!(text, "causes of list: refused 9\n{}", self.list_causes)
    }
}
