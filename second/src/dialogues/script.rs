//! A dialogue written out by hand, turn by turn: each component with what must be said to it and
//! the table it must leave, each call with what must become of it, each night sheet with what must
//! come of writing, reading or listing it. What the end does has its own words.

use crate::access_record::access_record;
use crate::call_answer::CallAnswer;
use crate::call_record::call_record;
use crate::calls::Call;
use crate::hexadecimal::octets;
use crate::profile::Profile;
use crate::request::Request;
use crate::samples::table;
use crate::sheet_line::SheetLine;
use crate::table::Instance;
use crate::table_record::TableRecord;
use crate::transcript::{Said, Situation};

use super::turn::{Line, Turn};

pub struct Dialogue {
    pub name: String,
    pub turns: Vec<Turn>,
    pub(super) now: Situation,
}

/// Document 01's number of "sheet not a form 1 sheet".
const NOT_A_SHEET: u8 = 9;

/// A fresh table and 707 octets of output.
pub fn dialogue(name: impl Into<String>, profile: &Profile) -> Dialogue {
    let start = Dialogue {
        name: name.into(),
        turns: Vec::new(),
        now: Situation::at_the_start(),
    };
    start.moves_to(profile)
}

/// In whatever order they are stated, the record holds them in its own.
fn stated_table(last: i32, instances: &[Instance]) -> TableRecord {
    TableRecord::of(&table(last, instances))
}

/// What there is from now on.
impl Dialogue {
    /// Another profile, while the table stays.
    pub fn moves_to(self, profile: &Profile) -> Self {
        self.access(access_record(profile))
    }

    pub fn access(mut self, record: Vec<u8>) -> Self {
        self.now.access = record;
        self
    }

    pub fn table(self, last: i32, instances: &[Instance]) -> Self {
        self.record(stated_table(last, instances))
    }

    pub fn record(mut self, record: TableRecord) -> Self {
        self.now.table = record;
        self
    }

    pub fn output(mut self, size: usize) -> Self {
        self.now.output = size;
        self
    }

    pub(super) fn turn(mut self, line: Line) -> Self {
        let before = self.now.clone();
        self.turns.push(Turn { before, line });
        self
    }
}

/// Components.
impl Dialogue {
    /// A component arrives. The table stays, unless a `then_` says what it is afterwards.
    pub fn hears(self, component: Vec<u8>, said: Said) -> Self {
        let next = Box::new(self.now.table.clone());
        self.turn(Line::Component {
            octets: component,
            said,
            next,
        })
    }

    pub fn hears_hex(self, component: &str, said: Said) -> Self {
        self.hears(octets(component), said)
    }

    pub fn hears_each(self, components: Vec<Vec<u8>>, said: &Said) -> Self {
        components
            .into_iter()
            .fold(self, |talk, one| talk.hears(one, said.clone()))
    }

    pub fn asks(self, identifier: i32, request: &Request, said: Said) -> Self {
        self.hears(request.written(identifier), said)
    }

    /// The table the latest component leaves.
    pub fn then_holds(self, last: i32, instances: &[Instance]) -> Self {
        self.then_record(stated_table(last, instances))
    }

    /// The latest component moves the last handled identifier and nothing else.
    pub fn then_last(self, last: u16) -> Self {
        let mut record = self.now.table.clone();
        record.last = last;
        self.then_record(record)
    }

    pub fn then_record(mut self, record: TableRecord) -> Self {
        let latest = self.turns.last_mut().map(|turn| &mut turn.line);
        if let Some(Line::Component { next, .. }) = latest {
            **next = record.clone();
        }
        self.record(record)
    }
}

/// Calls; the table stays.
impl Dialogue {
    pub fn calls(self, call: &Call, answer: CallAnswer) -> Self {
        self.calls_octets(call_record(call), answer)
    }

    /// A call record of any size comes.
    pub fn calls_octets(self, octets: Vec<u8>, answer: CallAnswer) -> Self {
        self.turn(Line::Call { octets, answer })
    }
}

/// Night sheets, as hexadecimal text.
impl Dialogue {
    fn sheet(self, line: SheetLine) -> Self {
        self.turn(Line::Sheet(line))
    }

    pub fn writes(self, sheet: &str) -> Self {
        self.sheet(SheetLine::Write(Ok(octets(sheet))))
    }

    pub fn write_refused(self, number: u8) -> Self {
        self.sheet(SheetLine::Write(Err(number)))
    }

    /// The sheet gives this table, which is the one there is from now on.
    pub fn reads(self, sheet: &str, last: i32, instances: &[Instance]) -> Self {
        let read = stated_table(last, instances);
        let line = SheetLine::Read(octets(sheet), Ok(Box::new(read.clone())));
        self.sheet(line).record(read)
    }

    /// The table there is stays.
    pub fn read_refused(self, number: u8, sheet: &str) -> Self {
        self.sheet(SheetLine::Read(octets(sheet), Err(number)))
    }

    pub fn lists(self, sheet: &str, listing: &str) -> Self {
        self.sheet(SheetLine::List(octets(sheet), Ok(listing.to_string())))
    }

    pub fn list_refused(self, number: u8, sheet: &str) -> Self {
        self.sheet(SheetLine::List(octets(sheet), Err(number)))
    }

    /// Read or listed, it is no sheet.
    pub fn refuses(self, sheet: &str) -> Self {
        self.read_refused(NOT_A_SHEET, sheet)
            .list_refused(NOT_A_SHEET, sheet)
    }

    /// Written from this table, read back, listed.
    pub fn turns_over(self, last: i32, instances: &[Instance], sheet: &str, listing: &str) -> Self {
        self.table(last, instances)
            .writes(sheet)
            .reads(sheet, last, instances)
            .lists(sheet, listing)
    }
}
