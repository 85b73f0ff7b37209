//! What the cases of sheets must reach: answers and refusals of each line, sizes of tables, and
//! the ways sheets are made.

use crate::access_record::access_record;
use crate::codes::PROCEDURES;
use crate::refusal::SHEET_OUTPUT;
use crate::sheet::read_form;
use crate::sheet_fields::Field;
use crate::sheet_line::SheetLine;
use crate::table::{count, Table, MOST_INSTANCES};
use crate::table_rubbish::{in_an_instance, past_the_run};
use crate::transcript::Situation;

use super::makings::Making;

#[derive(Clone, Copy, Debug, PartialEq, Eq)]
pub enum Reached {
    Answered(Line),
    Refused(Line, u8),
    /// The size of a table that was written, read or listed.
    Held(Line, Size),
    /// A sheet as long as any.
    LongestWritten,
    Made(Making),
    /// Octets that carry no meaning stood in the access record, past an instance's counts or past
    /// the run's, and the table was written.
    AccessRubbish,
    InstanceRubbish,
    RubbishPastRun,
}

#[derive(Clone, Copy, Debug, PartialEq, Eq)]
pub enum Line {
    Write,
    Read,
    List,
}

#[derive(Clone, Copy, Debug, PartialEq, Eq)]
pub enum Size {
    Empty,
    EightOfAProcedure,
    Full,
}

/// The causes of refusal 9 are counted apart.
pub const KINDS: [(Reached, &str); 44] = [
    (Reached::Answered(Line::Write), "write: wrote"),
    (Reached::Refused(Line::Write, 1), "write: refused 1"),
    (Reached::Refused(Line::Write, 3), "write: refused 3"),
    (Reached::Refused(Line::Write, 4), "write: refused 4"),
    (Reached::Answered(Line::Read), "read: read"),
    (Reached::Refused(Line::Read, 3), "read: refused 3"),
    (Reached::Refused(Line::Read, 9), "read: refused 9"),
    (Reached::Answered(Line::List), "list: listed"),
    (Reached::Refused(Line::List, 1), "list: refused 1"),
    (Reached::Refused(Line::List, 9), "list: refused 9"),
    (
        Reached::Held(Line::Write, Size::Empty),
        "written: no instance",
    ),
    (
        Reached::Held(Line::Write, Size::EightOfAProcedure),
        "written: eight of a procedure",
    ),
    (
        Reached::Held(Line::Write, Size::Full),
        "written: 24 instances",
    ),
    (Reached::Held(Line::Read, Size::Empty), "read: no instance"),
    (
        Reached::Held(Line::Read, Size::EightOfAProcedure),
        "read: eight of a procedure",
    ),
    (Reached::Held(Line::Read, Size::Full), "read: 24 instances"),
    (
        Reached::Held(Line::List, Size::Empty),
        "listed: no instance",
    ),
    (
        Reached::Held(Line::List, Size::EightOfAProcedure),
        "listed: eight of a procedure",
    ),
    (
        Reached::Held(Line::List, Size::Full),
        "listed: 24 instances",
    ),
    (Reached::LongestWritten, "written: sheet of 1,613 octets"),
    (Reached::AccessRubbish, "written: rubbish in the access"),
    (Reached::InstanceRubbish, "written: rubbish in an instance"),
    (
        Reached::RubbishPastRun,
        "written: rubbish past the run's count",
    ),
    (Reached::Made(Making::Good), "made: good sheet"),
    (Reached::Made(Making::Longest), "made: longest sheet"),
    (
        Reached::Made(Making::JustWritten),
        "made: sheet just written",
    ),
    (
        Reached::Made(Making::OtherProfile),
        "made: sheet of another profile",
    ),
    (
        Reached::Made(Making::FormAlone),
        "made: sheet good by form alone",
    ),
    (Reached::Made(Making::Changed(Field::Form)), "changed: form"),
    (Reached::Made(Making::Changed(Field::Last)), "changed: last"),
    (
        Reached::Made(Making::Changed(Field::Count)),
        "changed: count",
    ),
    (
        Reached::Made(Making::Changed(Field::Procedure)),
        "changed: procedure",
    ),
    (
        Reached::Made(Making::Changed(Field::Index)),
        "changed: index",
    ),
    (
        Reached::Made(Making::Changed(Field::Service)),
        "changed: service",
    ),
    (
        Reached::Made(Making::Changed(Field::NumberForm)),
        "changed: form of the number",
    ),
    (Reached::Made(Making::Changed(Field::Type)), "changed: type"),
    (
        Reached::Made(Making::Changed(Field::DigitCount)),
        "changed: digit count",
    ),
    (
        Reached::Made(Making::Changed(Field::Digit)),
        "changed: digit",
    ),
    (
        Reached::Made(Making::Changed(Field::SubaddressLength)),
        "changed: subaddress length",
    ),
    (
        Reached::Made(Making::Changed(Field::Octet)),
        "changed: octet",
    ),
    (Reached::Made(Making::PutIn), "made: an octet put in"),
    (Reached::Made(Making::LeftOut), "made: an octet left out"),
    (Reached::Made(Making::Turned), "made: a bit turned over"),
    (Reached::Made(Making::Octets), "made: any octets"),
];

/// What a line and what came of it show.
pub fn by(now: &Situation, line: &SheetLine) -> Vec<Reached> {
    let (which, good) = match line {
        SheetLine::Write(Ok(sheet)) => (Line::Write, sheet),
        SheetLine::Read(sheet, Ok(_)) => (Line::Read, sheet),
        SheetLine::List(sheet, Ok(_)) => (Line::List, sheet),
        SheetLine::Write(Err(number)) => return vec![Reached::Refused(Line::Write, *number)],
        SheetLine::Read(_, Err(number)) => return vec![Reached::Refused(Line::Read, *number)],
        SheetLine::List(_, Err(number)) => return vec![Reached::Refused(Line::List, *number)],
    };
    let mut reached = vec![Reached::Answered(which)];
    if let Ok(table) = read_form(good) {
        let sizes = sizes(&table).into_iter();
        reached.extend(sizes.map(|size| Reached::Held(which, size)));
    }
    if which == Line::Write {
        reached.extend((good.len() == SHEET_OUTPUT).then_some(Reached::LongestWritten));
        reached.extend(rubbish(now));
    }
    reached
}

fn sizes(table: &Table) -> Vec<Size> {
    let held = &table.instances;
    let full = |procedure: &i32| count(held, *procedure) == MOST_INSTANCES;
    let mut sizes = Vec::new();
    sizes.extend(held.is_empty().then_some(Size::Empty));
    sizes.extend(
        PROCEDURES
            .iter()
            .any(full)
            .then_some(Size::EightOfAProcedure),
    );
    sizes.extend(PROCEDURES.iter().all(full).then_some(Size::Full));
    sizes
}

fn rubbish(now: &Situation) -> Vec<Reached> {
    let mut reached = Vec::new();
    if let Ok(profile) = now.profile() {
        let past_counts = now.access != access_record(&profile);
        reached.extend(past_counts.then_some(Reached::AccessRubbish));
    }
    reached.extend(in_an_instance(&now.table).then_some(Reached::InstanceRubbish));
    reached.extend(past_the_run(&now.table).then_some(Reached::RubbishPastRun));
    reached
}
