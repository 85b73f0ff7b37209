//! Answers to a component: reject, error, result, list. The exchange writes them; the end reads
//! them.

use crate::codes::INTERROGATION;
use crate::elements::{element, enumerated, integer, null, whole, Reader, TAG_SEQUENCE, TAG_SET};
use crate::numbers::{read_address, read_number, write_address, write_number, Address, Number};

pub const TAG_RESULT: u8 = 0xA2;
pub const TAG_ERROR: u8 = 0xA3;
pub const TAG_REJECT: u8 = 0xA4;

const TAG_GENERAL_PROBLEM: u8 = 0x80;
const TAG_INVOKE_PROBLEM: u8 = 0x81;

#[derive(Clone, Copy, Debug, PartialEq, Eq)]
pub enum Problem {
    General(u8),
    Invoke(u8),
}

/// One active instance as an interrogation's list carries it.
#[derive(Clone, Debug, PartialEq, Eq)]
pub struct Entry {
    pub number: Number,
    pub service: i32,
    pub procedure: i32,
    pub address: Address,
}

#[derive(Clone, Debug, PartialEq, Eq)]
pub enum Answer {
    Silence,
    /// Without an identifier a NULL stands in its place.
    Reject {
        identifier: Option<i32>,
        problem: Problem,
    },
    Error {
        identifier: i32,
        code: i32,
    },
    /// The result without contents of an activation or deactivation (A35).
    Result {
        identifier: i32,
    },
    List {
        identifier: i32,
        entries: Vec<Entry>,
    },
}

impl Answer {
    /// Only a result or an error is "handled" and may move the last handled identifier.
    pub fn handled(&self) -> Option<i32> {
        match self {
            Answer::Silence | Answer::Reject { .. } => None,
            Answer::Error { identifier, .. }
            | Answer::Result { identifier }
            | Answer::List { identifier, .. } => Some(*identifier),
        }
    }

    /// The reply octets; silence writes nothing.
    pub fn written(&self) -> Vec<u8> {
        match self {
            Answer::Silence => Vec::new(),
            Answer::Reject {
                identifier,
                problem,
            } => write_reject(*identifier, *problem),
            Answer::Error { identifier, code } => {
                let contents = [integer(*identifier), integer(*code)].concat();
                element(TAG_ERROR, &contents)
            }
            Answer::Result { identifier } => element(TAG_RESULT, &integer(*identifier)),
            Answer::List {
                identifier,
                entries,
            } => write_list(*identifier, entries),
        }
    }
}

fn write_reject(identifier: Option<i32>, problem: Problem) -> Vec<u8> {
    let mut contents = identifier.map_or_else(null, integer);
    contents.extend(match problem {
        Problem::General(code) => element(TAG_GENERAL_PROBLEM, &[code]),
        Problem::Invoke(code) => element(TAG_INVOKE_PROBLEM, &[code]),
    });
    element(TAG_REJECT, &contents)
}

fn write_list(identifier: i32, entries: &[Entry]) -> Vec<u8> {
    let listed: Vec<u8> = entries.iter().flat_map(write_entry).collect();
    let operation_and_list = [integer(INTERROGATION), element(TAG_SET, &listed)].concat();
    let contents = [
        integer(identifier),
        element(TAG_SEQUENCE, &operation_and_list),
    ]
    .concat();
    element(TAG_RESULT, &contents)
}

pub fn write_entry(entry: &Entry) -> Vec<u8> {
    let contents = [
        write_number(&entry.number),
        enumerated(entry.service),
        enumerated(entry.procedure),
        write_address(&entry.address),
    ]
    .concat();
    element(TAG_SEQUENCE, &contents)
}

/// A component that replies to some identifier, as far as that is needed to know to which.
#[derive(Clone, Copy, Debug, PartialEq, Eq)]
pub struct Reply<'a> {
    pub kind: ReplyKind,
    pub identifier: i32,
    /// Everything after the identifier, not yet read.
    pub after: &'a [u8],
}

#[derive(Clone, Copy, Debug, PartialEq, Eq)]
pub enum ReplyKind {
    Result,
    Error,
    Reject,
}

/// `None`: no reply, or not for any identifier (A55).
pub fn read_reply(component: &[u8]) -> Option<Reply<'_>> {
    let outer = whole(component)?;
    let kind = match outer.tag {
        TAG_RESULT => ReplyKind::Result,
        TAG_ERROR => ReplyKind::Error,
        TAG_REJECT => ReplyKind::Reject,
        _ => return None,
    };
    let mut reader = Reader::over(outer.contents);
    let identifier = reader.integer()?;
    Some(Reply {
        kind,
        identifier,
        after: reader.rest(),
    })
}

/// A reply as an exchange may have meant it: the answer whose octets these are. `None` for any
/// other octets, and for a reject that names no identifier.
pub fn read_answer(component: &[u8]) -> Option<Answer> {
    let Reply {
        kind,
        identifier,
        after,
    } = read_reply(component)?;
    let answer = match kind {
        ReplyKind::Result if after.is_empty() => Answer::Result { identifier },
        ReplyKind::Result => Answer::List {
            identifier,
            entries: read_list(after)?,
        },
        ReplyKind::Error => Answer::Error {
            identifier,
            code: read_error(after)?,
        },
        ReplyKind::Reject => Answer::Reject {
            identifier: Some(identifier),
            problem: match after {
                [TAG_GENERAL_PROBLEM, 1, code] => Problem::General(*code),
                [TAG_INVOKE_PROBLEM, 1, code] => Problem::Invoke(*code),
                _ => return None,
            },
        },
    };
    (answer.written() == component).then_some(answer)
}

/// The error's value: exactly one readable one, nothing after (A57).
pub fn read_error(after: &[u8]) -> Option<i32> {
    let mut reader = Reader::over(after);
    let code = reader.integer()?;
    reader.finished().then_some(code)
}

/// The list of an interrogation's result, by shape alone (A59). "allNumbers" in place of an
/// entry's number is never a profile number, so reading only numbers comes to the same.
pub fn read_list(after: &[u8]) -> Option<Vec<Entry>> {
    let mut outer = Reader::over(after);
    let mut inside = Reader::over(outer.tagged(TAG_SEQUENCE)?);
    let operation = inside.integer()?;
    let mut set = Reader::over(inside.tagged(TAG_SET)?);
    if !outer.finished() || !inside.finished() || operation != INTERROGATION {
        return None;
    }
    let mut entries = Vec::new();
    while !set.finished() {
        entries.push(read_entry(set.tagged(TAG_SEQUENCE)?)?);
    }
    Some(entries)
}

fn read_entry(contents: &[u8]) -> Option<Entry> {
    let mut reader = Reader::over(contents);
    let number = read_number(&mut reader)?;
    let service = reader.enumerated()?;
    let procedure = reader.enumerated()?;
    let address = read_address(&mut reader)?;
    reader.finished().then_some(Entry {
        number,
        service,
        procedure,
        address,
    })
}
