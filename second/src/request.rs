//! Requests: hearing a component row by row, reading the arguments of clause 7.1, and writing
//! what the end sends.

use crate::answer::{Problem, TAG_ERROR, TAG_REJECT, TAG_RESULT};
use crate::codes::{
    is_procedure, is_service_or_all, ACTIVATION, ALL_SERVICES, DEACTIVATION, INTERROGATION,
};
use crate::elements::{
    element, enumerated, integer, null, skip_private, whole, Reader, TAG_ENUMERATED, TAG_NULL,
    TAG_SEQUENCE,
};
use crate::numbers::{read_address, read_number, write_address, write_number, Address, Number};

pub const TAG_INVOKE: u8 = 0xA1;

/// Which served number a request names.
#[derive(Clone, Debug, PartialEq, Eq)]
pub enum Served {
    AllNumbers,
    Individual(Number),
}

#[derive(Clone, Debug, PartialEq, Eq)]
pub enum Request {
    Activation {
        procedure: i32,
        service: i32,
        address: Address,
        served: Served,
    },
    Deactivation {
        procedure: i32,
        service: i32,
        served: Served,
    },
    Interrogation {
        procedure: i32,
        service: i32,
        served: Served,
    },
}

/// What the first five rows of the reply table make of a component.
#[derive(Clone, Debug, PartialEq, Eq)]
pub enum Heard<'a> {
    Silence,
    Unreadable {
        identifier: Option<i32>,
        problem: Problem,
    },
    Invoke(Invoke<'a>),
}

#[derive(Clone, Debug, PartialEq, Eq)]
pub struct Invoke<'a> {
    pub identifier: i32,
    pub operation: i32,
    /// Everything after the operation: the argument, if it is one.
    pub after: &'a [u8],
}

pub fn hear(component: &[u8]) -> Heard<'_> {
    // A9, A11: whatever is no whole element is general problem 2, before its tag is asked.
    let Some(outer) = whole(component) else {
        return unreadable(None, 2);
    };
    match outer.tag {
        TAG_RESULT | TAG_ERROR | TAG_REJECT => Heard::Silence,
        TAG_INVOKE => hear_invoke(outer.contents),
        _ => unreadable(None, 0),
    }
}

fn hear_invoke(contents: &[u8]) -> Heard<'_> {
    let mut reader = Reader::over(contents);
    let Some(identifier) = reader.integer() else {
        return unreadable(None, 1);
    };
    // A13, A14: a linked identifier or an object identifier here is an unreadable operation.
    let Some(operation) = reader.integer() else {
        return unreadable(Some(identifier), 1);
    };
    Heard::Invoke(Invoke {
        identifier,
        operation,
        after: reader.rest(),
    })
}

fn unreadable(identifier: Option<i32>, general: u8) -> Heard<'static> {
    Heard::Unreadable {
        identifier,
        problem: Problem::General(general),
    }
}

/// The argument: one last element (A15), built as in clause 7.1. `None` for another operation
/// or another shape.
pub fn read_argument(operation: i32, after: &[u8]) -> Option<Request> {
    let argument = whole(after)?;
    if argument.tag != TAG_SEQUENCE {
        return None;
    }
    let mut reader = Reader::over(argument.contents);
    let procedure = read_procedure(&mut reader)?;
    let request = match operation {
        ACTIVATION => Request::Activation {
            procedure,
            service: read_service(&mut reader)?,
            address: read_address(&mut reader)?,
            served: read_served(&mut reader)?,
        },
        DEACTIVATION => Request::Deactivation {
            procedure,
            service: read_service(&mut reader)?,
            served: read_served(&mut reader)?,
        },
        INTERROGATION => Request::Interrogation {
            procedure,
            service: read_service_or_none(&mut reader)?,
            served: read_served(&mut reader)?,
        },
        _ => return None,
    };
    skip_private(&mut reader)?;
    Some(request)
}

/// A23: an unlisted code is no value of the type.
fn read_procedure(reader: &mut Reader<'_>) -> Option<i32> {
    reader.enumerated().filter(|code| is_procedure(*code))
}

fn read_service(reader: &mut Reader<'_>) -> Option<i32> {
    reader.enumerated().filter(|code| is_service_or_all(*code))
}

/// A25: the next tag tells whether an interrogation's service is given.
fn read_service_or_none(reader: &mut Reader<'_>) -> Option<i32> {
    if reader.next_tag() == Some(TAG_ENUMERATED) {
        read_service(reader)
    } else {
        Some(ALL_SERVICES)
    }
}

fn read_served(reader: &mut Reader<'_>) -> Option<Served> {
    if reader.next_tag() == Some(TAG_NULL) {
        reader.null()?;
        Some(Served::AllNumbers)
    } else {
        read_number(reader).map(Served::Individual)
    }
}

impl Request {
    pub fn operation(&self) -> i32 {
        match self {
            Request::Activation { .. } => ACTIVATION,
            Request::Deactivation { .. } => DEACTIVATION,
            Request::Interrogation { .. } => INTERROGATION,
        }
    }

    pub fn procedure(&self) -> i32 {
        match self {
            Request::Activation { procedure, .. }
            | Request::Deactivation { procedure, .. }
            | Request::Interrogation { procedure, .. } => *procedure,
        }
    }

    pub fn service(&self) -> i32 {
        match self {
            Request::Activation { service, .. }
            | Request::Deactivation { service, .. }
            | Request::Interrogation { service, .. } => *service,
        }
    }

    pub fn served(&self) -> &Served {
        match self {
            Request::Activation { served, .. }
            | Request::Deactivation { served, .. }
            | Request::Interrogation { served, .. } => served,
        }
    }

    /// What the end may send (refusal 10): codes of the tables, and numbers and subaddresses of
    /// the kinds, types and sizes a table holds, the served number too (A43).
    pub fn good(&self) -> bool {
        let served_good = match self.served() {
            Served::AllNumbers => true,
            Served::Individual(number) => number.good(),
        };
        let address_good = match self {
            Request::Activation { address, .. } => address.good(),
            Request::Deactivation { .. } | Request::Interrogation { .. } => true,
        };
        is_procedure(self.procedure())
            && is_service_or_all(self.service())
            && served_good
            && address_good
    }

    /// The invoke component; the service is always written, lengths are shortest.
    pub fn written(&self, identifier: i32) -> Vec<u8> {
        self.written_with(identifier, &[])
    }

    /// The same with these octets after the last known element of the argument.
    pub fn written_with(&self, identifier: i32, after: &[u8]) -> Vec<u8> {
        let mut argument = enumerated(self.procedure());
        argument.extend(enumerated(self.service()));
        if let Request::Activation { address, .. } = self {
            argument.extend(write_address(address));
        }
        argument.extend(match self.served() {
            Served::AllNumbers => null(),
            Served::Individual(number) => write_number(number),
        });
        argument.extend_from_slice(after);
        let contents = [
            integer(identifier),
            integer(self.operation()),
            element(TAG_SEQUENCE, &argument),
        ]
        .concat();
        element(TAG_INVOKE, &contents)
    }
}
