//! The exchange: each arriving component turns a table into the next table and a reply.

use crate::answer::{Answer, Problem};
use crate::codes::OPERATIONS;
use crate::profile::Profile;
use crate::refusal::{component_fits, output_fits, write_into, Refusal};
use crate::request::{hear, read_argument, Heard, Invoke};
use crate::rules::{judge, Outcome};
use crate::table::Table;

#[derive(Clone, Debug, PartialEq, Eq)]
pub struct Arrived {
    pub next: Table,
    pub answer: Answer,
    /// Procedure, number and service of each instance that an activation made.
    pub made: Vec<(i32, i32, i32)>,
    /// How many octets of the lent output the reply took; 0 for silence.
    pub length: usize,
}

const DUPLICATE: u8 = 0;
const UNKNOWN_OPERATION: u8 = 1;
const MISTYPED_ARGUMENT: u8 = 2;

/// Refusals 1, 2, 3, 4, lowest first, before any row of the reply table (A39).
pub fn arrive(
    output: &mut [u8],
    component: &[u8],
    profile: &Profile,
    table: &Table,
) -> Result<Arrived, Refusal> {
    sizes_fit(output, component)?;
    profile.check()?;
    table.check(profile)?;
    let mut arrived = turn(component, profile, table);
    arrived.length = write_into(output, &arrived.answer.written());
    Ok(arrived)
}

/// Refusals 1 and 2; 707 octets of output are asked for even where the answer is silence (A37).
pub fn sizes_fit(output: &[u8], component: &[u8]) -> Result<(), Refusal> {
    output_fits(output)?;
    component_fits(component)
}

/// The rows of the reply table in their order; nothing is written yet.
fn turn(component: &[u8], profile: &Profile, table: &Table) -> Arrived {
    match hear(component) {
        Heard::Silence => unchanged(table, Answer::Silence),
        Heard::Unreadable {
            identifier,
            problem,
        } => unchanged(
            table,
            Answer::Reject {
                identifier,
                problem,
            },
        ),
        Heard::Invoke(invoke) => match judged(&invoke, profile, table) {
            Err(problem) => unchanged(
                table,
                Answer::Reject {
                    identifier: Some(invoke.identifier),
                    problem: Problem::Invoke(problem),
                },
            ),
            Ok(outcome) => handled(invoke.identifier, outcome, profile, table),
        },
    }
}

fn unchanged(table: &Table, answer: Answer) -> Arrived {
    Arrived {
        next: table.clone(),
        answer,
        made: Vec::new(),
        length: 0,
    }
}

/// Duplicate, then operation, then argument (A28); otherwise what the rules make of it.
fn judged(invoke: &Invoke<'_>, profile: &Profile, table: &Table) -> Result<Outcome, u8> {
    if profile.counted == 1 && invoke.identifier <= table.last {
        return Err(DUPLICATE);
    }
    if !OPERATIONS.contains(&invoke.operation) {
        return Err(UNKNOWN_OPERATION);
    }
    let request = read_argument(invoke.operation, invoke.after).ok_or(MISTYPED_ARGUMENT)?;
    Ok(judge(profile, &table.instances, &request))
}

fn handled(identifier: i32, outcome: Outcome, profile: &Profile, table: &Table) -> Arrived {
    let mut arrived = match outcome {
        Outcome::Error(code) => unchanged(table, Answer::Error { identifier, code }),
        Outcome::List(entries) => unchanged(
            table,
            Answer::List {
                identifier,
                entries,
            },
        ),
        Outcome::Done(change) => Arrived {
            next: Table {
                last: table.last,
                instances: change.instances,
            },
            answer: Answer::Result { identifier },
            made: change.made,
            length: 0,
        },
    };
    // A36: every result and every error moves it, on a counted end alone (A4).
    if profile.counted == 1 {
        arrived.next.last = identifier;
    }
    arrived
}
