//! Dialogues with the exchange whose replies and tables are stated by hand from document 01.

mod bad_access;
pub(crate) mod bad_runs;
mod bad_tables;
mod dead_places;
mod edges_of_errors;
mod end_script;
mod errors_of_activation;
mod errors_of_all;
mod good_codings;
pub(crate) mod guarded;
mod identifiers;
mod lists;
mod of_document;
mod precedence;
mod refusals;
mod room;
mod rows_of_arguments;
mod rows_of_shape;
mod run_anew;
pub(crate) mod script;
mod selection;
mod turn;
pub(crate) mod words;

use crate::transcript::Transcript;

pub use script::{dialogue, Dialogue};
pub use turn::{Line, Turn};

pub fn dialogues() -> Vec<Dialogue> {
    [
        of_document::dialogues(),
        rows_of_shape::dialogues(),
        rows_of_arguments::dialogues(),
        good_codings::dialogues(),
        precedence::dialogues(),
        errors_of_all::dialogues(),
        errors_of_activation::dialogues(),
        edges_of_errors::dialogues(),
        selection::dialogues(),
        identifiers::dialogues(),
        room::dialogues(),
        lists::dialogues(),
        refusals::dialogues(),
        bad_access::dialogues(),
        bad_tables::dialogues(),
        dead_places::dialogues(),
        bad_runs::dialogues(),
        run_anew::dialogues(),
    ]
    .into_iter()
    .flatten()
    .collect()
}

/// Where this program says otherwise than the hand, or leaves another table.
pub fn disagreements(dialogues: &[Dialogue]) -> Vec<String> {
    let mut found = Vec::new();
    for talk in dialogues {
        for (turn, at) in talk.turns.iter().zip(1..) {
            let (name, stated, answered) = (&talk.name, turn.stated(), turn.answered());
            if stated != answered {
                found.push(format!(
                    "{name}, turn {at}:\nstated   {stated}\nanswered {answered}"
                ));
            }
        }
    }
    found
}

/// The dialogues as lines, with the output stated by hand.
pub fn transcript(dialogues: &[Dialogue]) -> Transcript {
    let mut lines = Transcript::empty();
    for talk in dialogues {
        lines.remark(&talk.name);
        for turn in &talk.turns {
            turn.tell(&mut lines);
        }
    }
    lines
}
