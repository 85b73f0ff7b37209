//! Dialogues of the customer end, alone and with the exchange, whose every line is stated by hand from
//! document 01.

mod bad_ends;
mod bad_requests;
mod dead_places;
mod doubt_of_changes;
mod doubt_of_lists;
mod doubt_of_shapes;
mod dropped;
mod good_lists;
mod lowest_first;
mod of_document;
mod paths;
mod paths_of_marks;
mod refusals;
mod relay;
mod three_numbers;
mod words;

use crate::dialogues::Dialogue;

pub fn end_dialogues() -> Vec<Dialogue> {
    [
        of_document::dialogues(),
        doubt_of_shapes::dialogues(),
        doubt_of_lists::dialogues(),
        doubt_of_changes::dialogues(),
        dropped::dialogues(),
        good_lists::dialogues(),
        paths::dialogues(),
        paths_of_marks::dialogues(),
        three_numbers::dialogues(),
        relay::dialogues(),
        refusals::dialogues(),
        lowest_first::dialogues(),
        bad_ends::dialogues(),
        bad_requests::dialogues(),
        dead_places::dialogues(),
    ]
    .into_iter()
    .flatten()
    .collect()
}
