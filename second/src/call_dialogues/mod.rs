//! Dialogues of calls whose answers are stated by hand from document 01, "Calls".

mod addresses;
mod bad_calls;
mod dead_places;
mod events;
mod limits;
mod not_diverted;
mod of_document;
mod options;
mod originals;
mod preferences;
mod refusals;
mod words;

use crate::dialogues::Dialogue;

pub fn call_dialogues() -> Vec<Dialogue> {
    [
        of_document::dialogues(),
        events::dialogues(),
        not_diverted::dialogues(),
        originals::dialogues(),
        preferences::dialogues(),
        options::dialogues(),
        limits::dialogues(),
        addresses::dialogues(),
        bad_calls::dialogues(),
        refusals::dialogues(),
        dead_places::dialogues(),
    ]
    .into_iter()
    .flatten()
    .collect()
}
