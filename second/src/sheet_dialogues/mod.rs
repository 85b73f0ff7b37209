//! Dialogues about night sheets whose sheets, tables and listings are stated by hand from
//! document 01.

mod dead_places;
mod full_table;
mod good_sheets;
mod judged_at_activation;
mod listings;
mod of_document;
mod refused_by_profile;
mod refused_ends;
mod refused_fields;
mod refused_groups;
mod refused_headers;
mod refused_orders;
mod words;
mod writing_refused;

use crate::dialogues::Dialogue;

pub fn sheet_dialogues() -> Vec<Dialogue> {
    [
        of_document::dialogues(),
        good_sheets::dialogues(),
        full_table::dialogues(),
        judged_at_activation::dialogues(),
        dead_places::dialogues(),
        writing_refused::dialogues(),
        refused_headers::dialogues(),
        refused_fields::dialogues(),
        refused_orders::dialogues(),
        refused_groups::dialogues(),
        refused_ends::dialogues(),
        refused_by_profile::dialogues(),
        listings::dialogues(),
    ]
    .into_iter()
    .flatten()
    .collect()
}
