//! Octets of a table or access record that carry no meaning (A72): a sheet doesn't hold them, and
//! the table it gives has zeros there.

use crate::dialogues::script::Dialogue;
use crate::dialogues::words::{clean, scribbled, scribbled_access, RUBBISH};
use crate::table_record::TableRecord;

use super::words::{access, sample_instance, sheet_dialogue, SAMPLE};

pub fn dialogues() -> Vec<Dialogue> {
    vec![
        sheet_dialogue("dead places of the table are not written", &access())
            .record(scribbled_table())
            .writes(SAMPLE)
            .reads(SAMPLE, 2, &[sample_instance()])
            .writes(SAMPLE),
        sheet_dialogue("dead places of the access record are not judged", &access())
            .access(scribbled_access(&access()))
            .reads(SAMPLE, 2, &[sample_instance()])
            .writes(SAMPLE),
    ]
}

/// The sample's instance with rubbish past both counts, and rubbish past the run's: one place of it
/// would be an instance.
fn scribbled_table() -> TableRecord {
    let mut table = TableRecord::holding(2, &[scribbled(1, 0, 1)]);
    table.places[1] = RUBBISH;
    table.places[2] = clean(1, 0, 2);
    table.places[23] = RUBBISH;
    table
}
