//! The samples of document 01 about sheets, and what there is before any line.

use crate::dialogues::script::Dialogue;
use crate::samples::sample_profile;

use super::words::{sample_instance, sheet_dialogue, SAMPLE, SAMPLE_LISTING};

pub fn dialogues() -> Vec<Dialogue> {
    vec![
        // Stands first, so that the lines say nothing of access, table and output.
        sheet_dialogue(
            "at the start: no access record, 707 octets of output",
            &sample_profile(),
        )
        .access(Vec::new())
        .output(707)
        .write_refused(1)
        .read_refused(3, SAMPLE)
        .list_refused(1, SAMPLE),
        sheet_dialogue(
            "sample: the sheet written, read and listed",
            &sample_profile(),
        )
        .turns_over(2, &[sample_instance()], SAMPLE, SAMPLE_LISTING),
        sheet_dialogue(
            "sample: the sheet read over a fresh table, then written",
            &sample_profile(),
        )
        .reads(SAMPLE, 2, &[sample_instance()])
        .writes(SAMPLE),
        sheet_dialogue(
            "sample: 300 in groups is AC 02, 80 00 is refused",
            &sample_profile(),
        )
        .turns_over(300, &[], "01 AC 02 00", "form 1 last 300 count 0\n")
        .refuses("01 80 00 00")
        .writes("01 AC 02 00"),
    ]
}
