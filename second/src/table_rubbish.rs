//! Octets of a table record that carry no meaning, and are not zeros.

use crate::table_record::{place_of, read_place, Place, TableRecord, BLANK};

/// Past the digits or the subaddress of an instance.
pub fn past_counts(place: &Place) -> bool {
    read_place(place).is_some_and(|instance| place_of(&instance) != *place)
}

pub fn in_an_instance(record: &TableRecord) -> bool {
    record
        .counted()
        .is_some_and(|run| run.iter().any(past_counts))
}

/// Past the count of the run.
pub fn past_the_run(record: &TableRecord) -> bool {
    record.uncounted().iter().any(|place| *place != BLANK)
}
