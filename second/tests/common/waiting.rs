//! Ends of the sample access that wait for the reply to identifier 1.

use super::*;
use second::end::{End, Event, IN_DOUBT, KNOWN};

pub const LIST: &str = "A2 22 02 01 01 30 1D 02 01 0B 31 18 30 16 80 05 31 33 35 37 39 \
                    0A 01 01 0A 01 01 30 07 80 05 32 34 36 38 30";
pub const EMPTY_LIST: &str = "A2 0A 02 01 01 30 05 02 01 0B 31 00";

/// Waiting for the reply to identifier 1, an interrogation of cfb, with this mark before.
pub fn interrogating(mark: i32) -> End {
    let mut end = End::fresh();
    end.marks[1] = mark;
    interrogate(&sample_profile(), &mut end, 1);
    assert_eq!(
        end.marks[1], mark,
        "sending an interrogation leaves the mark"
    );
    end
}

/// Waiting for the reply to identifier 1, an activation of cfb to 24680.
pub fn activating(mark: i32) -> End {
    let mut end = End::fresh();
    end.marks[1] = mark;
    activate(
        &sample_profile(),
        &mut end,
        (1, 1),
        "24680",
        Served::AllNumbers,
    );
    assert_eq!(end.marks, [KNOWN, IN_DOUBT, KNOWN]);
    end
}

pub fn deactivating(mark: i32) -> End {
    let mut end = End::fresh();
    end.marks[1] = mark;
    end.picture = vec![instance(1, 0, 1, "24680")];
    deactivate(&sample_profile(), &mut end, (1, 0), Served::AllNumbers);
    assert_eq!(end.marks, [KNOWN, IN_DOUBT, KNOWN]);
    end
}

/// What the reply does to each of the three waiting ends, known before; it always closes.
pub fn taken(mut end: End, reply: &str) -> (Event, i32, Vec<Instance>) {
    let event = comes(&sample_profile(), &mut end, reply);
    assert_eq!(end.outstanding, None, "{reply}");
    assert_eq!(end.last_used, 1);
    assert_eq!((end.marks[0], end.marks[2]), (KNOWN, KNOWN));
    (event, end.marks[1], end.picture)
}
