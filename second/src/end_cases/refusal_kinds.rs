//! The refusals that the cases of the end must reach, at every function, and the lowest of several.

use crate::codes::{ACTIVATION, DEACTIVATION, INTERROGATION};

use super::kinds::Function::{Arrived, GiveUp, Send, Shown};
use super::kinds::{Reached, SENDING};

pub const REFUSALS: [(Reached, &str); 37] = [
    (Reached::Refused(Send(ACTIVATION), 1), "send 7 refused 1"),
    (Reached::Refused(Send(ACTIVATION), 3), "send 7 refused 3"),
    (Reached::Refused(Send(ACTIVATION), 4), "send 7 refused 4"),
    (Reached::Refused(Send(ACTIVATION), 7), "send 7 refused 7"),
    (Reached::Refused(Send(ACTIVATION), 8), "send 7 refused 8"),
    (Reached::Refused(Send(ACTIVATION), 10), "send 7 refused 10"),
    (Reached::Refused(Send(DEACTIVATION), 1), "send 8 refused 1"),
    (Reached::Refused(Send(DEACTIVATION), 3), "send 8 refused 3"),
    (Reached::Refused(Send(DEACTIVATION), 4), "send 8 refused 4"),
    (Reached::Refused(Send(DEACTIVATION), 7), "send 8 refused 7"),
    (Reached::Refused(Send(DEACTIVATION), 8), "send 8 refused 8"),
    (
        Reached::Refused(Send(DEACTIVATION), 10),
        "send 8 refused 10",
    ),
    (
        Reached::Refused(Send(INTERROGATION), 1),
        "send 11 refused 1",
    ),
    (
        Reached::Refused(Send(INTERROGATION), 3),
        "send 11 refused 3",
    ),
    (
        Reached::Refused(Send(INTERROGATION), 4),
        "send 11 refused 4",
    ),
    (
        Reached::Refused(Send(INTERROGATION), 7),
        "send 11 refused 7",
    ),
    (
        Reached::Refused(Send(INTERROGATION), 8),
        "send 11 refused 8",
    ),
    (
        Reached::Refused(Send(INTERROGATION), 10),
        "send 11 refused 10",
    ),
    (Reached::Refused(Arrived, 2), "arrived refused 2"),
    (Reached::Refused(Arrived, 3), "arrived refused 3"),
    (Reached::Refused(Arrived, 4), "arrived refused 4"),
    (Reached::Refused(GiveUp, 3), "give-up refused 3"),
    (Reached::Refused(GiveUp, 4), "give-up refused 4"),
    (Reached::Refused(Shown, 3), "shown refused 3"),
    (Reached::Refused(Shown, 4), "shown refused 4"),
    (Reached::Refused(Shown, 10), "shown refused 10"),
    (Reached::Before(SENDING, 1), "send refused 1 before another"),
    (Reached::Before(SENDING, 3), "send refused 3 before another"),
    (Reached::Before(SENDING, 4), "send refused 4 before another"),
    (Reached::Before(SENDING, 7), "send refused 7 before another"),
    (Reached::Before(SENDING, 8), "send refused 8 before another"),
    (Reached::SevenAndEight, "send refused 7 before 8"),
    (
        Reached::Before(Arrived, 2),
        "arrived refused 2 before another",
    ),
    (
        Reached::Before(Arrived, 3),
        "arrived refused 3 before another",
    ),
    (
        Reached::Before(GiveUp, 3),
        "give-up refused 3 before another",
    ),
    (Reached::Before(Shown, 3), "shown refused 3 before another"),
    (Reached::Before(Shown, 4), "shown refused 4 before another"),
];
