//! What the cases of the end must reach where nothing is refused.

use crate::codes::{
    ACTIVATION, DEACTIVATION, DIVERSION_TO_SERVED_NUMBER, INTERROGATION,
    INVALID_DIVERTED_TO_NUMBER, INVALID_SERVED_NUMBER, NOT_ACTIVATED, NOT_AVAILABLE,
    NOT_SUBSCRIBED, RESOURCE_UNAVAILABLE, SERVICE_NOT_PROVIDED, SPECIAL_SERVICE_NUMBER,
};

use super::kinds::{Dropped, Listed, Reached};

pub const EVENTS: [(Reached, &str); 79] = [
    (Reached::Sent(ACTIVATION, true), "7 sent, known before"),
    (Reached::Sent(ACTIVATION, false), "7 sent, in doubt before"),
    (Reached::Sent(DEACTIVATION, true), "8 sent, known before"),
    (
        Reached::Sent(DEACTIVATION, false),
        "8 sent, in doubt before",
    ),
    (Reached::Sent(INTERROGATION, true), "11 sent, known before"),
    (
        Reached::Sent(INTERROGATION, false),
        "11 sent, in doubt before",
    ),
    (Reached::Identifier(1), "sent with identifier 1"),
    (Reached::Identifier(128), "sent with identifier 128"),
    (Reached::Identifier(32_766), "sent with identifier 32,766"),
    (Reached::Identifier(32_767), "sent with identifier 32,767"),
    (Reached::Dropped(Dropped::Empty), "dropped: no octets"),
    (
        Reached::Dropped(Dropped::BadlyBuilt),
        "dropped: badly built",
    ),
    (Reached::Dropped(Dropped::Invoke), "dropped: an A1"),
    (
        Reached::Dropped(Dropped::OtherTag),
        "dropped: another outer tag",
    ),
    (Reached::Dropped(Dropped::Null), "dropped: identifier NULL"),
    (
        Reached::Dropped(Dropped::Unreadable),
        "dropped: identifier unreadable",
    ),
    (
        Reached::Dropped(Dropped::Earlier),
        "dropped: an earlier identifier",
    ),
    (
        Reached::Dropped(Dropped::Later),
        "dropped: a later identifier",
    ),
    (
        Reached::Dropped(Dropped::NothingOutstanding),
        "dropped: nothing outstanding",
    ),
    (
        Reached::Restored(ACTIVATION, true),
        "error to 7 restored known",
    ),
    (
        Reached::Restored(ACTIVATION, false),
        "error to 7 restored doubt",
    ),
    (
        Reached::Restored(DEACTIVATION, true),
        "error to 8 restored known",
    ),
    (
        Reached::Restored(DEACTIVATION, false),
        "error to 8 restored doubt",
    ),
    (
        Reached::Restored(INTERROGATION, true),
        "error to 11 restored known",
    ),
    (
        Reached::Restored(INTERROGATION, false),
        "error to 11 restored doubt",
    ),
    (
        Reached::Rejected(ACTIVATION, true),
        "reject of 7, known before",
    ),
    (
        Reached::Rejected(ACTIVATION, false),
        "reject of 7, in doubt before",
    ),
    (
        Reached::Rejected(DEACTIVATION, true),
        "reject of 8, known before",
    ),
    (
        Reached::Rejected(DEACTIVATION, false),
        "reject of 8, in doubt before",
    ),
    (
        Reached::Rejected(INTERROGATION, true),
        "reject of 11, known before",
    ),
    (
        Reached::Rejected(INTERROGATION, false),
        "reject of 11, in doubt before",
    ),
    (
        Reached::Applied(ACTIVATION, true),
        "7 applied, known before",
    ),
    (
        Reached::Applied(ACTIVATION, false),
        "7 applied, in doubt before",
    ),
    (
        Reached::Applied(DEACTIVATION, true),
        "8 applied, known before",
    ),
    (
        Reached::Applied(DEACTIVATION, false),
        "8 applied, in doubt before",
    ),
    (
        Reached::NotApplicable(NOT_AVAILABLE),
        "result against the rules: 3",
    ),
    (
        Reached::NotApplicable(NOT_SUBSCRIBED),
        "result against the rules: 0",
    ),
    (
        Reached::NotApplicable(INVALID_SERVED_NUMBER),
        "result against the rules: 6",
    ),
    (
        Reached::NotApplicable(SERVICE_NOT_PROVIDED),
        "result against the rules: 8",
    ),
    (
        Reached::NotApplicable(RESOURCE_UNAVAILABLE),
        "result against the rules: 11, room",
    ),
    (
        Reached::NotApplicable(INVALID_DIVERTED_TO_NUMBER),
        "result against the rules: 12",
    ),
    (
        Reached::NotApplicable(SPECIAL_SERVICE_NUMBER),
        "result against the rules: 14",
    ),
    (
        Reached::NotApplicable(DIVERSION_TO_SERVED_NUMBER),
        "result against the rules: 15",
    ),
    (
        Reached::NotApplicable(NOT_ACTIVATED),
        "result against the rules: 46",
    ),
    (Reached::ListTaken(true), "good list, known before"),
    (Reached::ListTaken(false), "good list, in doubt before"),
    (Reached::List(Listed::Empty), "good list, empty"),
    (Reached::List(Listed::Filled), "good list with entries"),
    (Reached::List(Listed::NotInOrder), "good list not in order"),
    (Reached::List(Listed::Eight), "good list of eight entries"),
    (
        Reached::List(Listed::Prefixed),
        "good list with a prefixed number",
    ),
    (
        Reached::List(Listed::ServedItself),
        "good list with the served number itself",
    ),
    (
        Reached::List(Listed::International),
        "good list with type 1 and 16 to 20 digits",
    ),
    (
        Reached::List(Listed::NotSubscribed),
        "good list, empty, not subscribed",
    ),
    (
        Reached::List(Listed::BesideOthers),
        "good list beside other procedures",
    ),
    (
        Reached::Wrong(ACTIVATION, true),
        "wrong reply to 7, known before",
    ),
    (
        Reached::Wrong(ACTIVATION, false),
        "wrong reply to 7, in doubt before",
    ),
    (
        Reached::Wrong(DEACTIVATION, true),
        "wrong reply to 8, known before",
    ),
    (
        Reached::Wrong(DEACTIVATION, false),
        "wrong reply to 8, in doubt before",
    ),
    (
        Reached::Wrong(INTERROGATION, true),
        "wrong reply to 11, known before",
    ),
    (
        Reached::Wrong(INTERROGATION, false),
        "wrong reply to 11, in doubt before",
    ),
    (
        Reached::GaveUp(ACTIVATION, true),
        "7 given up, known before",
    ),
    (
        Reached::GaveUp(ACTIVATION, false),
        "7 given up, in doubt before",
    ),
    (
        Reached::GaveUp(DEACTIVATION, true),
        "8 given up, known before",
    ),
    (
        Reached::GaveUp(DEACTIVATION, false),
        "8 given up, in doubt before",
    ),
    (
        Reached::GaveUp(INTERROGATION, true),
        "11 given up, known before",
    ),
    (
        Reached::GaveUp(INTERROGATION, false),
        "11 given up, in doubt before",
    ),
    (Reached::NothingToGiveUp, "nothing to give up"),
    (Reached::ShownEmpty, "shown: known, empty"),
    (Reached::ShownFilled, "shown: known with entries"),
    (Reached::ShownEight, "shown: known with eight entries"),
    (Reached::ShownDoubt, "shown: in doubt"),
    (Reached::Output(0), "output of 0 octets"),
    (Reached::Output(706), "output of 706 octets"),
    (Reached::Output(707), "output of 707 octets"),
    (Reached::Output(708), "output of 708 octets"),
    (Reached::Output(1_024), "output of 1,024 octets"),
    (Reached::Output(2_048), "output of 2,048 octets"),
    (Reached::AccessRubbish, "rubbish in the access record"),
];
