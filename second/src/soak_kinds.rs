//! Every kind of event that a soak and a meeting with another program count.

use crate::codes::{
    DIVERSION_TO_SERVED_NUMBER, INVALID_DIVERTED_TO_NUMBER, INVALID_SERVED_NUMBER, NOT_ACTIVATED,
    NOT_AVAILABLE, NOT_SUBSCRIBED, RESOURCE_UNAVAILABLE, SERVICE_NOT_PROVIDED,
    SPECIAL_SERVICE_NUMBER,
};
use crate::tally::Kinds;

#[derive(Clone, Copy, Debug, PartialEq, Eq)]
pub enum Kind {
    ActivationSent,
    DeactivationSent,
    InterrogationSent,
    TwoOctetsSent,
    RefusedOutstanding,
    RequestLost,
    RequestRepeated,
    RequestOvertaken,
    RequestDelayed,
    ActivationDone,
    DeactivationDone,
    ListEmpty,
    ListFilled,
    /// An interrogation that the profile does not allow got its error.
    WholeForbidden,
    GivenUpRequestHandled,
    Duplicate,
    Error(i32),
    ReplyLost,
    ReplyRepeated,
    ReplyOvertaken,
    ReplyDelayed,
    /// Nothing was outstanding.
    Dropped,
    /// Another request was outstanding.
    DroppedLate,
    AppliedKnown,
    AppliedInDoubt,
    NotApplicable,
    RestoredKnown,
    RestoredInDoubt,
    RejectedWhileKnown,
    RejectedInDoubt,
    ListedInDoubt,
    ListedWhileKnown,
    GivenUp,
    NothingToGiveUp,
    SheetTurned,
    ShownFilled,
    ShownEmpty,
    ShownInDoubt,
    ShownRefused,
}

/// All of them. Error 11 comes of a full table alone, since the end sends no user-specified
/// subaddress.
const KINDS: [(Kind, &str); 47] = [
    (Kind::SheetTurned, "night sheet written and read back"),
    (Kind::RequestLost, "request lost"),
    (Kind::RequestRepeated, "request repeated"),
    (Kind::RequestOvertaken, "request overtaken by a later one"),
    (Kind::RequestDelayed, "request delayed"),
    (Kind::ReplyLost, "reply lost"),
    (Kind::ReplyRepeated, "reply repeated"),
    (Kind::ReplyOvertaken, "reply overtaken by a later one"),
    (Kind::ReplyDelayed, "reply delayed"),
    (Kind::ActivationSent, "activation sent"),
    (Kind::DeactivationSent, "deactivation sent"),
    (Kind::InterrogationSent, "interrogation sent"),
    (Kind::TwoOctetsSent, "sent with an identifier of two octets"),
    (Kind::RefusedOutstanding, "sending refused, 7"),
    (Kind::ActivationDone, "activation done"),
    (Kind::DeactivationDone, "deactivation done"),
    (Kind::ListEmpty, "list, empty"),
    (Kind::ListFilled, "list with instances"),
    (
        Kind::WholeForbidden,
        "interrogation that the profile forbids, its error",
    ),
    (
        Kind::GivenUpRequestHandled,
        "request handled after it was given up",
    ),
    (Kind::Duplicate, "duplicate rejected"),
    (Kind::Error(NOT_SUBSCRIBED), "error 0"),
    (Kind::Error(NOT_AVAILABLE), "error 3"),
    (Kind::Error(INVALID_SERVED_NUMBER), "error 6"),
    (Kind::Error(SERVICE_NOT_PROVIDED), "error 8"),
    (Kind::Error(RESOURCE_UNAVAILABLE), "error 11"),
    (Kind::Error(INVALID_DIVERTED_TO_NUMBER), "error 12"),
    (Kind::Error(SPECIAL_SERVICE_NUMBER), "error 14"),
    (Kind::Error(DIVERSION_TO_SERVED_NUMBER), "error 15"),
    (Kind::Error(NOT_ACTIVATED), "error 46"),
    (Kind::Dropped, "reply dropped, nothing outstanding"),
    (
        Kind::DroppedLate,
        "late reply dropped, another request outstanding",
    ),
    (Kind::AppliedKnown, "result applied, known"),
    (Kind::AppliedInDoubt, "result applied, in doubt"),
    (Kind::NotApplicable, "result not applicable, doubt"),
    (Kind::RestoredKnown, "error restored known"),
    (Kind::RestoredInDoubt, "error restored doubt"),
    (Kind::RejectedWhileKnown, "reject gave doubt to a known one"),
    (Kind::RejectedInDoubt, "reject left doubt"),
    (Kind::ListedInDoubt, "list made a doubtful one known"),
    (Kind::ListedWhileKnown, "list kept a known one known"),
    (Kind::GivenUp, "given up"),
    (Kind::NothingToGiveUp, "nothing to give up"),
    (Kind::ShownFilled, "shown as known, with instances"),
    (Kind::ShownEmpty, "shown as known, empty"),
    (Kind::ShownInDoubt, "shown as in doubt"),
    (Kind::ShownRefused, "showing refused, 10"),
];

/// Those that the paths alone count.
pub const KINDS_OF_PATHS: Kinds<Kind> = KINDS.split_at(1).1.split_at(8).0;

/// Every kind a soak must reach: nothing is shown in lines.
pub const KINDS_OF_SOAKS: Kinds<Kind> = KINDS.split_at(KINDS.len() - 4).0;

/// Every kind a meeting with another program must reach: no sheets are turned.
pub const KINDS_OF_MEETINGS: Kinds<Kind> = KINDS.split_at(1).1;
