//! What a line of the end can reach: refusals, what is sent, what replies do, and what is shown.

use super::makings::Making;

#[derive(Clone, Copy, Debug, PartialEq, Eq)]
pub enum Function {
    /// Of this operation.
    Send(i32),
    Arrived,
    GiveUp,
    Shown,
}

/// Why what arrived is dropped.
#[derive(Clone, Copy, Debug, PartialEq, Eq)]
pub enum Dropped {
    Empty,
    BadlyBuilt,
    Invoke,
    OtherTag,
    Null,
    /// An identifier that can't be read.
    Unreadable,
    Earlier,
    Later,
    NothingOutstanding,
}

/// What a good list holds.
#[derive(Clone, Copy, Debug, PartialEq, Eq)]
pub enum Listed {
    Empty,
    Filled,
    NotInOrder,
    Eight,
    Prefixed,
    ServedItself,
    International,
    /// Empty, of a procedure not subscribed.
    NotSubscribed,
    /// Of other procedures, which stay.
    BesideOthers,
}

/// Where an operation is given, the mark from before sending is too: whether it was known.
#[derive(Clone, Copy, Debug, PartialEq, Eq)]
pub enum Reached {
    Refused(Function, u8),
    /// By its number, though a refusal with a higher one was due as well.
    Before(Function, u8),
    SevenAndEight,
    Sent(i32, bool),
    Identifier(u16),
    Dropped(Dropped),
    Restored(i32, bool),
    Rejected(i32, bool),
    Applied(i32, bool),
    /// The error that the rules give on the picture.
    NotApplicable(i32),
    List(Listed),
    ListTaken(bool),
    Wrong(i32, bool),
    GaveUp(i32, bool),
    NothingToGiveUp,
    ShownEmpty,
    ShownFilled,
    ShownEight,
    ShownDoubt,
    Output(usize),
    Made(Making),
    AccessRubbish,
}

/// Sendings of every operation together.
pub const SENDING: Function = Function::Send(0);
