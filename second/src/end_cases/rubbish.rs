//! What became of octets that carry no meaning, and are not zeros: in the request, in the fields of
//! a request that is not outstanding, in the picture's instances and past its count.

use crate::access_record::{access_record, read_access};
use crate::codes::{ACTIVATION, DEACTIVATION};
use crate::end::Event;
use crate::end_line::{EndAct, EndAnswer, EndLine};
use crate::end_record::EndRecord;
use crate::end_step::EntryRecord;
use crate::records::{read_address_record, write_address_record, ADDRESS_OCTETS};
use crate::request_record::{
    has_rubbish, RequestRecord, PROCEDURE, REQUEST_OCTETS, TO, USER_SPECIFIED,
};
use crate::table_record::{key_at, TableRecord};
use crate::table_rubbish::{in_an_instance, past_counts, past_the_run};
use crate::transcript::Situation;

#[derive(Clone, Copy, Debug, PartialEq, Eq)]
pub enum Rubbish {
    /// In a request of this operation that is sent.
    Sent(i32),
    /// In the fields that a sending writes over.
    SentOver,
    /// In a request that is closed.
    Closed,
    /// In the fields of no request, which stay.
    FieldsKept,
    /// In an outstanding request, which stays.
    RequestKept,
    /// In the address of a request that is applied.
    Applied,
    /// The picture is written anew by a request or a list: an instance stays, one is made anew,
    /// and what stood past the count is gone.
    StaysBeside(Anew),
    Replaced(Anew),
    Cleared(Anew),
    /// Of a picture that stays.
    PictureKept,
    PictureKeptPastCount,
    /// In an entry that is shown.
    ShownNumber,
    ShownAddress,
}

#[derive(Clone, Copy, Debug, PartialEq, Eq)]
pub enum Anew {
    ByRequest,
    ByList,
}

pub const RUBBISH: [(Rubbish, &str); 17] = [
    (Rubbish::Sent(ACTIVATION), "rubbish in a request sent: 7"),
    (Rubbish::Sent(DEACTIVATION), "rubbish in a request sent: 8"),
    (Rubbish::SentOver, "rubbish in the fields sent over"),
    (Rubbish::Closed, "rubbish in a request closed"),
    (
        Rubbish::FieldsKept,
        "rubbish in the fields of no request, kept",
    ),
    (
        Rubbish::RequestKept,
        "rubbish in an outstanding request, kept",
    ),
    (Rubbish::Applied, "rubbish in an address applied"),
    (
        Rubbish::StaysBeside(Anew::ByRequest),
        "picture anew by a request: rubbish stays",
    ),
    (
        Rubbish::StaysBeside(Anew::ByList),
        "picture anew by a list: rubbish stays",
    ),
    (
        Rubbish::Replaced(Anew::ByRequest),
        "picture anew by a request: rubbish replaced",
    ),
    (
        Rubbish::Replaced(Anew::ByList),
        "picture anew by a list: rubbish replaced",
    ),
    (
        Rubbish::Cleared(Anew::ByRequest),
        "picture anew by a request: rubbish past the count cleared",
    ),
    (
        Rubbish::Cleared(Anew::ByList),
        "picture anew by a list: rubbish past the count cleared",
    ),
    (Rubbish::PictureKept, "picture kept: rubbish in an instance"),
    (
        Rubbish::PictureKeptPastCount,
        "picture kept: rubbish past the count",
    ),
    (
        Rubbish::ShownNumber,
        "shown: rubbish in the access record's number",
    ),
    (
        Rubbish::ShownAddress,
        "shown: rubbish in the picture's address",
    ),
];

/// Of a line that is not refused.
pub fn by(now: &Situation, line: &EndLine) -> Vec<Rubbish> {
    let found = match (&line.act, &line.answer) {
        (_, EndAnswer::Known(entries)) => shown(now, entries),
        (EndAct::Arrived(component), _) => match now.taken(component) {
            Ok((event, next)) => taken(&now.end, event, &next),
            Err(_) => vec![],
        },
        (act, EndAnswer::Sent(_)) => {
            let (operation, record) = act.request().unwrap_or((0, [0; REQUEST_OCTETS]));
            vec![
                (has_rubbish(operation, &record), Rubbish::Sent(operation)),
                (fields(&now.end), Rubbish::SentOver),
                (in_an_instance(&now.end.held), Rubbish::PictureKept),
            ]
        }
        (EndAct::GiveUp, _) => kept_or_closed(&now.end),
        _ => vec![],
    };
    let there = found.into_iter().filter(|(there, _)| *there);
    there.map(|(_, rubbish)| rubbish).collect()
}

/// In the three fields of a request that is not outstanding.
fn fields(end: &EndRecord) -> bool {
    end.outstanding == 0 && (end.operation, end.before, end.request) != (0, 0, [0; REQUEST_OCTETS])
}

fn in_the_request(end: &EndRecord) -> bool {
    end.outstanding == 1 && has_rubbish(i32::from(end.operation), &end.request)
}

fn kept_or_closed(end: &EndRecord) -> Vec<(bool, Rubbish)> {
    vec![
        (fields(end), Rubbish::FieldsKept),
        (in_the_request(end), Rubbish::Closed),
        (in_an_instance(&end.held), Rubbish::PictureKept),
        (past_the_run(&end.held), Rubbish::PictureKeptPastCount),
    ]
}

fn taken(end: &EndRecord, event: Event, next: &EndRecord) -> Vec<(bool, Rubbish)> {
    let anew = match event {
        Event::Dropped => {
            return vec![
                (fields(end), Rubbish::FieldsKept),
                (in_the_request(end), Rubbish::RequestKept),
            ]
        }
        Event::Applied => Anew::ByRequest,
        Event::Listed => Anew::ByList,
        _ => return kept_or_closed(end),
    };
    let activated = i32::from(end.operation) == ACTIVATION;
    let (before, after) = (&end.held, &next.held);
    vec![
        (in_the_request(end), Rubbish::Closed),
        (activated && in_the_address(&end.request), Rubbish::Applied),
        (stays(before, after), Rubbish::StaysBeside(anew)),
        (
            replaced(before, after, end.request[PROCEDURE]),
            Rubbish::Replaced(anew),
        ),
        (past_the_run(before), Rubbish::Cleared(anew)),
    ]
}

fn in_the_address(request: &RequestRecord) -> bool {
    let record = &request[TO..USER_SPECIFIED];
    let mut clean = [0; ADDRESS_OCTETS];
    read_address_record(record).is_some_and(|address| {
        write_address_record(&mut clean, &address);
        clean != *record
    })
}

fn stays(before: &TableRecord, after: &TableRecord) -> bool {
    let kept = after.counted().unwrap_or_default().iter();
    kept.filter(|place| past_counts(place))
        .any(|place| before.held(key_at(place)) == Some(place))
}

/// An instance of the request's procedure that had rubbish, and has other octets now.
fn replaced(before: &TableRecord, after: &TableRecord, procedure: u8) -> bool {
    let former = before.counted().unwrap_or_default().iter();
    former
        .filter(|place| place[0] == procedure && past_counts(place))
        .any(|place| after.held(key_at(place)).is_some_and(|now| now != place))
}

/// Against the number and address of the records without rubbish.
fn shown(now: &Situation, entries: &[EntryRecord]) -> Vec<(bool, Rubbish)> {
    let mut clean = now.clone();
    if let Ok(profile) = read_access(&now.access) {
        clean.access = access_record(&profile);
    }
    let differs = |situation: &Situation, procedure| {
        situation.shown(procedure).ok().flatten().as_deref() != Some(entries)
    };
    let Some(first) = entries.first() else {
        return vec![];
    };
    let procedure = first[24];
    let mut places = now.end.held.counted().unwrap_or_default().iter();
    vec![
        (differs(&clean, procedure), Rubbish::ShownNumber),
        (
            places.any(|place| place[0] == procedure && past_counts(place)),
            Rubbish::ShownAddress,
        ),
    ]
}
