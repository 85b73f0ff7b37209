//! What a line of the end reached, told from the records and the component alone.

use crate::answer::{read_list, read_reply, Entry, TAG_ERROR, TAG_REJECT, TAG_RESULT};
use crate::codes::{GREATEST_IDENTIFIER, INTERNATIONAL};
use crate::elements::{whole, Reader, TAG_NULL};
use crate::end::Event;
use crate::end_line::{EndAct, EndAnswer, EndLine};
use crate::end_record::{EndRecord, MARK_KNOWN};
use crate::numbers::PUBLIC;
use crate::profile::Profile;
use crate::refusal::{Refusal, COMPONENT_OUTPUT, LONGEST_COMPONENT};
use crate::request::TAG_INVOKE;
use crate::request_record::{read_request, PROCEDURE};
use crate::rules::{judge, Outcome};
use crate::table::MOST_INSTANCES;
use crate::table_record::TableRecord;
use crate::transcript::Situation;

use super::kinds::{Dropped, Function, Listed, Reached, SENDING};

pub fn function(act: &EndAct) -> Function {
    match act {
        EndAct::Arrived(_) => Function::Arrived,
        EndAct::GiveUp => Function::GiveUp,
        EndAct::Shown(_) => Function::Shown,
        EndAct::Send(..) | EndAct::Interrogate(_) => {
            Function::Send(act.request().map_or(0, |(operation, _)| operation))
        }
    }
}

/// Every refusal that is due, whatever the others, lowest first; the records were made for this
/// profile, be the access record bad.
pub fn due(now: &Situation, profile: &Profile, act: &EndAct) -> Vec<u8> {
    let end = now.end.read().and_then(|end| end.check(profile));
    let request = act.request();
    let sends = request.is_some();
    let long = matches!(act, EndAct::Arrived(octets) if octets.len() > LONGEST_COMPONENT);
    let no_procedure = matches!(act, EndAct::Shown(3..));
    let bad_request = request.is_some_and(|(operation, record)| {
        !read_request(operation, &record).is_some_and(|request| request.good())
    });
    let used_up = i32::from(now.end.held.last) == GREATEST_IDENTIFIER;
    let rules = [
        (sends && now.output < COMPONENT_OUTPUT, 1),
        (long, 2),
        (now.profile().is_err(), 3),
        (end.is_err(), 4),
        (sends && now.end.outstanding == 1, 7),
        (sends && used_up, 8),
        (bad_request || no_procedure, 10),
    ];
    let broken = rules.iter().filter(|(broken, _)| *broken);
    broken.map(|(_, number)| *number).collect()
}

/// The profile is that of the access record, unless the line is refused.
pub fn by(now: &Situation, profile: &Profile, line: &EndLine) -> Vec<Reached> {
    let end = &now.end;
    let of_request = (i32::from(end.operation), end.before == MARK_KNOWN);
    match (&line.act, &line.answer) {
        (act, EndAnswer::Refused(number)) => refused(act, *number, &due(now, profile, act)),
        (EndAct::Arrived(component), _) => match now.taken(component) {
            Ok((event, _)) => taken(end, profile, component, event, of_request),
            Err(_) => vec![],
        },
        (EndAct::GiveUp, _) if end.outstanding == 1 => {
            vec![Reached::GaveUp(of_request.0, of_request.1)]
        }
        (EndAct::GiveUp, _) => vec![Reached::NothingToGiveUp],
        (EndAct::Shown(_), EndAnswer::Known(entries)) => match entries.len() {
            0 => vec![Reached::ShownEmpty],
            MOST_INSTANCES => vec![Reached::ShownFilled, Reached::ShownEight],
            _ => vec![Reached::ShownFilled],
        },
        (EndAct::Shown(_), _) => vec![Reached::ShownDoubt],
        _ => {
            let next = &line.next;
            let known = next.before == MARK_KNOWN;
            let sent = Reached::Sent(i32::from(next.operation), known);
            vec![sent, Reached::Identifier(next.held.last)]
        }
    }
}

fn refused(act: &EndAct, number: u8, due: &[u8]) -> Vec<Reached> {
    let function = function(act);
    let mut reached = vec![Reached::Refused(function, number)];
    if due.len() > 1 {
        let any = match function {
            Function::Send(_) => SENDING,
            other => other,
        };
        reached.push(Reached::Before(any, number));
    }
    let used_up = Refusal::IdentifiersUsedUp.number();
    let seven_and_eight = number == Refusal::RequestOutstanding.number() && due.contains(&used_up);
    reached.extend(seven_and_eight.then_some(Reached::SevenAndEight));
    reached
}

fn taken(
    end: &EndRecord,
    profile: &Profile,
    component: &[u8],
    event: Event,
    (operation, known): (i32, bool),
) -> Vec<Reached> {
    vec![match event {
        Event::Dropped => Reached::Dropped(dropped(end, component)),
        Event::Applied => Reached::Applied(operation, known),
        Event::Restored => Reached::Restored(operation, known),
        Event::Rejected => Reached::Rejected(operation, known),
        Event::WrongShape => Reached::Wrong(operation, known),
        Event::NotApplicable => return not_applicable(end, profile),
        Event::Listed => {
            let mut reached = vec![Reached::ListTaken(known)];
            let entries = read_reply(component).and_then(|reply| read_list(reply.after));
            let procedure = end.request[PROCEDURE];
            let found = listed(profile, i32::from(procedure), &entries.unwrap_or_default());
            let others = beside_others(&end.held, procedure);
            let found = found.into_iter().chain(others);
            reached.extend(found.map(Reached::List));
            return reached;
        }
    }]
}

/// The error that the rules give on the picture.
fn not_applicable(end: &EndRecord, profile: &Profile) -> Vec<Reached> {
    let read = end.read().ok();
    let outcome = read.and_then(|end| {
        let outstanding = end.outstanding?;
        Some(judge(profile, &end.picture, &outstanding.request))
    });
    match outcome {
        Some(Outcome::Error(code)) => vec![Reached::NotApplicable(code)],
        _ => vec![],
    }
}

fn dropped(end: &EndRecord, component: &[u8]) -> Dropped {
    let used = i32::from(end.held.last);
    let Some(outer) = whole(component) else {
        return if component.is_empty() {
            Dropped::Empty
        } else {
            Dropped::BadlyBuilt
        };
    };
    if outer.tag == TAG_INVOKE {
        return Dropped::Invoke;
    }
    if ![TAG_RESULT, TAG_ERROR, TAG_REJECT].contains(&outer.tag) {
        return Dropped::OtherTag;
    }
    let mut reader = Reader::over(outer.contents);
    let null = reader.next_tag() == Some(TAG_NULL);
    match reader.integer() {
        None if null => Dropped::Null,
        None => Dropped::Unreadable,
        Some(identifier) if identifier < used => Dropped::Earlier,
        Some(identifier) if identifier > used => Dropped::Later,
        Some(_) => Dropped::NothingOutstanding,
    }
}

fn listed(profile: &Profile, procedure: i32, entries: &[Entry]) -> Vec<Listed> {
    let keys = entries
        .iter()
        .map(|entry| (profile.index_of(&entry.number), entry.service));
    let keys: Vec<_> = keys.collect();
    let begins = |entry: &Entry| {
        let mut prefixes = profile.prefixes.iter();
        prefixes.any(|prefix| entry.address.number.digits.starts_with(prefix))
    };
    let international = |entry: &Entry| {
        let number = &entry.address.number;
        number.form == PUBLIC && number.number_type == INTERNATIONAL && number.digits.len() > 15
    };
    let itself = |entry: &Entry| entry.address.number == entry.number;
    let found = [
        (entries.is_empty(), Listed::Empty),
        (!entries.is_empty(), Listed::Filled),
        (!keys.is_sorted(), Listed::NotInOrder),
        (entries.len() == MOST_INSTANCES, Listed::Eight),
        (entries.iter().any(begins), Listed::Prefixed),
        (entries.iter().any(itself), Listed::ServedItself),
        (entries.iter().any(international), Listed::International),
        (!profile.subscribes(procedure), Listed::NotSubscribed),
    ];
    let found = found.into_iter().filter(|(there, _)| *there);
    found.map(|(_, listed)| listed).collect()
}

fn beside_others(held: &TableRecord, procedure: u8) -> Option<Listed> {
    let mut places = held.counted().unwrap_or_default().iter();
    places
        .any(|place| place[0] != procedure)
        .then_some(Listed::BesideOthers)
}
