//! What this program's end does against the access record, the output and the end there are: the
//! octets of the next end besides what is sent or shown.

use crate::access_record::number_octets;
use crate::codes::ALL_SERVICES;
use crate::end::{self, End, Event, Outstanding};
use crate::end_record::{mark_octet, EndRecord};
use crate::profile::Profile;
use crate::records::{octet, ADDRESS_OCTETS, NUMBER_OCTETS};
use crate::refusal::{component_fits, output_fits, Refusal};
use crate::request::{Request, Served};
use crate::request_record::{read_request, RequestRecord, TO, USER_SPECIFIED};
use crate::rules::{judge, Outcome};
use crate::table::{of_procedure, Instance};
use crate::table_record::{place_of, Place, TableRecord, ADDRESS, NUMBER, PROCEDURE, SERVICE};
use crate::transcript::Situation;

/// A served number, a service, a procedure and an address.
pub const ENTRY_OCTETS: usize = NUMBER_OCTETS + 2 + ADDRESS_OCTETS;
pub type EntryRecord = [u8; ENTRY_OCTETS];

impl Situation {
    /// Refusals lowest number first: a record is read only after what comes before it is judged.
    /// The component, and the next end.
    pub fn sent(
        &self,
        operation: i32,
        record: &RequestRecord,
    ) -> Result<(Vec<u8>, EndRecord), Refusal> {
        let mut output = vec![0; self.output];
        output_fits(&output)?;
        let profile = self.profile()?;
        let mut end = self.end.read()?;
        let request = read_request(operation, record).unwrap_or_else(not_to_be_sent);
        let length = end::send(&mut output, &profile, &mut end, request)?;
        output.truncate(length);
        Ok((output, self.end.awaiting(&end, operation, record)))
    }

    /// What arrived did, and the next end.
    pub fn taken(&self, component: &[u8]) -> Result<(Event, EndRecord), Refusal> {
        component_fits(component)?;
        let profile = self.profile()?;
        let before = self.end.read()?;
        let mut after = before.clone();
        let event = end::arrived(component, &profile, &mut after)?;
        let next = match (event, &before.outstanding) {
            (Event::Dropped, _) | (_, None) => self.end.clone(),
            (_, Some(closed)) => {
                let held = self
                    .end
                    .held_after(event, &profile, closed, [&before, &after]);
                EndRecord::closed(held, after.marks)
            }
        };
        Ok((event, next))
    }

    /// Whether there was something to give up, and the next end.
    pub fn gave_up(&self) -> Result<(bool, EndRecord), Refusal> {
        let profile = self.profile()?;
        let mut end = self.end.read()?;
        let given_up = end::give_up(&profile, &mut end)?;
        let next = if given_up {
            EndRecord::closed(self.end.held.clone(), end.marks)
        } else {
            self.end.clone()
        };
        Ok((given_up, next))
    }

    /// A known procedure's entries; `None` in doubt.
    pub fn shown(&self, procedure: u8) -> Result<Option<Vec<EntryRecord>>, Refusal> {
        let profile = self.profile()?;
        let end = self.end.read()?;
        let shown = end::shown(&profile, &end, i32::from(procedure))?;
        Ok(shown.map(|instances| {
            let keys = instances.iter().map(Instance::key);
            let places = keys.filter_map(|key| self.end.held.held(key));
            places.filter_map(|place| self.entry(place)).collect()
        }))
    }

    /// The number as it stands in the access record and the address as it stands in the picture,
    /// places past their counts too.
    fn entry(&self, place: &Place) -> Option<EntryRecord> {
        let number = number_octets(&self.access, i32::from(place[NUMBER]))?;
        let codes = [place[SERVICE], place[PROCEDURE]];
        [number, &codes, &place[ADDRESS..]].concat().try_into().ok()
    }
}

/// In place of a record that holds no request.
fn not_to_be_sent() -> Request {
    Request::Deactivation {
        procedure: -1,
        service: ALL_SERVICES,
        served: Served::AllNumbers,
    }
}

impl EndRecord {
    /// After sending: the request stands octet for octet as it was given.
    fn awaiting(&self, end: &End, operation: i32, record: &RequestRecord) -> EndRecord {
        let before = end.outstanding.as_ref().map(|sent| sent.mark_before);
        EndRecord {
            held: TableRecord {
                last: end.last_used as u16,
                ..self.held.clone()
            },
            outstanding: 1,
            operation: octet(operation),
            before: before.map_or(0, mark_octet),
            request: *record,
            marks: end.marks.map(mark_octet),
        }
    }

    /// An applied result and a good list write the picture anew; any other reply leaves it.
    fn held_after(
        &self,
        event: Event,
        profile: &Profile,
        closed: &Outstanding,
        [before, after]: [&End; 2],
    ) -> TableRecord {
        let (last, next) = (self.held.last, &after.picture);
        match event {
            Event::Applied => {
                let made = match judge(profile, &before.picture, &closed.request) {
                    Outcome::Done(change) => change.made,
                    Outcome::Error(_) | Outcome::List(_) => Vec::new(),
                };
                self.held.anew(last, next, &made, |made| self.applied(made))
            }
            Event::Listed => {
                let listed = of_procedure(next, closed.request.procedure());
                let listed: Vec<_> = listed.map(Instance::key).collect();
                self.held.anew(last, next, &listed, place_of)
            }
            _ => self.held.clone(),
        }
    }

    /// The request's address octet for octet.
    fn applied(&self, made: &Instance) -> Place {
        let mut place = place_of(made);
        place[ADDRESS..].copy_from_slice(&self.request[TO..USER_SPECIFIED]);
        place
    }
}
