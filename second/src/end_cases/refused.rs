//! Episodes of refusals: one or more at once, ends with a flaw, and requests with one.

use crate::cases::Cases;
use crate::codes::{ACTIVATION, DEACTIVATION, INTERROGATION};
use crate::end_line::EndAct;
use crate::end_record::EndRecord;
use crate::made;
use crate::profile::Profile;
use crate::records_at_random::bad_access;
use crate::table::Table;

use super::end_flaws::{self, EndFlaw, END_FLAWS};
use super::end_tally::{EndTally, Origin};
use super::ends_at_random;
use super::makings;
use super::request_flaws::{self, RequestFlaw, REQUEST_FLAWS};

impl Cases<EndTally> {
    /// One or more refusals at once: 1 is an output that is too short, 2 a bad access record, 4 a
    /// bad end, 8 the last identifier used, 16 a request that may not be sent.
    pub(super) fn refused_episode(&mut self) {
        let profile = made::profile(&mut self.random);
        let mut situation = self.good_situation(&profile);
        let faults: u8 = self
            .random
            .one_of(&[1, 2, 4, 8, 3, 5, 6, 7, 10, 24, 26, 31]);
        if faults & 1 != 0 {
            situation.output = self.random.one_of(&[0, 1, 706, 706]);
        }
        if faults & 2 != 0 {
            situation.access = bad_access(&mut self.random, &profile);
        }
        let mut flaw = None;
        if faults & 4 != 0 {
            flaw = self.spoil_end(&profile, &mut situation.end);
        }
        if faults & 8 != 0 {
            situation.end.held.last = 32_767;
        }
        self.lines.bring_about(&situation);
        let unsendable = faults & 16 != 0;
        for _ in 0..7 {
            self.refused_line(&profile, flaw, unsendable);
        }
    }

    /// Each function, a sending most often.
    fn refused_line(&mut self, profile: &Profile, end: Option<EndFlaw>, unsendable: bool) {
        let (mut request, mut making) = (None, None);
        let act = match self.random.below(8) {
            0 => {
                let end = &self.lines.now().end;
                let (made, octets) = makings::any(&mut self.random, profile, end);
                making = Some(made);
                EndAct::Arrived(octets)
            }
            1 => EndAct::Arrived(vec![0xA4; self.random.one_of(&[1_024, 1_025, 1_100])]),
            2 => EndAct::GiveUp,
            3 => EndAct::Shown(self.random.one_of(&[0, 1, 2, 3, 255])),
            _ if unsendable => {
                let (flaw, act) = self.unsendable(profile);
                request = Some(flaw);
                act
            }
            _ => self.sending(profile),
        };
        let origin = Origin {
            making,
            request,
            end,
        };
        self.case(profile, act, origin);
    }

    /// A flaw of its own, or one of a table in the picture and the identifier, which is then known
    /// as that of the table thrown last.
    fn spoil_end(&mut self, profile: &Profile, end: &mut EndRecord) -> Option<EndFlaw> {
        if !self.random.once_in(3) {
            let held = end.held.read().unwrap_or_else(|_| Table::fresh());
            end.held = self.thrown_table(profile, &held);
            if end.held.last == 0 {
                end.held.last = 1;
            }
            return None;
        }
        let (flaw, _) = self.random.one_of(&END_FLAWS);
        while !end_flaws::spoil(&mut self.random, end, flaw) {
            let operation = ends_at_random::operation(&mut self.random);
            *end = ends_at_random::waiting(&mut self.random, profile, operation);
        }
        Some(flaw)
    }

    /// Ends with a flaw one after the other, each with a line.
    pub(super) fn flawed_episode(&mut self) {
        let profile = made::profile(&mut self.random);
        for _ in 0..12 {
            let mut situation = self.good_situation(&profile);
            let flaw = self.spoil_end(&profile, &mut situation.end);
            self.lines.bring_about(&situation);
            self.refused_line(&profile, flaw, false);
        }
    }

    fn unsendable(&mut self, profile: &Profile) -> (RequestFlaw, EndAct) {
        let mut flaw = RequestFlaw::Procedure;
        let operation = self.random.one_of(&[
            ACTIVATION,
            ACTIVATION,
            ACTIVATION,
            DEACTIVATION,
            INTERROGATION,
        ]);
        if operation == INTERROGATION {
            let procedure = self.random.one_of(&[3, 4, 127, 128, 255]);
            return (flaw, EndAct::Interrogate(procedure));
        }
        let mut record = ends_at_random::request(&mut self.random, profile, operation);
        let flaws = REQUEST_FLAWS.iter().map(|(flaw, _)| *flaw);
        let flaws = flaws.filter(|flaw| request_flaws::applies(*flaw, operation));
        if let Some(drawn) = self.random.pick(&flaws.collect::<Vec<_>>()) {
            flaw = *drawn;
        }
        request_flaws::spoil(&mut self.random, &mut record, flaw);
        (flaw, EndAct::Send(operation, Box::new(record)))
    }

    /// Requests with a flaw one after the other, refused 10, and last one that may be sent.
    pub(super) fn unsendable_episode(&mut self) {
        let profile = made::profile(&mut self.random);
        let mut situation = self.good_situation(&profile);
        situation.end = ends_at_random::idle(&mut self.random, &profile);
        self.lines.bring_about(&situation);
        for _ in 0..16 {
            let (flaw, act) = self.unsendable(&profile);
            let origin = Origin {
                request: Some(flaw),
                ..Origin::default()
            };
            self.case(&profile, act, origin);
        }
        let act = self.sending(&profile);
        self.case(&profile, act, Origin::default());
    }
}
