//! An end and an exchange of one access, whoever plays them; and this program's own two, right or
//! wrong.

use crate::end::{self, End};
use crate::exchange::arrive;
use crate::expected::{expect, unexpected};
use crate::profile::Profile;
use crate::random::Random;
use crate::refusal::{COMPONENT_OUTPUT, SHEET_OUTPUT};
use crate::request::Request;
use crate::sheet;
use crate::soak_kinds::Kind;
use crate::table::Table;
use crate::wrong::{Moment, Wrong};

/// What a path lies between. Whatever cannot be told apart from a fault is an error.
pub trait Sides {
    fn profile(&self) -> &Profile;
    fn table(&self) -> &Table;
    fn end(&self) -> &End;

    /// The component that the end sends, or the number of its refusal. An interrogation is of all
    /// services and all numbers.
    fn send(&mut self, request: &Request) -> Result<Result<Vec<u8>, u8>, String>;

    /// The octets of the exchange's reply; none for silence.
    fn request_comes(&mut self, octets: &[u8]) -> Result<Vec<u8>, String>;

    fn reply_comes(&mut self, octets: &[u8]) -> Result<(), String>;

    fn give_up(&mut self) -> Result<(), String>;

    /// What is done at times besides the events of the path.
    fn aside(&mut self, random: &mut Random) -> Result<Kind, String>;

    /// An error where one of them has done otherwise than this program, octet for octet.
    fn agreed(&self) -> Result<(), String> {
        Ok(())
    }
}

/// This program's own.
pub struct Own {
    profile: Profile,
    table: Table,
    end: End,
    wrong: Option<Wrong>,
}

impl Own {
    pub fn fresh(profile: Profile, wrong: Option<Wrong>) -> Self {
        Own {
            profile,
            table: Table::fresh(),
            end: End::fresh(),
            wrong,
        }
    }

    /// What the wrong end makes of what the right one has just done.
    fn spoil(&mut self, moment: &Moment<'_>, before: &End) {
        if let Some(wrong) = self.wrong {
            self.end = wrong.end(moment, &self.profile, before, &self.end);
        }
    }
}

impl Sides for Own {
    fn profile(&self) -> &Profile {
        &self.profile
    }

    fn table(&self) -> &Table {
        &self.table
    }

    fn end(&self) -> &End {
        &self.end
    }

    fn send(&mut self, request: &Request) -> Result<Result<Vec<u8>, u8>, String> {
        let before = self.end.clone();
        let mut output = [0; COMPONENT_OUTPUT];
        let sent = end::send(&mut output, &self.profile, &mut self.end, request.clone());
        self.spoil(&Moment::Sent, &before);
        Ok(sent
            .map(|length| output[..length].to_vec())
            .map_err(|refusal| refusal.number()))
    }

    fn request_comes(&mut self, octets: &[u8]) -> Result<Vec<u8>, String> {
        let mut output = [0; COMPONENT_OUTPUT];
        let arrived =
            arrive(&mut output, octets, &self.profile, &self.table).map_err(unexpected)?;
        let Some(wrong) = self.wrong else {
            self.table = arrived.next;
            return Ok(output[..arrived.length].to_vec());
        };
        let spoiled = wrong.exchange(octets, &self.profile, &self.table, arrived);
        self.table = spoiled.next;
        Ok(spoiled.answer.written())
    }

    fn reply_comes(&mut self, octets: &[u8]) -> Result<(), String> {
        let before = self.end.clone();
        end::arrived(octets, &self.profile, &mut self.end).map_err(unexpected)?;
        self.spoil(&Moment::Arrived(octets), &before);
        Ok(())
    }

    fn give_up(&mut self) -> Result<(), String> {
        let before = self.end.clone();
        end::give_up(&self.profile, &mut self.end).map_err(unexpected)?;
        self.spoil(&Moment::GaveUp, &before);
        Ok(())
    }

    /// The exchange goes through the night: what is written reads back as what was meant.
    fn aside(&mut self, _: &mut Random) -> Result<Kind, String> {
        let mut output = [0; SHEET_OUTPUT];
        let length = sheet::write(&mut output, &self.profile, &self.table).map_err(unexpected)?;
        let back = sheet::read(&self.profile, &output[..length]).map_err(unexpected)?;
        expect(
            back == self.table.sorted(),
            "a sheet reads back as another table",
        )?;
        self.table = back;
        Ok(Kind::SheetTurned)
    }
}
