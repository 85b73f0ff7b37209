//! One side is played by another program and the other by this one. What the other program does is
//! told from its answers alone; beside it, this program does the same on the same octets.

use crate::end::End;
use crate::end_cases::ends_at_random::record_of;
use crate::end_line::{EndAct, EndAnswer, EndLine};
use crate::expected::{expect, KNOWN_IS_FALSE};
use crate::hexadecimal::joined;
use crate::profile::Profile;
use crate::random::Random;
use crate::records::octet;
use crate::records_at_random::access;
use crate::refusal::Refusal;
use crate::request::Request;
use crate::said_lines::{instance_meant, read_end_said, read_said};
use crate::sides::Sides;
use crate::soak::counted_profile;
use crate::soak_kinds::Kind;
use crate::table::{of_procedure, sorted, Instance, Table};
use crate::talk::Talked;
use crate::transcript::{expected_line, line_of, Said, Situation};

/// Which side the other program plays.
#[derive(Clone, Copy, Debug, PartialEq, Eq)]
pub enum Others {
    Exchange,
    End,
}

pub struct Meeting<'a> {
    talk: &'a mut Talked,
    others: Others,
    profile: Profile,
    /// This program's side, and what the other program has said of its own.
    now: Situation,
    /// The same as they are meant.
    table: Table,
    end: End,
    /// For octets that carry no meaning.
    random: Random,
    /// The first answer that is not this program's.
    differs: Option<String>,
}

impl<'a> Meeting<'a> {
    /// Both sides fresh, on any profile of a counted end.
    pub fn fresh(
        talk: &'a mut Talked,
        others: Others,
        random: &mut Random,
    ) -> Result<Self, String> {
        let profile = counted_profile(random);
        let access = access(random, &profile);
        talk.start()?;
        talk.tell(&line_of("access", &joined(&access)))?;
        Ok(Meeting {
            talk,
            others,
            profile,
            now: Situation {
                access,
                ..Situation::at_the_start()
            },
            table: Table::fresh(),
            end: End::fresh(),
            random: Random::seeded(random.draw()),
            differs: None,
        })
    }

    /// What the other program answers, where this one would answer `own`.
    fn ask(&mut self, line: &str, own: &str) -> Result<String, String> {
        let said = self.talk.ask(line)?;
        if said != own && self.differs.is_none() {
            self.differs = Some(format!("it says\n{said}\nthis program says\n{own}"));
        }
        Ok(said)
    }

    fn end_does(&mut self, act: EndAct) -> Result<EndAnswer, String> {
        let own = EndLine::of(&self.now, act);
        let (answer, next) = match self.others {
            Others::Exchange => (own.answer, Some(*own.next)),
            Others::End => {
                let said = self.ask(&own.act.line(), &own.printed())?;
                read_end_said(&said).ok_or_else(|| unformed(&said))?
            }
        };
        if let Some(next) = next {
            self.end = next.read().map_err(bad_record)?;
            self.now.end = next;
        }
        Ok(answer)
    }

    /// What is shown as known must be the table's instances.
    fn shown(&self, procedure: u8, answer: &EndAnswer) -> Result<Kind, String> {
        match answer {
            EndAnswer::Known(entries) => {
                let meant = entries
                    .iter()
                    .map(|entry| instance_meant(&self.profile, entry));
                let meant: Option<Vec<Instance>> = meant.collect();
                let held = of_procedure(&self.table.instances, i32::from(procedure));
                let held = sorted(held.cloned().collect());
                expect(meant.map(sorted) == Some(held), KNOWN_IS_FALSE)?;
                Ok(if entries.is_empty() {
                    Kind::ShownEmpty
                } else {
                    Kind::ShownFilled
                })
            }
            EndAnswer::Doubt => Ok(Kind::ShownInDoubt),
            EndAnswer::Refused(_) => Ok(Kind::ShownRefused),
            other => Err(misplaced(other)),
        }
    }
}

fn unformed(said: &str) -> String {
    format!("an answer of no form: {said}")
}

fn misplaced(answer: &EndAnswer) -> String {
    format!("the end answers with {answer:?}")
}

fn bad_record(refusal: Refusal) -> String {
    format!("a record that is refusal {}", refusal.number())
}

impl Sides for Meeting<'_> {
    fn profile(&self) -> &Profile {
        &self.profile
    }

    fn table(&self) -> &Table {
        &self.table
    }

    fn end(&self) -> &End {
        &self.end
    }

    fn send(&mut self, request: &Request) -> Result<Result<Vec<u8>, u8>, String> {
        let act = if let Request::Interrogation { procedure, .. } = request {
            EndAct::Interrogate(octet(*procedure))
        } else {
            let record = record_of(&mut self.random, request);
            EndAct::Send(request.operation(), Box::new(record))
        };
        match self.end_does(act)? {
            EndAnswer::Sent(octets) => Ok(Ok(octets)),
            EndAnswer::Refused(number) => Ok(Err(number)),
            other => Err(misplaced(&other)),
        }
    }

    fn request_comes(&mut self, octets: &[u8]) -> Result<Vec<u8>, String> {
        let (mut said, mut next) = self.now.answered(octets);
        if self.others == Others::Exchange {
            let line = line_of("component", &joined(octets));
            let heard = self.ask(&line, &expected_line(&said, &next))?;
            (said, next) = read_said(&heard).ok_or_else(|| unformed(&heard))?;
        }
        self.table = next.read().map_err(bad_record)?;
        self.now.table = next;
        match said {
            Said::Replied(reply) => Ok(reply),
            Said::Silent => Ok(Vec::new()),
            Said::Refused(number) => Err(format!("refusal {number} of a component")),
        }
    }

    fn reply_comes(&mut self, octets: &[u8]) -> Result<(), String> {
        match self.end_does(EndAct::Arrived(octets.to_vec()))? {
            EndAnswer::Taken => Ok(()),
            other => Err(misplaced(&other)),
        }
    }

    fn give_up(&mut self) -> Result<(), String> {
        match self.end_does(EndAct::GiveUp)? {
            EndAnswer::GaveUp => Ok(()),
            other => Err(misplaced(&other)),
        }
    }

    /// A procedure is shown, now and then one that is none.
    fn aside(&mut self, random: &mut Random) -> Result<Kind, String> {
        let procedure = match random.below(8) {
            0 => random.one_of(&[3, 128, 255]),
            _ => random.below(3) as u8,
        };
        let answer = self.end_does(EndAct::Shown(procedure))?;
        self.shown(procedure, &answer)
    }

    fn agreed(&self) -> Result<(), String> {
        self.differs.clone().map_or(Ok(()), Err)
    }
}
