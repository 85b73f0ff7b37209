//! An end and an exchange with a path between them that loses, repeats, delays and reorders, and
//! what must hold after every event.

use crate::answer::{read_answer, Answer};
use crate::expected::{
    answered, dropped, expect, given_up, known_is_true, listed_is_known, meant_for, sent_kind,
    sent_rightly, taken, whole, whole_interrogation_listed, Waiting,
};
use crate::made;
use crate::path::{Path, REPLY_PATH, REQUEST_PATH};
use crate::random::Random;
use crate::refusal::Refusal;
use crate::request::{hear, Heard, Request};
use crate::sides::Sides;
use crate::soak_kinds::Kind;
use crate::tally::Tally;

/// The least identifier of two octets.
const TWO_OCTETS: i32 = 128;

/// What is checked after every event.
#[derive(Clone, Copy, Debug, PartialEq, Eq, PartialOrd, Ord)]
pub enum Checks {
    /// What is known is true: the first sentence of demand 3.
    Known,
    /// Its last sentence besides.
    DemandThree,
    /// Besides, that each event does to the records what document 01 says, octet for octet where
    /// another program plays a side.
    All,
}

#[derive(Clone)]
struct Sent {
    identifier: i32,
    request: Request,
    octets: Vec<u8>,
}

pub struct World<S> {
    sides: S,
    random: Random,
    requests: Path<Sent>,
    replies: Path<(Answer, Vec<u8>)>,
    /// The request that is neither replied to nor given up, whatever the end says of it.
    waiting: Option<Waiting>,
    used: i32,
    /// How many events in a hundred are what a good path would do next.
    calm: usize,
    checks: Checks,
    tally: Tally<Kind>,
}

impl<S: Sides> World<S> {
    /// With both sides fresh.
    pub fn fresh(sides: S, mut random: Random, checks: Checks, tally: Tally<Kind>) -> Self {
        World {
            sides,
            calm: random.one_of(&[0, 50, 80, 95]),
            random,
            requests: Path::empty(REQUEST_PATH),
            replies: Path::empty(REPLY_PATH),
            waiting: None,
            used: 0,
            checks,
            tally,
        }
    }

    /// The latest identifier that was sent.
    pub fn used(&self) -> i32 {
        self.used
    }

    /// What goes on into the next world.
    pub fn closed(mut self) -> (Random, Tally<Kind>) {
        self.requests.count_lost(&mut self.tally);
        self.replies.count_lost(&mut self.tally);
        (self.random, self.tally)
    }

    /// One event, and all that must hold after it; every breach is told.
    pub fn event(&mut self) -> Result<(), String> {
        let moved = self.step();
        let sides = &self.sides;
        let known = known_is_true(sides.profile(), sides.table(), sides.end());
        let agreed = self.ruled(self.sides.agreed());
        let breaches: Vec<String> = [moved, known, agreed]
            .into_iter()
            .filter_map(Result::err)
            .collect();
        expect(breaches.is_empty(), &breaches.join("\n"))
    }

    /// What is checked from these checks on.
    fn checked(&self, from: Checks, holds: Result<(), String>) -> Result<(), String> {
        if self.checks >= from {
            holds
        } else {
            Ok(())
        }
    }

    /// A check that is none of demand 3.
    fn ruled(&self, holds: Result<(), String>) -> Result<(), String> {
        self.checked(Checks::All, holds)
    }

    /// The same where it tells the kind of the event.
    fn told(&mut self, kind: Result<Kind, String>) -> Result<(), String> {
        match kind {
            Ok(kind) => {
                self.tally.add(kind, 1);
                Ok(())
            }
            Err(what) => self.ruled(Err(what)),
        }
    }

    fn step(&mut self) -> Result<(), String> {
        if self.random.below(100) < self.calm {
            return self.calm_step();
        }
        match self.random.below(100) {
            0..=29 => self.send(),
            30..=62 => match self.requests.draw(&mut self.random, &mut self.tally) {
                Some(sent) => self.request_comes(&sent),
                None => self.send(),
            },
            63..=92 => match self.replies.draw(&mut self.random, &mut self.tally) {
                Some((answer, octets)) => self.reply_comes(&answer, &octets),
                None => self.send(),
            },
            93..=97 => self.give_up(),
            _ => {
                let kind = self.sides.aside(&mut self.random)?;
                self.told(Ok(kind))
            }
        }
    }

    /// Sends if nothing is outstanding, else brings the newest message on its way.
    fn calm_step(&mut self) -> Result<(), String> {
        if self.waiting.is_none() {
            self.send()
        } else if let Some(sent) = self.requests.newest_undrawn() {
            self.request_comes(&sent)
        } else if let Some((answer, octets)) = self.replies.newest_undrawn() {
            self.reply_comes(&answer, &octets)
        } else {
            self.give_up()
        }
    }

    fn send(&mut self) -> Result<(), String> {
        let request = whole(made::request(&mut self.random, self.sides.profile()));
        let before = self.sides.end().clone();
        match self.sides.send(&request)? {
            Ok(octets) => self.sent(Waiting::of(&before, self.used + 1, request), octets),
            Err(number) => {
                let due = self.waiting.is_some();
                let due = due && number == Refusal::RequestOutstanding.number();
                let stays = *self.sides.end() == before;
                let holds = expect(due && stays, &format!("refusal {number} of a request"));
                self.told(holds.map(|()| Kind::RefusedOutstanding))
            }
        }
    }

    fn sent(&mut self, waiting: Waiting, octets: Vec<u8>) -> Result<(), String> {
        let Heard::Invoke(invoke) = hear(&octets) else {
            return Err("what was sent is no request".to_string());
        };
        self.used = invoke.identifier;
        self.ruled(expect(
            self.waiting.is_none(),
            "sent while a request is outstanding",
        ))?;
        self.ruled(sent_rightly(&waiting, &octets, self.sides.end()))?;
        self.tally.add(sent_kind(&waiting.request), 1);
        if self.used >= TWO_OCTETS {
            self.tally.add(Kind::TwoOctetsSent, 1);
        }
        self.requests.send(Sent {
            identifier: self.used,
            request: waiting.request.clone(),
            octets,
        });
        self.waiting = Some(waiting);
        Ok(())
    }

    fn request_comes(&mut self, sent: &Sent) -> Result<(), String> {
        let octets = self.sides.request_comes(&sent.octets)?;
        let profile = self.sides.profile();
        self.ruled(expect(
            self.sides.table().good(profile),
            "the next table breaks a rule",
        ))?;
        let Some(answer) = read_answer(&octets) else {
            return self.ruled(Err(format!("no exchange answers {octets:02X?}")));
        };
        let listed = whole_interrogation_listed(profile, &sent.request, &answer);
        self.ruled(listed)?;
        self.told(answered(&sent.request, &answer))?;
        let waited_for = self.waiting.as_ref().map(|waiting| waiting.identifier);
        if answer.handled().is_some() && waited_for != Some(sent.identifier) {
            self.tally.add(Kind::GivenUpRequestHandled, 1);
        }
        let asked = matches!(sent.request, Request::Interrogation { .. });
        if asked && matches!(answer, Answer::Error { .. }) {
            self.tally.add(Kind::WholeForbidden, 1);
        }
        self.replies.send((answer, octets));
        Ok(())
    }

    fn reply_comes(&mut self, answer: &Answer, octets: &[u8]) -> Result<(), String> {
        let before = self.sides.end().clone();
        self.sides.reply_comes(octets)?;
        let (profile, end) = (self.sides.profile(), self.sides.end());
        let meant = |waiting: &mut Waiting| meant_for(answer, waiting.identifier);
        let Some(waiting) = self.waiting.take_if(meant) else {
            let kind = dropped(self.waiting.is_some(), [&before, end]);
            return self.told(kind);
        };
        let listed = listed_is_known(profile, &waiting.request, answer, end);
        let kind = taken(profile, answer, &waiting, [&before, end]);
        self.checked(Checks::DemandThree, listed)?;
        self.told(kind)
    }

    fn give_up(&mut self) -> Result<(), String> {
        let before = self.sides.end().clone();
        self.sides.give_up()?;
        let waiting = self.waiting.take();
        self.told(given_up(waiting.as_ref(), [&before, self.sides.end()]))
    }
}
