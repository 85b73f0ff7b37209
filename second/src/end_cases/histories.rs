//! Histories of an end and an exchange over a path that loses, repeats, delays and reorders.

use crate::cases::Cases;
use crate::end_line::{EndAct, EndAnswer};
use crate::end_record::EndRecord;
use crate::exchange::arrive;
use crate::made;
use crate::path::{Path, REPLY_PATH, REQUEST_PATH};
use crate::profile::Profile;
use crate::records_at_random::{access, scribble};
use crate::refusal::COMPONENT_OUTPUT;
use crate::table::Table;
use crate::transcript::Situation;

use super::end_tally::{EndTally, Origin};
use super::makings::Making;

/// Two identifiers are left.
const NEARLY_USED_UP: u16 = 32_765;

pub struct History {
    profile: Profile,
    table: Table,
    requests: Path<Vec<u8>>,
    replies: Path<Vec<u8>>,
    /// How many steps in a hundred do what a good path would do next.
    calm: usize,
}

impl Cases<EndTally> {
    /// Fresh on both sides, or both with as many identifiers used.
    pub(super) fn history(&mut self) {
        let random = &mut self.random;
        let mut profile = made::profile(random);
        if !random.once_in(3) {
            profile.in_use = 1;
            profile.all_numbers = 1;
        }
        let used = random.one_of(&[0, 0, 0, 126, NEARLY_USED_UP, NEARLY_USED_UP]);
        let mut end = EndRecord::fresh();
        end.held.last = used;
        let situation = Situation {
            access: access(random, &profile),
            end,
            ..Situation::at_the_start()
        };
        let mut history = History {
            profile,
            table: Table {
                last: i32::from(used),
                ..Table::fresh()
            },
            requests: Path::empty(REQUEST_PATH),
            replies: Path::empty(REPLY_PATH),
            calm: random.one_of(&[0, 0, 50, 90]),
        };
        self.lines.bring_about(&situation);
        // Once the identifiers are used up, little more can come about.
        let steps = if used == NEARLY_USED_UP {
            15
        } else {
            self.random.one_of(&[20, 40, 80])
        };
        for _ in 0..steps {
            self.step(&mut history);
        }
        history.requests.count_lost(&mut self.tally.path);
        history.replies.count_lost(&mut self.tally.path);
    }

    fn step(&mut self, history: &mut History) {
        if self.random.below(100) < history.calm {
            return self.calm_step(history);
        }
        match self.random.below(100) {
            0..=29 => self.send(history),
            30..=54 => {
                let drawn = history
                    .requests
                    .draw(&mut self.random, &mut self.tally.path);
                history.handle(drawn);
            }
            55..=76 => {
                let drawn = history.replies.draw(&mut self.random, &mut self.tally.path);
                self.reply(history, drawn);
            }
            77..=84 => self.give_up(history),
            85..=94 => {
                let procedure = self.random.below(3) as u8;
                self.case(
                    &history.profile,
                    EndAct::Shown(procedure),
                    Origin::default(),
                );
            }
            _ => {
                let mut scribbled = self.lines.now().clone();
                scribble(&mut self.random, &history.profile, &mut scribbled.end.held);
                self.lines.bring_about(&scribbled);
            }
        }
    }

    /// Sends if nothing is outstanding, else brings the newest message on its way; at times what
    /// came of it is shown.
    fn calm_step(&mut self, history: &mut History) {
        if self.lines.now().end.outstanding == 0 {
            if self.random.once_in(4) {
                let procedure = self.random.below(3) as u8;
                self.case(
                    &history.profile,
                    EndAct::Shown(procedure),
                    Origin::default(),
                );
            }
            return self.send(history);
        }
        if let Some(newest) = history.requests.newest_undrawn() {
            return history.handle(Some(newest));
        }
        match history.replies.newest_undrawn() {
            Some(newest) => self.reply(history, Some(newest)),
            None => self.give_up(history),
        }
    }

    fn send(&mut self, history: &mut History) {
        let act = self.sending(&history.profile);
        let line = self.case(&history.profile, act, Origin::default());
        if let EndAnswer::Sent(octets) = line.answer {
            history.requests.send(octets);
        }
    }

    fn reply(&mut self, history: &History, reply: Option<Vec<u8>>) {
        let origin = Origin {
            making: Some(Making::Path),
            ..Origin::default()
        };
        if let Some(octets) = reply {
            self.case(&history.profile, EndAct::Arrived(octets), origin);
        }
    }

    fn give_up(&mut self, history: &History) {
        self.case(&history.profile, EndAct::GiveUp, Origin::default());
    }
}

impl History {
    /// The exchange handles a request that comes; what it says goes back.
    fn handle(&mut self, request: Option<Vec<u8>>) {
        let mut output = [0; COMPONENT_OUTPUT];
        let arrived =
            request.map(|octets| arrive(&mut output, &octets, &self.profile, &self.table));
        if let Some(Ok(arrived)) = arrived {
            self.table = arrived.next;
            self.replies.send(output[..arrived.length].to_vec());
        }
    }
}
