//! One direction of a path that loses, repeats, delays and reorders: every message is drawn from
//! everything ever sent, any number of times or never.

use crate::random::Random;
use crate::soak_kinds::Kind;
use crate::tally::Tally;

/// The kinds of event a path counts.
pub struct PathKinds {
    pub lost: Kind,
    pub repeated: Kind,
    pub overtaken: Kind,
    pub delayed: Kind,
}

pub const REQUEST_PATH: PathKinds = PathKinds {
    lost: Kind::RequestLost,
    repeated: Kind::RequestRepeated,
    overtaken: Kind::RequestOvertaken,
    delayed: Kind::RequestDelayed,
};

pub const REPLY_PATH: PathKinds = PathKinds {
    lost: Kind::ReplyLost,
    repeated: Kind::ReplyRepeated,
    overtaken: Kind::ReplyOvertaken,
    delayed: Kind::ReplyDelayed,
};

pub struct Path<T> {
    kinds: PathKinds,
    /// Each message with the times it was drawn.
    sent: Vec<(T, u64)>,
    latest_drawn: usize,
}

impl<T: Clone> Path<T> {
    pub fn empty(kinds: PathKinds) -> Self {
        Path {
            kinds,
            sent: Vec::new(),
            latest_drawn: 0,
        }
    }

    pub fn send(&mut self, message: T) {
        self.sent.push((message, 0));
    }

    /// The newest, one of the newest few, or any one ever sent.
    pub fn draw(&mut self, random: &mut Random, tally: &mut Tally<Kind>) -> Option<T> {
        let newest = self.sent.len().checked_sub(1)?;
        let at = match random.below(10) {
            0..=5 => newest,
            6..=8 => newest.saturating_sub(random.below(4)),
            _ => random.below(self.sent.len()),
        };
        let (message, times) = self.sent.get_mut(at)?;
        let first_time = *times == 0;
        tally.add(self.kinds.repeated, u64::from(!first_time));
        tally.add(
            self.kinds.overtaken,
            u64::from(first_time && at < self.latest_drawn),
        );
        tally.add(self.kinds.delayed, u64::from(first_time && at < newest));
        *times += 1;
        self.latest_drawn = self.latest_drawn.max(at);
        Some(message.clone())
    }

    /// The newest message, if it has never come.
    pub fn newest_undrawn(&mut self) -> Option<T> {
        let newest = self.sent.len().checked_sub(1)?;
        let (message, times) = self.sent.get_mut(newest)?;
        if *times > 0 {
            return None;
        }
        *times += 1;
        self.latest_drawn = newest;
        Some(message.clone())
    }

    pub fn count_lost(&self, tally: &mut Tally<Kind>) {
        let never = self.sent.iter().filter(|(_, times)| *times == 0).count();
        tally.add(self.kinds.lost, never as u64);
    }
}
