//! The octets that the driver in C puts before and after each thing that it lends, and prints.

use crate::hexadecimal::joined;

/// Eight before it, and eight after it.
const AROUND: usize = 16;

/// What is lent for a component, a call, or a line about a sheet: each has an access record or a
/// sheet to read, and what else is read or written to.
pub const FOR_A_COMPONENT: usize = 3;
pub const FOR_A_CALL: usize = 3;
pub const FOR_A_SHEET: usize = 2;

/// Those of the end: an access record, and what else is read or written to. An arrival lends the
/// end itself too. Showing lends the access record once more for each entry.
pub const FOR_A_SENDING: usize = 2;
pub const FOR_AN_ARRIVAL: usize = 3;
pub const FOR_A_GIVING_UP: usize = 1;
pub const FOR_SHOWING: usize = 1;

/// What is lent besides, where a component is answered: its table is written as a sheet, read, and
/// written again.
pub const THERE_AND_BACK: usize = 3 * FOR_A_SHEET;

/// The things lent so far, and a line for each line that prints something.
#[derive(Default)]
pub struct Canaries {
    lent: usize,
    pub lines: String,
}

impl Canaries {
    /// From now on things count from 1 again.
    pub fn start_anew(&mut self) {
        self.lent = 0;
    }

    /// For the n-th thing the octets are n, n + 1 and so on, each modulo 256.
    pub fn around(&mut self, things: usize) {
        self.lines.push_str("canaries");
        for _ in 0..things {
            self.lent += 1;
            let octets: Vec<u8> = (0..AROUND).map(|i| (self.lent + i) as u8).collect();
            self.lines.push(' ');
            self.lines.push_str(&joined(&octets));
        }
        self.lines.push('\n');
    }
}
