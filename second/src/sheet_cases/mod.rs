//! Cases of night sheets made at random from a seed, as lines with the answers of this program's
//! sheets, and a tally of what they reached.

pub mod faults;
pub mod faulty;
mod makings;
mod miscoded;
mod reached;
mod sheet_tally;

use crate::cases::Cases;
use crate::full_tables::longest_table;
use crate::listing::LONGEST_LISTING;
use crate::made;
use crate::profile::Profile;
use crate::records_at_random::{access, table};
use crate::refusal::{Refusal, SHEET_OUTPUT};
use crate::sheet_line::SheetLine;
use crate::transcript::Situation;

use faults::Fault;
use makings::{Made, Making};

pub use sheet_tally::SheetTally;

/// So many lines of `write`, `read` and `list`, the same for the same seed.
pub fn sheet_cases(seed: u64, count: u64) -> Cases<SheetTally> {
    let mut cases = Cases::to_make(seed, count, SheetTally::empty());
    while cases.left > 0 {
        match cases.random.below(26) {
            0..=5 => cases.written_episode(),
            6..=11 => cases.refused_episode(),
            12..=18 => cases.sheets_episode(),
            19 => cases.swept_episode(),
            _ => cases.flawed_episode(),
        }
    }
    cases
}

/// The longest sheet that is swept.
const SHORT: usize = 30;

impl Cases<SheetTally> {
    /// A good access with a good table and enough output.
    fn good_situation(&mut self, profile: &Profile) -> Situation {
        let random = &mut self.random;
        let longest = random.once_in(4).then(|| longest_table(random, profile));
        let held = match longest.flatten() {
            Some(longest) => longest,
            None => made::table(random, profile),
        };
        Situation {
            access: access(random, profile),
            table: table(random, profile, &held),
            output: random.one_of(&[SHEET_OUTPUT, 1_614, LONGEST_LISTING, 2_048]),
            ..Situation::at_the_start()
        }
    }

    /// A good table is written, and the sheet read back and listed.
    fn written_episode(&mut self) {
        let profile = made::profile(&mut self.random);
        let situation = self.good_situation(&profile);
        self.lines.bring_about(&situation);
        if let SheetLine::Write(Ok(sheet)) = self.write() {
            self.read_and_list(&(Making::JustWritten, sheet));
        }
    }

    /// One or more refusals of a writing at once; of these only a bad access refuses a reading.
    fn refused_episode(&mut self) {
        let profile = made::profile(&mut self.random);
        let mut situation = self.good_situation(&profile);
        let faults = self.random.one_of(&[1, 2, 4, 4, 3, 5, 6, 7]);
        self.spoil(&mut situation, &profile, faults, &[0, 1, 707, 1_612, 1_612]);
        self.lines.bring_about(&situation);
        self.write();
        let sheet = makings::any(&mut self.random, &profile);
        self.read_and_list(&sheet);
    }

    /// Tables with a flaw are to be written, one after the other.
    fn flawed_episode(&mut self) {
        let profile = made::profile(&mut self.random);
        let mut situation = self.good_situation(&profile);
        for _ in 0..5 {
            self.spoil(&mut situation, &profile, 4, &[]);
            self.lines.bring_about(&situation);
            self.write();
        }
    }

    /// Sheets of every making, and last the table they have left is written.
    fn sheets_episode(&mut self) {
        let profile = made::profile(&mut self.random);
        let situation = self.good_situation(&profile);
        self.lines.bring_about(&situation);
        for _ in 0..self.random.one_of(&[2, 8, 20]) {
            let sheet = makings::any(&mut self.random, &profile);
            self.read_and_list(&sheet);
        }
        self.write();
    }

    /// A short sheet cut at each octet, and with an octet put in at each place.
    fn swept_episode(&mut self) {
        let profile = made::profile(&mut self.random);
        let situation = self.good_situation(&profile);
        let mut sheet = makings::good(&mut self.random, &profile);
        while sheet.len() > SHORT {
            sheet = makings::good(&mut self.random, &profile);
        }
        self.lines.bring_about(&situation);
        for end in 1..sheet.len() {
            self.read_and_list(&(Making::Faulty(Fault::Cut), sheet[..end].to_vec()));
        }
        for at in 0..=sheet.len() {
            let octet = self.random.one_of(&[0, 1, 5, 0x80, 0xFF]);
            let put_in = [&sheet[..at], &[octet], &sheet[at..]].concat();
            self.read_and_list(&(Making::PutIn, put_in));
        }
    }

    fn write(&mut self) -> SheetLine {
        let line = SheetLine::write(self.lines.now());
        self.case(None, &line);
        line
    }

    fn read_and_list(&mut self, (making, sheet): &Made) {
        let read = SheetLine::read(self.lines.now(), sheet);
        self.case(Some(*making), &read);
        self.output_of_a_listing();
        let listed = SheetLine::list(self.lines.now(), sheet);
        self.case(Some(*making), &listed);
    }

    /// Mostly enough, often just enough, and now and then too little.
    fn output_of_a_listing(&mut self) {
        let size = match self.random.below(16) {
            0 => self.random.one_of(&[0, SHEET_OUTPUT, LONGEST_LISTING - 1]),
            1 => LONGEST_LISTING,
            _ => self.lines.now().output.max(LONGEST_LISTING),
        };
        let output = Situation {
            output: size,
            ..self.lines.now().clone()
        };
        self.lines.bring_about(&output);
    }

    /// The line is told, unless there are cases enough.
    fn case(&mut self, making: Option<Making>, line: &SheetLine) {
        if !self.one_more() {
            return;
        }
        self.tally.add(self.lines.now(), line);
        if *line == SheetLine::Write(Err(Refusal::BadRecord.number())) {
            self.table_refused();
        }
        if let Some(making) = making {
            self.tally.add_making(making, line);
        }
        line.tell(&mut self.lines);
    }
}
