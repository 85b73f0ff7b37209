//! What an exchange makes of a call record, against the access and table records there are.

use crate::access_record::number_octets;
use crate::call_record::read_call;
use crate::calls::{call, Call, CallOutcome, Diverted, Notice};
use crate::hexadecimal::joined;
use crate::onward_record::{onward_record, Carried};
use crate::profile::Profile;
use crate::records::NUMBER_OCTETS;
use crate::refusal::Refusal;
use crate::table::Table;
use crate::table_record::ADDRESS;
use crate::transcript::Situation;

#[derive(Clone, Debug, PartialEq, Eq)]
pub enum CallAnswer {
    Refused(u8),
    /// Not diverted.
    Passed,
    Diverted {
        reason: i32,
        /// 0 none, 1 without number, 2 with the forwarded-to number.
        notice: i32,
        /// The call that goes on.
        onward: Vec<u8>,
        /// The original called number's digits.
        original: Vec<u8>,
    },
}

impl CallAnswer {
    pub fn diverted(diverted: &Diverted, carried: &Carried) -> Self {
        CallAnswer::Diverted {
            reason: diverted.reason,
            notice: diverted.notice.number(),
            onward: onward_record(diverted, carried),
            original: diverted.original.clone(),
        }
    }

    /// Without digits the line ends with the word before them.
    pub fn line(&self) -> String {
        match self {
            CallAnswer::Refused(number) => format!("refused {number}"),
            CallAnswer::Passed => "passed".to_string(),
            CallAnswer::Diverted {
                reason,
                notice,
                onward,
                original,
            } => {
                let (onward, original) = (joined(onward), joined(original));
                let line = format!("diverted {reason} {notice} {onward} original {original}");
                line.trim_end().to_string()
            }
        }
    }
}

/// What is lent for a call, every record good.
#[derive(Clone, Debug, PartialEq, Eq)]
pub struct Lent {
    pub profile: Profile,
    pub table: Table,
    pub call: Call,
}

impl Lent {
    /// Only refusal 6 is left.
    pub fn outcome(&self) -> Result<CallOutcome, Refusal> {
        call(&self.profile, &self.table, &self.call)
    }
}

impl Situation {
    /// What this program's exchange makes of a call record of any size.
    pub fn called(&self, record: &[u8]) -> CallAnswer {
        let answer = self.lent(record).and_then(|lent| self.answer_to(&lent));
        answer.unwrap_or_else(|refusal| CallAnswer::Refused(refusal.number()))
    }

    /// Refusals 3, 4 and 5, lowest first: each record is judged before the next one is read.
    pub fn lent(&self, record: &[u8]) -> Result<Lent, Refusal> {
        let profile = self.profile()?;
        let table = self.table.read()?;
        table.check(&profile)?;
        let call = read_call(record)?;
        call.check(&profile)?;
        Ok(Lent {
            profile,
            table,
            call,
        })
    }

    fn answer_to(&self, lent: &Lent) -> Result<CallAnswer, Refusal> {
        Ok(match lent.outcome()? {
            CallOutcome::NotDiverted => CallAnswer::Passed,
            CallOutcome::Diverted(diverted) => {
                CallAnswer::diverted(&diverted, &self.carried(lent, &diverted))
            }
        })
    }

    /// The octets of the address and of the served number as they stand in their records.
    pub fn carried(&self, lent: &Lent, diverted: &Diverted) -> Carried {
        let mut carried = Carried::clean(diverted);
        if let Some(place) = self.table.held(lent.call.key()) {
            carried.called.copy_from_slice(&place[ADDRESS..]);
        }
        if let Some(served) = number_octets(&self.access, lent.call.number) {
            carried.redirecting.copy_from_slice(served);
        }
        if let Notice::DivertingTo(_) = diverted.notice {
            carried
                .noticed
                .copy_from_slice(&carried.called[..NUMBER_OCTETS]);
        }
        carried
    }
}
