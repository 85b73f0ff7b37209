//! The words dialogues of the end are written in: records laid out octet by octet, and ends.

use crate::elements::{element, TAG_SEQUENCE, TAG_SET};
use crate::end_record::EndRecord;
use crate::end_step::{EntryRecord, ENTRY_OCTETS};
use crate::hexadecimal::octets;
use crate::request_record::{RequestRecord, REQUEST_OCTETS};
use crate::table_record::{Place, TableRecord, PLACE_OCTETS};

pub const CFU: u8 = 0;
pub const CFB: u8 = 1;
pub const CFNR: u8 = 2;

/// Marks, cfu first: one in doubt.
pub const CFU_IN_DOUBT: [u8; 3] = [0, 1, 1];
pub const CFB_IN_DOUBT: [u8; 3] = [1, 0, 1];

/// Octets in hexadecimal text; `00*20` is twenty octets 00.
pub fn laid_out(text: &str) -> Vec<u8> {
    let words = text.split_whitespace();
    words
        .flat_map(|word| {
            let (octet, times) = word.split_once('*').unwrap_or((word, "1"));
            octets(octet).repeat(times.parse().unwrap_or(0))
        })
        .collect()
}

fn record<const N: usize>(text: &str) -> [u8; N] {
    let mut record = [0; N];
    record.copy_from_slice(&laid_out(text));
    record
}

pub fn request(text: &str) -> RequestRecord {
    record::<REQUEST_OCTETS>(text)
}

pub fn place(text: &str) -> Place {
    record::<PLACE_OCTETS>(text)
}

pub fn entry(text: &str) -> EntryRecord {
    record::<ENTRY_OCTETS>(text)
}

/// Document 01's activation: cfb, speech, all numbers, to 24680.
pub fn to_24680() -> RequestRecord {
    request("01 01 01 00*23 00 00 05 32 34 36 38 30 00*15 00 00*20 00")
}

/// A deactivation of cfb, speech, all numbers.
pub fn off() -> RequestRecord {
    request("01 01 01 00*23 00*45")
}

/// An interrogation of this procedure, as it stands in an end.
pub fn asking(procedure: u8) -> RequestRecord {
    request(&format!("{procedure:02X} 00 01 00*68"))
}

/// cfb of the profile's first number, speech, to 24680.
pub fn held_24680() -> Place {
    place("01 00 01 00 00 05 32 34 36 38 30 00*15 00 00*20")
}

/// The same as it is shown at the samples' profile, with the number 13579.
pub fn shown_24680() -> EntryRecord {
    entry(
        "00 00 05 31 33 35 37 39 00*15 01 01 \
         00 00 05 32 34 36 38 30 00*15 00 00*20",
    )
}

/// Document 01's activation with this identifier.
pub fn activation_sent(identifier: u8) -> String {
    format!(
        "A1 19 02 01 {identifier:02X} 02 01 07 30 11 0A 01 01 0A 01 01 \
         30 07 80 05 32 34 36 38 30 05 00"
    )
}

pub fn deactivation_sent(identifier: u8) -> String {
    format!("A1 10 02 01 {identifier:02X} 02 01 08 30 08 0A 01 01 0A 01 01 05 00")
}

pub fn interrogation_sent(identifier: u8, procedure: u8) -> String {
    format!("A1 10 02 01 {identifier:02X} 02 01 0B 30 08 0A 01 {procedure:02X} 0A 01 00 05 00")
}

pub fn result(identifier: u8) -> String {
    format!("A2 03 02 01 {identifier:02X}")
}

pub fn error(identifier: u8, code: u8) -> String {
    format!("A3 06 02 01 {identifier:02X} 02 01 {code:02X}")
}

/// What the exchange says to an identifier that it has handled before.
pub fn duplicate(identifier: u8) -> String {
    format!("A4 06 02 01 {identifier:02X} 81 01 00")
}

pub fn empty_list(identifier: u8) -> String {
    format!("A2 0A 02 01 {identifier:02X} 30 05 02 01 0B 31 00")
}

/// The list of the samples' profile after document 01's activation.
pub fn list_of_24680(identifier: u8) -> String {
    format!(
        "A2 22 02 01 {identifier:02X} 30 1D 02 01 0B 31 18 30 16 80 05 31 33 35 37 39 \
         0A 01 01 0A 01 01 30 07 80 05 32 34 36 38 30"
    )
}

/// A component of this tag: an identifier, and what follows it in hexadecimal text.
pub fn component(tag: u8, identifier: u8, after: &str) -> Vec<u8> {
    element(tag, &[vec![0x02, 0x01, identifier], octets(after)].concat())
}

/// An entry of a list: a number, a service, a procedure and an address's contents.
pub fn listed(number: &str, service: u8, procedure: u8, address: &str) -> Vec<u8> {
    let codes = vec![0x0A, 0x01, service, 0x0A, 0x01, procedure];
    let address = element(TAG_SEQUENCE, &octets(address));
    element(TAG_SEQUENCE, &[octets(number), codes, address].concat())
}

/// The result of an interrogation with these entries.
pub fn list_of(identifier: u8, entries: &[Vec<u8>]) -> Vec<u8> {
    let set = element(TAG_SET, &entries.concat());
    let inside = element(TAG_SEQUENCE, &[vec![0x02, 0x01, 0x0B], set].concat());
    element(0xA2, &[vec![0x02, 0x01, identifier], inside].concat())
}

/// An end with nothing outstanding, all known, an empty picture, that has used this identifier.
pub fn idle(used: u16) -> EndRecord {
    EndRecord {
        held: TableRecord::holding(used, &[]),
        ..EndRecord::fresh()
    }
}

impl EndRecord {
    pub(crate) fn marked(self, marks: [u8; 3]) -> Self {
        EndRecord { marks, ..self }
    }

    /// This request is outstanding; the mark from before sending.
    pub(crate) fn waits_for(self, operation: u8, before: u8, request: RequestRecord) -> Self {
        EndRecord {
            outstanding: 1,
            operation,
            before,
            request,
            ..self
        }
    }

    pub(crate) fn holds(self, places: &[Place]) -> Self {
        EndRecord {
            held: TableRecord::holding(self.held.last, places),
            ..self
        }
    }
}
