//! The call record: a call in 28 octets.

use crate::calls::Call;
use crate::records::{octet, read_counted, write_counted};
use crate::refusal::Refusal;

pub const CALL_OCTETS: usize = 28;

/// Where the fields stand.
pub const NUMBER: usize = 0;
pub const SERVICE: usize = 1;
pub const EVENT: usize = 2;
pub const COUNTER: usize = 3;
pub const OPTION: usize = 4;
pub const PRESENTATION: usize = 5;
pub const PREFERENCE: usize = 6;
/// The original number's digits: how many, and 20 places for them.
pub const DIGIT_COUNT: usize = 7;
pub const DIGITS: usize = 8;

/// The record with zeros past the count.
pub fn call_record(call: &Call) -> Vec<u8> {
    let mut record = vec![0; CALL_OCTETS];
    write_call(&mut record, call);
    record
}

/// Writes over a record of 28 octets; places past the count stay as they were.
pub fn write_call(record: &mut [u8], call: &Call) {
    let values = [
        call.number,
        call.service,
        call.event,
        call.counter,
        call.option,
        call.original_allowed,
        call.preference,
    ];
    record[..DIGIT_COUNT].copy_from_slice(&values.map(octet));
    write_counted(&mut record[DIGIT_COUNT..], &call.original);
}

/// The call, its values not yet judged; refusal 5 for another size, or a count past its places.
pub fn read_call(record: &[u8]) -> Result<Call, Refusal> {
    let whole = <&[u8; CALL_OCTETS]>::try_from(record).ok();
    whole.and_then(read_whole).ok_or(Refusal::BadCall)
}

fn read_whole(record: &[u8; CALL_OCTETS]) -> Option<Call> {
    let [number, service, event, counter, option, presentation, preference, original @ ..] = record;
    Some(Call {
        number: i32::from(*number),
        service: i32::from(*service),
        event: i32::from(*event),
        counter: i32::from(*counter),
        option: i32::from(*option),
        original: read_counted(original)?,
        original_allowed: i32::from(*presentation),
        preference: i32::from(*preference),
    })
}
