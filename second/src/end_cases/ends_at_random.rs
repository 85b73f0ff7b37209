//! End records and records of requests made at random: good ones, at times with rubbish in the
//! places that carry no meaning.

use crate::codes::{ACTIVATION, DEACTIVATION, INTERNATIONAL, INTERROGATION, OPERATIONS};
use crate::end_record::EndRecord;
use crate::made;
use crate::numbers::PUBLIC;
use crate::profile::Profile;
use crate::random::Random;
use crate::records::octet;
use crate::records_at_random::table;
use crate::request::Request;
use crate::request_record::{
    interrogation_record, write_request, RequestRecord, ALL_NUMBERS, PROCEDURE, REQUEST_OCTETS,
};

/// A request of this operation that may be sent, though it may earn an error.
fn asked(random: &mut Random, profile: &Profile, operation: i32) -> Request {
    loop {
        let mut request = made::request(random, profile);
        if request.operation() != operation {
            continue;
        }
        if let Request::Activation { address, .. } = &mut request {
            if random.once_in(20) {
                address.number.form = PUBLIC;
                address.number.number_type = INTERNATIONAL;
                address.number.digits = vec![b'3'; 16 + random.below(5)];
            }
        }
        return request;
    }
}

/// Its record: an interrogation's has zeros wherever nothing carries a meaning.
pub fn request(random: &mut Random, profile: &Profile, operation: i32) -> RequestRecord {
    let request = asked(random, profile, operation);
    if operation == INTERROGATION {
        return interrogation_record(octet(request.procedure()));
    }
    record_of(random, &request)
}

/// The record of this request, at times with rubbish.
pub fn record_of(random: &mut Random, request: &Request) -> RequestRecord {
    let mut record = [0; REQUEST_OCTETS];
    if random.once_in(2) {
        record.fill_with(|| random.octet());
    }
    write_request(&mut record, request);
    record
}

/// With these three as likely as they are to be sent.
pub fn operation(random: &mut Random) -> i32 {
    let any = random.one_of(&OPERATIONS);
    random.one_of(&[ACTIVATION, DEACTIVATION, INTERROGATION, INTERROGATION, any])
}

/// Nothing is outstanding; with rubbish in those fields at times.
pub fn idle(random: &mut Random, profile: &Profile) -> EndRecord {
    let held = made::table(random, profile);
    let mut end = EndRecord {
        held: table(random, profile, &held),
        marks: [(); 3].map(|()| u8::from(random.once_in(2))),
        ..EndRecord::fresh()
    };
    if random.once_in(2) {
        end.operation = random.octet();
        end.before = random.octet();
        end.request.fill_with(|| random.octet());
    }
    end
}

/// A request is outstanding, be it one that the end would have sent with another mark.
pub fn waiting(random: &mut Random, profile: &Profile, operation: i32) -> EndRecord {
    let mut end = idle(random, profile);
    end.held.last = end.held.last.max(1);
    end.outstanding = 1;
    end.operation = octet(operation);
    end.before = u8::from(random.once_in(2));
    let sent = request(random, profile, operation);
    // Rubbish that no sending leaves, but that is not looked at.
    if operation != INTERROGATION || random.once_in(2) {
        end.request = sent;
    } else {
        end.request.fill_with(|| random.octet());
        let meaning = PROCEDURE..=ALL_NUMBERS;
        end.request[meaning.clone()].copy_from_slice(&sent[meaning]);
    }
    end
}

pub fn any(random: &mut Random, profile: &Profile) -> EndRecord {
    let operation = operation(random);
    if random.once_in(3) {
        idle(random, profile)
    } else {
        waiting(random, profile, operation)
    }
}
