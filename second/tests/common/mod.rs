//! What the tests share: the sample profile, hex, and short ways to ask.
#![allow(dead_code, unused_imports)]

pub mod argument;
pub mod lines;
pub mod thrown;
pub mod waiting;

pub use second::hexadecimal::octets;
pub use second::samples::*;

use second::end::{self, End, Event};
use second::exchange::arrive;
use second::numbers::{Address, Number, Subaddress};
use second::profile::Profile;
use second::request::Served;
use second::table::{Instance, Table};

pub fn hex(octets: &[u8]) -> String {
    let pairs: Vec<String> = octets.iter().map(|octet| format!("{octet:02X}")).collect();
    pairs.join(" ")
}

/// The next table and the reply's octets.
pub fn ask(profile: &Profile, table: &Table, component: &[u8]) -> (Table, Vec<u8>) {
    let mut output = [0xEE; 707];
    let arrived = arrive(&mut output, component, profile, table).expect("no local refusal");
    assert!(output[arrived.length..].iter().all(|octet| *octet == 0xEE));
    let reply = output[..arrived.length].to_vec();
    assert_eq!(reply, arrived.answer.written());
    (arrived.next, reply)
}

/// The reply in hex, for a component in hex, to the fresh sample access.
pub fn sample_reply(component: &str) -> String {
    reply_to(&sample_profile(), &Table::fresh(), component)
}

pub fn reply_to(profile: &Profile, table: &Table, component: &str) -> String {
    hex(&ask(profile, table, &octets(component)).1)
}

pub fn interrogate(profile: &Profile, end: &mut End, procedure: i32) -> Vec<u8> {
    let mut output = [0; 707];
    let length = end::send_interrogation(&mut output, profile, end, procedure).expect("sent");
    output[..length].to_vec()
}

pub fn activate(
    profile: &Profile,
    end: &mut End,
    what: (i32, i32),
    digits: &str,
    served: Served,
) -> Vec<u8> {
    let mut output = [0; 707];
    let address = to(Number::unknown(digits));
    let length =
        end::send_activation(&mut output, profile, end, what, address, served).expect("sent");
    output[..length].to_vec()
}

pub fn deactivate(profile: &Profile, end: &mut End, what: (i32, i32), served: Served) -> Vec<u8> {
    let mut output = [0; 707];
    let length = end::send_deactivation(&mut output, profile, end, what, served).expect("sent");
    output[..length].to_vec()
}

pub fn comes(profile: &Profile, end: &mut End, component: &str) -> Event {
    end::arrived(&octets(component), profile, end).expect("no local refusal")
}
