//! Arguments in hex, asked of an access where only the reading decides.

use super::*;
use second::elements::element;

/// Every service and procedure is welcome, so that only the reading decides.
pub fn profile() -> Profile {
    let mut profile = sample_profile();
    profile.subscribed = [1, 1, 1];
    profile.counted = 0;
    profile
}

pub fn reply(operation: u8, argument: &[u8]) -> String {
    let contents = [
        &[0x02, 0x01, 0x01, 0x02, 0x01, operation],
        &element(0x30, argument)[..],
    ]
    .concat();
    let (_, reply) = ask(&profile(), &Table::fresh(), &element(0xA1, &contents));
    hex(&reply)
}

/// Whether the argument reads as clause 7.1 has it; if not, invoke problem 2.
pub fn readable(operation: u8, argument: &str) -> bool {
    let reply = reply(operation, &octets(argument));
    let unreadable = reply == "A4 06 02 01 01 81 01 02";
    assert!(unreadable || reply.starts_with("A2") || reply.starts_with("A3"));
    !unreadable
}

pub fn interrogation(argument: &str) -> bool {
    readable(11, argument)
}

/// An activation of cfb and speech to this address, itself in hex.
pub fn address(address: &str) -> bool {
    let coded = hex(&element(0x30, &octets(address)));
    readable(7, &format!("0A 01 01 0A 01 01 {coded} 05 00"))
}

pub fn served(number: &str) -> bool {
    interrogation(&format!("0A 01 01 0A 01 00 {number}"))
}
