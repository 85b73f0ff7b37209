//! Addresses that would earn an activation error 12, 14 or 15: errors judged at activation alone,
//! so a sheet with them is good (A6).

use crate::codes::CFB;
use crate::dialogues::guarded::{guarded, OWN, PREFIXED, SIXTEEN};
use crate::dialogues::script::Dialogue;
use crate::dialogues::words::{held, to, to_public, SPEECH, TWENTY};
use crate::numbers::Address;

use super::words::sheet_dialogue;

/// What the address is, the number's fields in a sheet, and the number listed.
type Judged = (&'static str, Address, &'static str, &'static str);

pub fn dialogues() -> Vec<Dialogue> {
    let judged: [Judged; 6] = [
        (
            "a number that begins with a special prefix",
            to(PREFIXED),
            "00 00 05 01 01 02 05 05",
            "u 11255",
        ),
        (
            "a number that is the special prefix",
            to("112"),
            "00 00 03 01 01 02",
            "u 112",
        ),
        (
            "the served number itself",
            to(OWN),
            "00 00 05 01 03 05 07 09",
            "u 13579",
        ),
        (
            "an international number of 16 digits",
            to_public(1, SIXTEEN),
            "01 01 10 04 04 09 00 00 00 00 00 00 00 00 00 00 00 00 00",
            "p1 4490000000000000",
        ),
        (
            "an international number of 17 digits",
            to_public(1, &TWENTY[..17]),
            "01 01 11 01 02 03 04 05 06 07 08 09 00 01 02 03 04 05 06 07",
            "p1 12345678901234567",
        ),
        (
            "an international number of 20 digits",
            to_public(1, TWENTY),
            "01 01 14 01 02 03 04 05 06 07 08 09 00 01 02 03 04 05 06 07 08 09 00",
            "p1 12345678901234567890",
        ),
    ];
    judged.map(good).into()
}

/// Held for cfb, the first number and speech.
fn good((name, address, number, listed): Judged) -> Dialogue {
    sheet_dialogue(format!("judged at activation alone: {name}"), &guarded()).turns_over(
        7,
        &[held(CFB, 0, SPEECH, address)],
        &format!("01 07 01 01 00 01 {number} 00"),
        &format!("form 1 last 7 count 1\ncfb 0 1 {listed} -\n"),
    )
}
