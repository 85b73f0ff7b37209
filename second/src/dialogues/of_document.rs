//! The samples of document 01 that the exchange answers, octet for octet.

use crate::codes::CFB;
use crate::samples::{instance, sample_profile, ACTIVATION_OF_CFB, INTERROGATION_OF_CFB};

use super::script::{dialogue, Dialogue};
use super::words::{invoke, reply, SPEECH};

pub fn dialogues() -> Vec<Dialogue> {
    let of_cfu = INTERROGATION_OF_CFB.replace("0A 01 01 0A", "0A 01 00 0A");
    vec![
        interrogation_and_activation(),
        dialogue("sample: not subscribed, identifier 1", &sample_profile())
            .hears_hex(&of_cfu, reply("A3 06 02 01 01 02 01 00"))
            .then_last(1),
        dialogue("sample: empty input", &sample_profile())
            .hears_hex("", reply("A4 05 05 00 80 01 02")),
        identifiers(),
    ]
}

/// Last, an interrogation of what was activated; its list is not among the samples.
fn interrogation_and_activation() -> Dialogue {
    let again = INTERROGATION_OF_CFB.replace("A1 10 02 01 01", "A1 10 02 01 03");
    let listed = "A2 22 02 01 03 30 1D 02 01 0B 31 18 30 16 80 05 31 33 35 37 39 \
                  0A 01 01 0A 01 01 30 07 80 05 32 34 36 38 30";
    let name = "sample: interrogation, activation, the latter again";
    dialogue(name, &sample_profile())
        .hears_hex(
            INTERROGATION_OF_CFB,
            reply("A2 0A 02 01 01 30 05 02 01 0B 31 00"),
        )
        .then_last(1)
        .hears_hex(ACTIVATION_OF_CFB, reply("A2 03 02 01 02"))
        .then_holds(2, &[instance(CFB, 0, SPEECH, "24680")])
        .hears_hex(ACTIVATION_OF_CFB, reply("A4 06 02 01 02 81 01 00"))
        .hears_hex(&again, reply(listed))
        .then_last(3)
}

fn identifiers() -> Dialogue {
    let argument = "30 08 0A 01 01 0A 01 00 05 00";
    let ask = |identifier| invoke(&format!("{identifier} 02 01 0B {argument}"));
    let name = "sample: identifiers 128 and -128, and 02 02 00 7F unreadable";
    dialogue(name, &sample_profile())
        .hears(
            ask("02 02 00 80"),
            reply("A2 0B 02 02 00 80 30 05 02 01 0B 31 00"),
        )
        .then_last(128)
        .hears(ask("02 01 80"), reply("A4 06 02 01 80 81 01 00"))
        .hears(ask("02 02 00 7F"), reply("A4 05 05 00 80 01 01"))
}
