//! The end and the exchange at an access with three numbers, 501, 502 and 503, and services 1, 3 and
//! 32: what is sent selects numbers and services, and so does what is applied.

use crate::codes::CFU as OF_CFU;
use crate::dialogues::script::{dialogue, Dialogue};
use crate::dialogues::words::{instances, nine_pairs, reply};
use crate::end_step::EntryRecord;
use crate::request_record::RequestRecord;
use crate::table_record::Place;
use crate::transcript::Said;

use super::words::{
    asking, entry, error, idle, interrogation_sent, list_of, listed, place, request, result, CFB,
    CFU, CFU_IN_DOUBT,
};

pub fn dialogues() -> Vec<Dialogue> {
    vec![selected(), other_procedures_stay(), lost_in_between()]
}

/// cfu of 502, all services, to 7.
fn all_of_second() -> RequestRecord {
    request("00 00 00 00 00 03 35 30 32 00*17 00 00 01 37 00*19 00 00*20 00")
}

const ALL_OF_SECOND: &str =
    "A1 18 02 01 01 02 01 07 30 10 0A 01 00 0A 01 00 30 03 80 01 37 80 03 35 30 32";

/// cfu of all numbers, service 3, is taken away.
fn third_service_off() -> RequestRecord {
    request("00 03 01 00*23 00*45")
}

const THIRD_SERVICE_OFF: &str = "A1 10 02 01 02 02 01 08 30 08 0A 01 00 0A 01 03 05 00";

fn held(service: u8) -> Place {
    place(&format!("00 01 {service:02X} 00 00 01 37 00*19 00 00*20"))
}

fn shown(service: u8) -> EntryRecord {
    entry(&format!(
        "00 00 03 35 30 32 00*17 {service:02X} 00 00 00 01 37 00*19 00 00*20"
    ))
}

fn listing(identifier: u8, services: &[u8]) -> Vec<u8> {
    let entries = services.iter();
    let entries = entries.map(|service| listed("80 03 35 30 32", *service, CFU, "80 01 37"));
    list_of(identifier, &entries.collect::<Vec<_>>())
}

impl Dialogue {
    /// The first request: all services of 502, handled by the exchange.
    fn second_number_is_activated(self) -> Self {
        let active = instances(OF_CFU, &[(1, 1), (1, 3), (1, 32)], "7");
        self.sends(7, all_of_second(), ALL_OF_SECOND)
            .then_end(
                idle(1)
                    .waits_for(7, 1, all_of_second())
                    .marked(CFU_IN_DOUBT),
            )
            .hears_hex(ALL_OF_SECOND, reply(&result(1)))
            .then_holds(1, &active)
    }
}

fn selected() -> Dialogue {
    let three = [held(1), held(3), held(32)];
    let two = [held(1), held(32)];
    dialogue(
        "three numbers: all services of one are activated, one service of all is taken away, and a \
         list agrees",
        &nine_pairs(),
    )
    .second_number_is_activated()
    .takes(&result(1))
    .then_end(idle(1).holds(&three))
    .shows(CFU, &[shown(1), shown(3), shown(32)])
    .sends(8, third_service_off(), THIRD_SERVICE_OFF)
    .then_end(
        idle(2)
            .holds(&three)
            .waits_for(8, 1, third_service_off())
            .marked(CFU_IN_DOUBT),
    )
    .shows_doubt(CFU)
    .hears_hex(THIRD_SERVICE_OFF, reply(&result(2)))
    .then_holds(2, &instances(OF_CFU, &[(1, 1), (1, 32)], "7"))
    .takes(&result(2))
    .then_end(idle(2).holds(&two))
    .shows(CFU, &[shown(1), shown(32)])
    .interrogates(CFU, &interrogation_sent(3, CFU))
    .then_end(idle(3).holds(&two).waits_for(11, 1, asking(CFU)))
    .hears_hex(
        &interrogation_sent(3, CFU),
        Said::Replied(listing(3, &[1, 32])),
    )
    .then_last(3)
    .takes_octets(listing(3, &[32, 1]))
    .then_end(idle(3).holds(&two))
    .shows(CFU, &[shown(1), shown(32)])
}

fn other_procedures_stay() -> Dialogue {
    let of_cfb = place("01 02 20 00 00 05 32 34 36 38 30 00*15 00 00*20");
    let shown_cfb = entry("00 00 03 35 30 33 00*17 20 01 00 00 05 32 34 36 38 30 00*15 00 00*20");
    dialogue(
        "three numbers: what is done to cfu leaves cfb known and shown",
        &nine_pairs(),
    )
    .end(idle(0).holds(&[of_cfb]))
    .sends(7, all_of_second(), ALL_OF_SECOND)
    .then_end(
        idle(1)
            .holds(&[of_cfb])
            .waits_for(7, 1, all_of_second())
            .marked(CFU_IN_DOUBT),
    )
    .shows(CFB, &[shown_cfb])
    .shows_doubt(CFU)
    .takes(&result(1))
    .then_end(idle(1).holds(&[held(1), held(3), held(32), of_cfb]))
    .shows(CFB, &[shown_cfb])
    .shows(CFU, &[shown(1), shown(3), shown(32)])
}

/// The deactivation's request is lost, and the same again earns its result.
fn lost_in_between() -> Dialogue {
    let three = [held(1), held(3), held(32)];
    let again = THIRD_SERVICE_OFF.replace("02 01 02 02 01 08", "02 01 03 02 01 08");
    let in_doubt = |used| idle(used).holds(&three).marked(CFU_IN_DOUBT);
    dialogue(
        "three numbers: a lost deactivation is given up and sent again; the late one is a duplicate \
         and is dropped, and a list makes it known",
        &nine_pairs(),
    )
    .second_number_is_activated()
    .takes(&result(1))
    .then_end(idle(1).holds(&three))
    .sends(8, third_service_off(), THIRD_SERVICE_OFF)
    .then_end(in_doubt(2).waits_for(8, 1, third_service_off()))
    .gives_up()
    .then_end(in_doubt(2))
    .sends(8, third_service_off(), &again)
    .then_end(in_doubt(3).waits_for(8, 0, third_service_off()))
    .hears_hex(&again, reply(&result(3)))
    .then_holds(3, &instances(OF_CFU, &[(1, 1), (1, 32)], "7"))
    .hears_hex(THIRD_SERVICE_OFF, reply("A4 06 02 01 02 81 01 00"))
    .takes("A4 06 02 01 02 81 01 00")
    .takes(&result(3))
    .then_end(idle(3).holds(&[held(1), held(32)]).marked(CFU_IN_DOUBT))
    .takes(&error(3, 46))
    .shows_doubt(CFU)
    .interrogates(CFU, &interrogation_sent(4, CFU))
    .then_end(
        idle(4)
            .holds(&[held(1), held(32)])
            .waits_for(11, 0, asking(CFU))
            .marked(CFU_IN_DOUBT),
    )
    .takes_octets(listing(4, &[1, 32]))
    .then_end(idle(4).holds(&[held(1), held(32)]))
    .shows(CFU, &[shown(1), shown(32)])
}
