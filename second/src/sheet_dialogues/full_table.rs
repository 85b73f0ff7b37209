//! The longest sheet: 5 octets, then for each of 24 instances 67, with 20 digits and 20 octets of
//! subaddress that take two each.

use crate::codes::PROCEDURES;
use crate::dialogues::script::Dialogue;
use crate::dialogues::words::{held, to_public, with_subaddress, TWENTY};
use crate::table::Instance;

use super::words::{access, sheet_dialogue};

/// Number index and service of eight instances of each procedure, ascending.
const PAIRS: [(i32, i32); 8] = [
    (0, 1),
    (0, 42),
    (1, 2),
    (1, 33),
    (2, 5),
    (2, 32),
    (3, 1),
    (3, 42),
];

const SUBADDRESS: [u8; 20] = [
    0x80, 0x81, 0x8F, 0x90, 0x9F, 0xA0, 0xAA, 0xAF, 0xB0, 0xBC, 0xC0, 0xCF, 0xD0, 0xDE, 0xE0, 0xEF,
    0xF0, 0xF7, 0xFE, 0xFF,
];
const SUBADDRESS_IN_GROUPS: &str = "80 01 81 01 8F 01 90 01 9F 01 A0 01 AA 01 AF 01 B0 01 BC 01 \
                                    C0 01 CF 01 D0 01 DE 01 E0 01 EF 01 F0 01 F7 01 FE 01 FF 01";
const SUBADDRESS_LISTED: &str = "80818f909fa0aaafb0bcc0cfd0dee0eff0f7feff";
const TWENTY_DIGITS: &str = "01 02 03 04 05 06 07 08 09 00 01 02 03 04 05 06 07 08 09 00";

pub fn dialogues() -> Vec<Dialogue> {
    vec![
        sheet_dialogue("a full table takes 1,613 octets", &access()).turns_over(
            32_767,
            &instances(),
            &sheet(),
            &listing(),
        ),
        sheet_dialogue("a full table into 1,614 and 2,048 octets", &access())
            .table(32_767, &instances())
            .output(1_614)
            .writes(&sheet())
            .output(2_048)
            .writes(&sheet()),
        sheet_dialogue("a full table, one octet short and one too many", &access())
            .table(0, &instances()[..1])
            .refuses(&sheet()[..sheet().len() - 3])
            .refuses(&format!("{} 00", sheet()))
            .reads(&sheet(), 32_767, &instances()),
    ]
}

fn each<T>(made: impl Fn(i32, i32, i32) -> T) -> Vec<T> {
    let places = PROCEDURES
        .iter()
        .flat_map(|procedure| PAIRS.map(|(number, service)| (*procedure, number, service)));
    places
        .map(|(procedure, number, service)| made(procedure, number, service))
        .collect()
}

fn instances() -> Vec<Instance> {
    let address = with_subaddress(to_public(6, TWENTY), &SUBADDRESS);
    each(|procedure, number, service| held(procedure, number, service, address.clone()))
}

fn sheet() -> String {
    let address = format!("01 06 14 {TWENTY_DIGITS} 14 {SUBADDRESS_IN_GROUPS}");
    let instances = each(|procedure, number, service| {
        format!(" {procedure:02X} {number:02X} {service:02X} {address}")
    });
    format!("01 FF FF 01 18{}", instances.concat())
}

fn listing() -> String {
    let lines = each(|procedure, number, service| {
        let name = ["cfu", "cfb", "cfnr"][procedure as usize];
        format!("{name} {number} {service} p6 {TWENTY} {SUBADDRESS_LISTED}\n")
    });
    format!("form 1 last 32767 count 24\n{}", lines.concat())
}
