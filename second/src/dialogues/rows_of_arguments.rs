//! The row "argument not one last element as in clause 7.1 and the rules above", part by part.

use crate::answer::Problem::Invoke;

use super::script::{dialogue, Dialogue};
use super::words::{invoke, invoke_with, open_access, reject, TWENTY};

/// Activation, deactivation and interrogation as octets.
const ASKING: [&str; 3] = ["07", "08", "0B"];
const ADDRESS: &str = "30 03 80 01 35";

pub fn dialogues() -> Vec<Dialogue> {
    let groups = [
        ("the argument as a whole (A15)", whole_argument()),
        ("procedure (A22, A23)", procedures()),
        ("basic service (A22, A23, A25)", services()),
        ("address (A16, A21)", addresses()),
        ("unknown number (A22)", numbers(&unknown_numbers())),
        ("public number (A16, A22, A23)", numbers(&public_numbers())),
        ("tags that are no number (A20)", numbers(&no_numbers())),
        ("subaddress (A21, A26)", subaddresses()),
        (
            "served number, also without MSN (A23, A24)",
            served_numbers(),
        ),
        ("after the served number (A16)", trailing()),
    ];
    let talks = groups.into_iter().map(|(part, components)| {
        let name = format!("argument unreadable: {part}");
        dialogue(name, &open_access()).hears_each(components, &reject(1, Invoke(2)))
    });
    talks.collect()
}

fn whole_argument() -> Vec<Vec<u8>> {
    let good = "30 08 0A 01 01 0A 01 00 05 00";
    let after_operation = [
        String::new(),
        format!("{good} 05 00"),
        format!("{good} C0 00"),
        good.replace("30 08", "31 08"),
        good.replace("30 08", "10 08"),
        good.replace("30 08", "30 80"),
        good.replace("30 08", "30 09"),
        good.replace("30 08", "30 07"),
        "30 00".to_string(),
        "05 00".to_string(),
    ];
    let invokes = after_operation.map(|after| invoke(&format!("02 01 01 02 01 0B {after}")));
    invokes.to_vec()
}

fn procedures() -> Vec<Vec<u8>> {
    let bad = [
        "0A 01 03",
        "0A 01 FF",
        "0A 00",
        "0A 02 00 01",
        "02 01 01",
        "2A 03 0A 01 01",
    ];
    let components = ASKING.iter().flat_map(|operation| {
        bad.map(|procedure| with_procedure(operation, procedure))
            .into_iter()
    });
    components.collect()
}

fn with_procedure(operation: &str, procedure: &str) -> Vec<u8> {
    let address = if operation == "07" { ADDRESS } else { "" };
    invoke_with(operation, &format!("{procedure} 0A 01 01 {address} 05 00"))
}

fn services() -> Vec<Vec<u8>> {
    let bad = ["0A 01 06", "0A 01 1F", "0A 01 2B", "0A 01 FF", "0A 00"];
    let mut components = Vec::new();
    for service in bad {
        components.push(invoke_with(
            "07",
            &format!("0A 01 01 {service} {ADDRESS} 05 00"),
        ));
        components.push(invoke_with("08", &format!("0A 01 01 {service} 05 00")));
        components.push(invoke_with("0B", &format!("0A 01 01 {service} 05 00")));
    }
    // Only an interrogation may omit it.
    components.push(invoke_with("07", &format!("0A 01 01 {ADDRESS} 05 00")));
    components.push(invoke_with("08", "0A 01 01 05 00"));
    components.push(invoke_with("0B", "0A 01 01 02 01 01 05 00"));
    components
}

fn addressed(addresses: &[&str]) -> Vec<Vec<u8>> {
    let with = |address| invoke_with("07", &format!("0A 01 01 0A 01 01 {address} 05 00"));
    addresses.iter().map(with).collect()
}

fn addresses() -> Vec<Vec<u8>> {
    addressed(&[
        "",
        "30 00",
        "80 01 35",
        "31 03 80 01 35",
        "30 05 80 01 35 C0 00",
        "30 05 80 01 35 05 00",
        "30 08 80 01 35 04 01 09 C0 00",
        "30 07 80 01 35 30 00 05 00",
        "30 03 04 01 09",
        "30 04 80 01 35 80",
        "30 80 80 01 35",
    ])
}

/// Each as the number of the address and as the served number.
fn numbers(numbers: &[String]) -> Vec<Vec<u8>> {
    let mut components = Vec::new();
    for number in numbers {
        let length = number.split_whitespace().count();
        let address = format!("30 {length:02X} {number}");
        components.extend(addressed(&[&address]));
        components.push(invoke_with("0B", &format!("0A 01 01 0A 01 01 {number}")));
    }
    components
}

/// The characters of digits as octets in hex.
fn characters(digits: &str) -> String {
    let octets = digits.bytes().map(|octet| format!("{octet:02X}"));
    octets.collect::<Vec<_>>().join(" ")
}

fn unknown_numbers() -> Vec<String> {
    let twenty = characters(TWENTY);
    vec![
        "80 00".to_string(),
        format!("80 15 {twenty} 31"),
        "80 01 20".to_string(),
        "80 02 35 20".to_string(),
        "80 01 2F".to_string(),
        "80 01 3A".to_string(),
        "80 01 B5".to_string(),
        "A0 03 12 01 35".to_string(),
        "12 01 35".to_string(),
    ]
}

fn public_numbers() -> Vec<String> {
    let twenty = characters(TWENTY);
    let contents = [
        ("06", "0A 01 05 12 01 35"),
        ("06", "0A 01 07 12 01 35"),
        ("06", "0A 01 FF 12 01 35"),
        ("05", "0A 00 12 01 35"),
        ("03", "12 01 35"),
        ("03", "0A 01 01"),
        ("05", "0A 01 01 12 00"),
        ("06", "0A 01 01 12 01 20"),
        ("06", "0A 01 01 80 01 35"),
        ("08", "0A 01 01 32 03 12 01 35"),
        ("08", "0A 01 01 12 01 35 C0 00"),
        ("06", "12 01 35 0A 01 01"),
        ("00", ""),
    ];
    let mut numbers: Vec<String> = contents
        .map(|(length, contents)| format!("A1 {length} {contents}"))
        .to_vec();
    numbers.push(format!("A1 1A 0A 01 01 12 15 {twenty} 31"));
    numbers.push("81 06 0A 01 01 12 01 35".to_string());
    numbers
}

fn no_numbers() -> Vec<String> {
    let tags = [
        "85", "86", "87", "89", "A2", "A3", "A4", "A6", "A8", "C0", "04",
    ];
    tags.map(|tag| format!("{tag} 01 35")).to_vec()
}

fn subaddresses() -> Vec<Vec<u8>> {
    let twenty_one = format!("30 1A 80 01 35 04 15 {} 31", characters(TWENTY));
    addressed(&[
        "30 05 80 01 35 04 00",
        &twenty_one,
        "30 08 80 01 35 24 03 04 01 09",
        "30 06 80 01 35 10 01 09",
        // A26: the fault of shape before errors 11 and 12.
        "30 04 82 00 04 00",
        "30 07 82 00 30 00 04 01 09",
    ])
}

fn served_numbers() -> Vec<Vec<u8>> {
    let bad = ["", "05 01 00", "25 00", "0A 01 01", "05 80"];
    let asked = |served: &&str| {
        [
            invoke_with("07", &format!("0A 01 01 0A 01 01 {ADDRESS} {served}")),
            invoke_with("08", &format!("0A 01 01 0A 01 01 {served}")),
            invoke_with("0B", &format!("0A 01 01 0A 01 01 {served}")),
        ]
    };
    bad.iter().flat_map(asked).collect()
}

fn trailing() -> Vec<Vec<u8>> {
    let bad = [
        "04 00",
        "05 00",
        "30 00",
        "80 01 35",
        "41 00",
        "C0 00 05 00",
        "C0",
        "C0 01",
        "C0 80",
        "DF 01 00",
        "FF 01 00",
    ];
    let mut components: Vec<Vec<u8>> = bad
        .map(|after| invoke_with("0B", &format!("0A 01 01 0A 01 01 05 00 {after}")))
        .to_vec();
    // Private-class elements are skipped nowhere else.
    components.push(invoke_with("0B", "0A 01 01 0A 01 01 C0 00 05 00"));
    components.push(invoke_with("0B", "0A 01 01 C0 00 0A 01 01 05 00"));
    components.push(invoke_with("0B", "C0 00 0A 01 01 0A 01 01 05 00"));
    components
}
