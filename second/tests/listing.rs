//! The listing and the program that prints it.

mod common;

use std::io::Write;
use std::process::{Command, Stdio};

use common::*;
use second::listing::printed;

const SHEET: &str = "01 02 01 01 00 01 00 00 05 02 04 06 08 00 00";

#[test]
fn the_listing_of_every_form() {
    let sheet = "01 AC 02 03 00 00 01 00 00 01 00 01 0F \
                 01 01 20 01 06 02 00 09 02 FF 01 00 \
                 02 03 2A 01 00 01 05 00";
    assert_eq!(
        printed(&octets(sheet)),
        "form 1 last 300 count 3\ncfu 0 1 u 0 0f\ncfb 1 32 p6 09 ff00\ncfnr 3 42 p0 5 -\n"
    );
    assert_eq!(printed(&octets("01 00 00")), "form 1 last 0 count 0\n");
    assert_eq!(printed(&octets("01 00 01")), "refused 9\n");
}

fn run(arguments: &[&str], input: &[u8]) -> (i32, String) {
    let mut child = Command::new(env!("CARGO_BIN_EXE_second"))
        .args(arguments)
        .stdin(Stdio::piped())
        .stdout(Stdio::piped())
        .stderr(Stdio::piped())
        .spawn()
        .expect("started");
    // The program may end without having read its input.
    let _ = child.stdin.take().expect("input").write_all(input);
    let output = child.wait_with_output().expect("finished");
    let text = String::from_utf8(output.stdout).expect("text");
    (output.status.code().unwrap_or(-1), text)
}

#[test]
fn the_program_lists_the_sheet_on_standard_input() {
    let listed = "form 1 last 2 count 1\ncfb 0 1 u 24680 -\n".to_string();
    assert_eq!(run(&["list"], &octets(SHEET)), (0, listed));
    let refused = "refused 9\n".to_string();
    assert_eq!(run(&["list"], &[]), (0, refused.clone()));
    assert_eq!(run(&["list"], &[0x80; 100_000]), (0, refused));
}

#[test]
fn the_program_helps_and_soaks() {
    let (code, text) = run(&["help"], &[]);
    assert_eq!(code, 0);
    assert!(text.contains("second soak SEEDS STEPS"));
    assert_eq!(run(&["what"], &[]), (2, String::new()));
    assert_eq!(run(&["soak", "x", "1"], &[]), (2, String::new()));
    assert_eq!(run(&["soak", "40", "2000"], &[]).0, 0);
    // Kinds that never came about.
    let (code, text) = run(&["soak", "1", "1"], &[]);
    assert_eq!(code, 1);
    assert!(text.contains("never reached: given up\n"));
}
