//! The listing of a sheet, which takes form rules without a profile.

use std::fmt::Write;

use crate::codes::{CFB, CFU};
use crate::numbers::UNKNOWN;
use crate::refusal::{require, write_into, Refusal};
use crate::sheet::read_form;
use crate::table::{Instance, Table};

/// The longest listing: 27 for the first line, then 8 lines each of 74 (cfu, cfb) and 75 (cfnr),
/// newlines counted (A76).
pub const LONGEST_LISTING: usize = 27 + 16 * 74 + 8 * 75;

/// The text, all or nothing (A70): a sheet that isn't one is refusal 9.
pub fn list(sheet: &[u8]) -> Result<String, Refusal> {
    read_form(sheet).map(|table| text(&table))
}

/// The listing into lent output; refusals 1, 9.
pub fn list_into(output: &mut [u8], sheet: &[u8]) -> Result<usize, Refusal> {
    require(output.len() >= LONGEST_LISTING, Refusal::OutputTooSmall)?;
    let text = list(sheet)?;
    Ok(write_into(output, text.as_bytes()))
}

/// What the listing program prints for this sheet.
pub fn printed(sheet: &[u8]) -> String {
    match list(sheet) {
        Ok(text) => text,
        Err(refusal) => format!("refused {}\n", refusal.number()),
    }
}

fn text(table: &Table) -> String {
    let mut text = format!(
        "form 1 last {} count {}\n",
        table.last,
        table.instances.len()
    );
    for instance in &table.instances {
        text.push_str(&line(instance));
    }
    text
}

fn line(instance: &Instance) -> String {
    let procedure = match instance.procedure {
        CFU => "cfu",
        CFB => "cfb",
        _ => "cfnr",
    };
    let number = &instance.address.number;
    let form = if number.form == UNKNOWN {
        "u".to_string()
    } else {
        format!("p{}", number.number_type)
    };
    let digits: String = number
        .digits
        .iter()
        .map(|digit| char::from(*digit))
        .collect();
    format!(
        "{procedure} {} {} {form} {digits} {}\n",
        instance.number,
        instance.service,
        hex(instance.address.subaddress.octets())
    )
}

/// Lowercase hex, or - for none.
fn hex(octets: &[u8]) -> String {
    if octets.is_empty() {
        return "-".to_string();
    }
    octets.iter().fold(String::new(), |mut hex, octet| {
        // Writing to a string cannot fail.
        let _ = write!(hex, "{octet:02x}");
        hex
    })
}
