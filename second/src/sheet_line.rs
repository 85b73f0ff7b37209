//! Lines about night sheets in a dialogue (`write`, `read` and `list`), with what they print.

use crate::canaries::FOR_A_SHEET;
use crate::hexadecimal::joined;
use crate::listing;
use crate::refusal::Refusal;
use crate::sheet;
use crate::table_record::TableRecord;
use crate::transcript::{Situation, Transcript};

/// What is asked for, and what comes of it: a refusal by its number otherwise.
#[derive(Clone, Debug, PartialEq, Eq)]
pub enum SheetLine {
    /// The table there is, as a sheet.
    Write(Result<Vec<u8>, u8>),
    /// A sheet, and the table it gives against the access record.
    Read(Vec<u8>, Result<Box<TableRecord>, u8>),
    /// A sheet, and its listing.
    List(Vec<u8>, Result<String, u8>),
}

impl SheetLine {
    /// As this program writes it.
    pub fn write(now: &Situation) -> Self {
        SheetLine::Write(written(now).map_err(Refusal::number))
    }

    /// As this program reads it.
    pub fn read(now: &Situation, sheet: &[u8]) -> Self {
        let table = read(now, sheet).map(Box::new);
        SheetLine::Read(sheet.to_vec(), table.map_err(Refusal::number))
    }

    /// As this program lists it.
    pub fn list(now: &Situation, sheet: &[u8]) -> Self {
        let listing = listed(now, sheet);
        SheetLine::List(sheet.to_vec(), listing.map_err(Refusal::number))
    }

    /// The same line with what this program makes of it.
    pub fn answered(&self, now: &Situation) -> Self {
        match self {
            SheetLine::Write(_) => SheetLine::write(now),
            SheetLine::Read(sheet, _) => SheetLine::read(now, sheet),
            SheetLine::List(sheet, _) => SheetLine::list(now, sheet),
        }
    }

    /// What is printed, without the newline at its end. Nothing may touch the output outside the
    /// sheet, so `kept` is always expected.
    pub fn printed(&self) -> String {
        match self {
            SheetLine::Write(Ok(sheet)) => format!("wrote {} kept", joined(sheet)),
            SheetLine::Write(Err(number)) => format!("refused {number} kept"),
            SheetLine::Read(_, Ok(table)) => format!("read table {}", joined(&table.octets())),
            SheetLine::List(_, Ok(listing)) => listing.trim_end_matches('\n').to_string(),
            SheetLine::Read(_, Err(number)) | SheetLine::List(_, Err(number)) => {
                format!("refused {number}")
            }
        }
    }

    pub fn tell(&self, lines: &mut Transcript) {
        let (word, sheet) = match self {
            SheetLine::Write(_) => ("write", &[][..]),
            SheetLine::Read(sheet, _) => ("read", &sheet[..]),
            SheetLine::List(sheet, _) => ("list", &sheet[..]),
        };
        lines.asked(word, sheet, &self.printed(), FOR_A_SHEET);
        if let SheetLine::Read(_, Ok(table)) = self {
            lines.now_holds(table);
        }
    }
}

/// Refusals lowest number first: a record is read only after the output is judged.
fn written(now: &Situation) -> Result<Vec<u8>, Refusal> {
    let mut output = vec![0; now.output];
    sheet::size_fits(&output)?;
    let profile = now.profile()?;
    let table = now.table.read()?;
    let length = sheet::write(&mut output, &profile, &table)?;
    output.truncate(length);
    Ok(output)
}

/// The output plays a part, the access record and the table none.
fn listed(now: &Situation, sheet: &[u8]) -> Result<String, Refusal> {
    let mut output = vec![0; now.output];
    let length = listing::list_into(&mut output, sheet)?;
    Ok(String::from_utf8_lossy(&output[..length]).into_owned())
}

fn read(now: &Situation, sheet: &[u8]) -> Result<TableRecord, Refusal> {
    let profile = now.profile()?;
    let table = sheet::read(&profile, sheet)?;
    Ok(TableRecord::of(&table))
}
