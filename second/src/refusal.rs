//! Local refusals by their number, and the lent output they guard.

/// The least output lent for any component.
pub const COMPONENT_OUTPUT: usize = 707;
/// The least output lent for a night sheet.
pub const SHEET_OUTPUT: usize = 1_613;
/// The longest component looked at.
pub const LONGEST_COMPONENT: usize = 1_024;

#[derive(Clone, Copy, Debug, PartialEq, Eq, PartialOrd, Ord)]
pub enum Refusal {
    OutputTooSmall,
    ComponentTooLong,
    BadProfile,
    BadRecord,
    BadCall,
    DiversionLimit,
    RequestOutstanding,
    IdentifiersUsedUp,
    NotASheet,
    BadRequest,
}

impl Refusal {
    /// Document 01's number of the refusal.
    pub fn number(self) -> u8 {
        match self {
            Refusal::OutputTooSmall => 1,
            Refusal::ComponentTooLong => 2,
            Refusal::BadProfile => 3,
            Refusal::BadRecord => 4,
            Refusal::BadCall => 5,
            Refusal::DiversionLimit => 6,
            Refusal::RequestOutstanding => 7,
            Refusal::IdentifiersUsedUp => 8,
            Refusal::NotASheet => 9,
            Refusal::BadRequest => 10,
        }
    }
}

/// The refusal unless the rule holds.
pub fn require(rule: bool, refusal: Refusal) -> Result<(), Refusal> {
    if rule {
        Ok(())
    } else {
        Err(refusal)
    }
}

/// Refusal 1 for any component.
pub fn output_fits(output: &[u8]) -> Result<(), Refusal> {
    require(output.len() >= COMPONENT_OUTPUT, Refusal::OutputTooSmall)
}

/// Refusal 2.
pub fn component_fits(component: &[u8]) -> Result<(), Refusal> {
    require(
        component.len() <= LONGEST_COMPONENT,
        Refusal::ComponentTooLong,
    )
}

/// Writes at the start of the lent output; octets after the written length stay unchanged.
pub fn write_into(output: &mut [u8], octets: &[u8]) -> usize {
    for (place, octet) in output.iter_mut().zip(octets) {
        *place = *octet;
    }
    octets.len().min(output.len())
}
