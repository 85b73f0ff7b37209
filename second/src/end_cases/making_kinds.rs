//! The ways of making what arrives that the cases of the end must go, besides those for one cause of
//! doubt each.

use super::kinds::Reached;
use super::makings::Making;

pub const MAKINGS: [(Reached, &str); 19] = [
    (Reached::Made(Making::Path), "made: over the path"),
    (Reached::Made(Making::Result), "made: result"),
    (Reached::Made(Making::Error), "made: error"),
    (Reached::Made(Making::Reject), "made: reject"),
    (Reached::Made(Making::Recoded), "made: needless lengths"),
    (
        Reached::Made(Making::OtherIdentifier),
        "made: another identifier",
    ),
    (
        Reached::Made(Making::NullIdentifier),
        "made: identifier NULL",
    ),
    (Reached::Made(Making::BadIdentifier), "made: bad identifier"),
    (
        Reached::Made(Making::OtherTag),
        "made: under another outer tag",
    ),
    (Reached::Made(Making::Loose), "made: loosely built"),
    (Reached::Made(Making::Octets), "made: any octets"),
    (Reached::Made(Making::Scratched), "made: one octet changed"),
    (
        Reached::Made(Making::Damaged),
        "made: cut off or damaged, lengths left",
    ),
    (
        Reached::Made(Making::CutInside),
        "made: cut off, lengths put right",
    ),
    (
        Reached::Made(Making::Replaced),
        "made: each element replaced",
    ),
    (Reached::Made(Making::Sized(1_023)), "made: 1,023 octets"),
    (Reached::Made(Making::Sized(1_024)), "made: 1,024 octets"),
    (Reached::Made(Making::Sized(1_025)), "made: 1,025 octets"),
    (Reached::Made(Making::Sized(1_026)), "made: 1,026 octets"),
];
