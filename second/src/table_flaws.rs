//! The causes of refusal 4 that a table record can be made with, one at a time.

use crate::sheet_fields::Field;

#[derive(Clone, Copy, Debug, PartialEq, Eq)]
pub enum Flaw {
    LastTooLarge,
    /// Past the places.
    CountTooLarge,
    /// Past the instances, so that places of zeros are counted.
    BlankCounted,
    /// A procedure, number or service that there is none of.
    Range(Field),
    /// Good by itself, but the profile has no such procedure, number or service.
    NotTheProfiles(Field),
    ForwardedTo,
    Subaddress,
    /// The same procedure, number and service twice, be it with the same address.
    EqualNeighbours,
    /// Of the first three fields of neighbours, the first that differs descends.
    Descends(Field),
    NineOfAProcedure,
    /// Any octets but for one count.
    Octets,
    /// One octet of a good record changed, which may leave it good.
    OneOctet,
}

/// The one that may leave a record good comes last.
pub const FLAWS: [(Flaw, &str); 18] = [
    (Flaw::LastTooLarge, "last handled over 32,767"),
    (Flaw::CountTooLarge, "count over 24"),
    (Flaw::BlankCounted, "blank places counted"),
    (Flaw::Range(Field::Procedure), "procedure over 2"),
    (Flaw::Range(Field::Index), "number over 3"),
    (Flaw::Range(Field::Service), "service outside the sixteen"),
    (
        Flaw::NotTheProfiles(Field::Procedure),
        "procedure not subscribed",
    ),
    (
        Flaw::NotTheProfiles(Field::Index),
        "number past the profile's",
    ),
    (
        Flaw::NotTheProfiles(Field::Service),
        "service not subscribed",
    ),
    (Flaw::ForwardedTo, "bad forwarded-to number"),
    (Flaw::Subaddress, "subaddress over 20 octets"),
    (Flaw::EqualNeighbours, "equal neighbours"),
    (Flaw::Descends(Field::Procedure), "procedure descends"),
    (Flaw::Descends(Field::Index), "number descends"),
    (Flaw::Descends(Field::Service), "service descends"),
    (Flaw::NineOfAProcedure, "nine of a procedure"),
    (Flaw::Octets, "any octets"),
    (Flaw::OneOctet, "one octet changed"),
];

const UNCERTAIN: usize = 1;

/// Those that are refused 4 whatever the profile and the table they were made from.
pub const CERTAIN_FLAWS: &[(Flaw, &str)] = FLAWS.split_at(FLAWS.len() - UNCERTAIN).0;
