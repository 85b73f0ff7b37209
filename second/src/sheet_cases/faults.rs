//! The causes of refusal 9 that a sheet can be made with, one at a time.

use crate::sheet_fields::Field;

#[derive(Clone, Copy, Debug, PartialEq, Eq)]
pub enum Fault {
    /// A field out of its range. Of a count or length: past it, with as many digits or octets.
    Range(Field),
    CountTooSmall,
    CountTooLarge,
    ServiceZero,
    TypeOfUnknown,
    NoDigits,
    DigitCharacters,
    NineOfAProcedure,
    EqualNeighbours,
    /// Of the first three fields of neighbours, the first that differs descends.
    Descends(Field),
    NotShortest(Field),
    /// More groups than any field's range has.
    ManyGroups(Field),
    Cut,
    AfterTheEnd,
    Empty,
    /// Good by form, but the profile has no such procedure, number or service.
    NotTheProfiles(Field),
}

/// Those of the profile come last.
pub const FAULTS: [(Fault, &str); 52] = [
    (Fault::Range(Field::Form), "form not 1"),
    (Fault::Range(Field::Last), "last handled over 32,767"),
    (Fault::CountTooSmall, "instance count too small"),
    (Fault::CountTooLarge, "instance count too large"),
    (Fault::Range(Field::Procedure), "procedure over 2"),
    (Fault::Range(Field::Index), "number index over 3"),
    (Fault::ServiceZero, "service 0"),
    (Fault::Range(Field::Service), "service outside the sixteen"),
    (Fault::Range(Field::NumberForm), "number of another form"),
    (Fault::TypeOfUnknown, "unknown form with a type"),
    (Fault::Range(Field::Type), "public type 5, 7 or more"),
    (Fault::NoDigits, "digit count 0"),
    (Fault::Range(Field::DigitCount), "digit count over 20"),
    (Fault::Range(Field::Digit), "digit over 9"),
    (Fault::DigitCharacters, "digits as characters"),
    (
        Fault::Range(Field::SubaddressLength),
        "subaddress length over 20",
    ),
    (Fault::Range(Field::Octet), "subaddress octet over 255"),
    (Fault::NineOfAProcedure, "nine of a procedure"),
    (Fault::EqualNeighbours, "equal neighbours"),
    (Fault::Descends(Field::Procedure), "procedure descends"),
    (Fault::Descends(Field::Index), "number index descends"),
    (Fault::Descends(Field::Service), "service descends"),
    (Fault::NotShortest(Field::Form), "not shortest: form"),
    (Fault::NotShortest(Field::Last), "not shortest: last"),
    (Fault::NotShortest(Field::Count), "not shortest: count"),
    (
        Fault::NotShortest(Field::Procedure),
        "not shortest: procedure",
    ),
    (Fault::NotShortest(Field::Index), "not shortest: index"),
    (Fault::NotShortest(Field::Service), "not shortest: service"),
    (
        Fault::NotShortest(Field::NumberForm),
        "not shortest: form of the number",
    ),
    (Fault::NotShortest(Field::Type), "not shortest: type"),
    (
        Fault::NotShortest(Field::DigitCount),
        "not shortest: digit count",
    ),
    (Fault::NotShortest(Field::Digit), "not shortest: digit"),
    (
        Fault::NotShortest(Field::SubaddressLength),
        "not shortest: subaddress length",
    ),
    (Fault::NotShortest(Field::Octet), "not shortest: octet"),
    (Fault::ManyGroups(Field::Form), "many groups: form"),
    (Fault::ManyGroups(Field::Last), "many groups: last"),
    (Fault::ManyGroups(Field::Count), "many groups: count"),
    (
        Fault::ManyGroups(Field::Procedure),
        "many groups: procedure",
    ),
    (Fault::ManyGroups(Field::Index), "many groups: index"),
    (Fault::ManyGroups(Field::Service), "many groups: service"),
    (
        Fault::ManyGroups(Field::NumberForm),
        "many groups: form of the number",
    ),
    (Fault::ManyGroups(Field::Type), "many groups: type"),
    (
        Fault::ManyGroups(Field::DigitCount),
        "many groups: digit count",
    ),
    (Fault::ManyGroups(Field::Digit), "many groups: digit"),
    (
        Fault::ManyGroups(Field::SubaddressLength),
        "many groups: subaddress length",
    ),
    (Fault::ManyGroups(Field::Octet), "many groups: octet"),
    (Fault::Cut, "cut"),
    (Fault::AfterTheEnd, "octets after the end"),
    (Fault::Empty, "empty input"),
    (
        Fault::NotTheProfiles(Field::Procedure),
        "procedure not subscribed",
    ),
    (
        Fault::NotTheProfiles(Field::Index),
        "number index past the profile's",
    ),
    (
        Fault::NotTheProfiles(Field::Service),
        "service not subscribed",
    ),
];

const OF_THE_PROFILE: usize = 3;

/// Those that the listing refuses too.
pub const FAULTS_OF_FORM: &[(Fault, &str)] = FAULTS.split_at(FAULTS.len() - OF_THE_PROFILE).0;
