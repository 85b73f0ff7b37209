//! Wrong ends and exchanges in a soak: each must be caught, by demand 3 alone as well.

use second::expected::{KNOWN_IS_FALSE, LISTED_IS_UNKNOWN};
use second::soak::{soak_of, Fault};
use second::tally::MustReach;
use second::world::Checks;
use second::wrong::{Wrong, WRONGS};

const SEEDS: u64 = 100;
const STEPS: u64 = 400;

fn fault(wrong: Wrong, checks: Checks) -> Fault {
    match soak_of(Some(wrong), checks, SEEDS, STEPS) {
        Ok(_) => panic!("{wrong:?} is not caught by {checks:?}"),
        Err(fault) => fault,
    }
}

/// The one that doubts everything never shows a wrong picture: only the last sentence catches it.
#[test]
fn demand_three_alone_catches_each_by_its_sentence() {
    for (wrong, _) in WRONGS {
        let (checks, sentence) = match wrong {
            Wrong::DoubtsAll => (Checks::DemandThree, LISTED_IS_UNKNOWN),
            _ => (Checks::Known, KNOWN_IS_FALSE),
        };
        assert_eq!(fault(wrong, checks).what, sentence, "{wrong:?}");
    }
    assert!(soak_of(Some(Wrong::DoubtsAll), Checks::Known, SEEDS, STEPS).is_ok());
}

/// Each check is made besides those before it, on the same events.
#[test]
fn more_checks_catch_each_no_later() {
    for (wrong, _) in WRONGS {
        let (all, three) = (fault(wrong, Checks::All), fault(wrong, Checks::DemandThree));
        let moments = [all, three].map(|fault| (fault.seed, fault.step));
        assert!(moments[0] <= moments[1], "{wrong:?}: {moments:?}");
    }
}

#[test]
fn the_right_ones_pass_the_same_soak() {
    for checks in [Checks::Known, Checks::DemandThree, Checks::All] {
        let tally = soak_of(None, checks, SEEDS, STEPS).unwrap_or_else(|fault| panic!("{fault:?}"));
        assert_eq!(tally.never_reached(), Vec::<String>::new());
    }
}

/// Seven ends and four exchanges, each with its own name and number.
#[test]
fn each_has_its_name_and_number() {
    for (at, (wrong, name)) in WRONGS.iter().enumerate() {
        assert_eq!(Wrong::named(&format!("wrong-{}", at + 1)), Some(*wrong));
        let subject = if at < 7 {
            "an end that "
        } else {
            "an exchange that "
        };
        assert!(name.starts_with(subject), "{name}");
        assert!(WRONGS[..at].iter().all(|(_, other)| other != name));
    }
    for word in ["wrong-0", "wrong-12", "wrong-", "wrong", "1", "wrong--1"] {
        assert_eq!(Wrong::named(word), None, "{word}");
    }
}
