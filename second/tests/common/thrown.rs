//! Random accesses, spoiled at times, and the refusals they should earn.

use second::made;
use second::profile::Profile;
use second::random::Random;
use second::refusal::Refusal;
use second::spoiled;
use second::table::Table;

/// The refusal of the first broken rule; the rules stand lowest number first.
pub fn first_refusal(rules: &[(bool, Refusal)]) -> Option<Refusal> {
    rules
        .iter()
        .find(|(broken, _)| *broken)
        .map(|(_, refusal)| *refusal)
}

/// A profile and table, each with whether it was spoiled.
pub fn access(random: &mut Random) -> (Profile, bool, Table, bool) {
    let mut profile = made::profile(random);
    assert!(profile.good(), "{profile:?}");
    let mut table = made::table(random, &profile);
    assert!(table.good(&profile), "{table:?}");
    let bad_table = random.once_in(10);
    if bad_table {
        spoiled::spoil_table(random, &profile, &mut table);
        assert!(!table.good(&profile), "{table:?}");
    }
    let bad_profile = random.once_in(10);
    if bad_profile {
        spoiled::spoil_profile(random, &mut profile);
        assert!(!profile.good(), "{profile:?}");
    }
    (profile, bad_profile, table, bad_table)
}
