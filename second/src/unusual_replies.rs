//! Replies to an interrogation with identifier 5 that are damaged, of another shape, or just
//! unusual, for the cases of lists.

use crate::answer::{TAG_ERROR, TAG_REJECT, TAG_RESULT};
use crate::damaged::Dissected;
use crate::elements::element;
use crate::hexadecimal::octets;

/// A good list of two entries for identifier 5. Its elements in the order their tags come: 0
/// component, 1 identifier, 2 sequence, 3 operation, 4 list; 5 entry: 6 number, 7 service, 8
/// procedure, 9 address, 10 its number; 11 entry: 12 number, 13 type, 14 digits, 15 service, 16
/// procedure, 17 address, 18 its number, 19 subaddress.
const SAMPLE: &str = "A2 32 02 01 05 30 2D 02 01 0B 31 28 30 0E 80 01 37 0A 01 01 0A 01 01 30 03 \
    80 01 32 30 16 A1 06 0A 01 01 12 01 34 0A 01 20 0A 01 01 30 06 80 01 35 04 01 C8";
/// What stands in place of an element of the sample; a star for 20 octets, good as digits.
const REPLACED: [(usize, &str); 12] = [
    (1, "02 01 04|02 01 06|02 01 FB|02 02 01 05|02 02 00 05"),
    (1, "02 03 00 00 05|05 00|02 81 01 05"),
    (3, "02 01 07|02 01 0A|02 02 01 0B|02 02 00 0B|06 01 0B"),
    (4, "31 00|31 82 00 00|31 80|31 83 00 00 00"),
    (5, "30 00|C0 00|30 0C 80 01 37 0A 01 01 0A 01 01 80 01 32"),
    (
        6,
        "05 00|82 00|83 02 FF FF|84 81 01 37|A5 02 30 05|88 00|86 01 37|A8 00",
    ),
    (6, "80 00|80 01 20|80 01 3A|80 14 *|80 15 * 30"),
    (7, "0A 01 00|0A 01 FF|0A 00|0A 02 00 01|02 01 01"),
    (8, "0A 01 00|0A 01 80"),
    (
        10,
        "82 01 32|83 00|84 00|A5 00|88 01 32|05 00|80 02 32 20|80 81 01 37",
    ),
    (13, "0A 01 00|0A 01 06|0A 01 05|0A 01 07"),
    (19, "04 00|30 00|30 03 04 01 C8|C4 01 C8|04 14 *|04 15 * FF"),
];
/// What follows identifier 5 in an error, a reject and a result.
const ANSWERED: [(u8, &str); 5] = [
    (
        TAG_ERROR,
        "02 01 00|02 01 2E|02 01 7F|02 02 00 80|02 02 01 2C",
    ),
    (
        TAG_ERROR,
        "02 02 7F FF|02 01 FF|02 01 80|02 02 FF 7F|02 02 80 00",
    ),
    (
        TAG_ERROR,
        "02 82 00 01 03||02 00|02 02 00 2E|02 02 FF 80|06 01 2E",
    ),
    (TAG_REJECT, "81 01 00|80 01 02||FF FF FF"),
    (TAG_RESULT, "|30 05 02 01 0B 31|05 00|31 00|02 01 0B 31 00"),
];
/// Components that have less in common with the sample.
const OTHERS: &str = "|A2 00|A2 80 02 01 05 00 00|A2 83 00 00 03 02 01 05|\
    A2 0A 02 01 05 30 05 02 01 0B 31 00 00|A1 0B 02 01 05 02 01 0B 30 03 0A 01 01|\
    BF 03 02 01 05|A3 06 02 01 06 02 01 00|A3 07 02 02 00 05 02 01 00|\
    A3 07 02 01 05 02 01 00|A3 81 06 02 01 05 02 01 03|A3 09 02 01 05 02 01 2E 02 01 2E|\
    A3 08 02 01 05 02 01 2E C0 00|A3 06 02 01 05 02 02 2E|A3 08 02 01 05 02 03 00 80 00|\
    A4 06 02 01 04 81 01 00|A4 05 05 00 80 01 02|A4 07 02 01 05 81 01 00|\
    A4 82 00 07 02 81 01 05 81 01 00";

/// Every damaged sample, and the other components.
pub fn unusual_replies() -> Vec<Vec<u8>> {
    let mut replies = damaged_samples();
    for (tag, afters) in ANSWERED {
        let contents = stretches(afters).map(|after| [&[0x02, 0x01, 0x05], &after[..]].concat());
        replies.extend(contents.map(|contents| element(tag, &contents)));
    }
    replies.extend(stretches(OTHERS));
    replies
}

/// The octets of each stretch of hexadecimal text between bars.
fn stretches(text: &str) -> impl Iterator<Item = Vec<u8>> + '_ {
    let twenty = "30 31 32 33 34 35 36 37 38 39 39 38 37 36 35 34 33 32 31 30";
    text.split('|')
        .map(move |stretch| octets(&stretch.replace('*', twenty)))
}

/// The sample damaged everywhere, and with some of its elements replaced.
fn damaged_samples() -> Vec<Vec<u8>> {
    let sample = Dissected::of(octets(SAMPLE));
    let mut damaged = sample.damaged();
    for (at, others) in REPLACED {
        damaged.extend(stretches(others).map(|other| sample.replaced(at, &other)));
    }
    damaged
}
