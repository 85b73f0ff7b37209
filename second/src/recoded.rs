//! The same elements coded with other lengths than the shortest.

use crate::elements::{length_octets, Reader, CONSTRUCTED};
use crate::random::Random;

/// Each length shortest, with 81, or with 82, as drawn from these; what can't be read as
/// elements is left out.
pub fn recoded(random: &mut Random, octets: &[u8], codings: &[usize]) -> Vec<u8> {
    let mut reader = Reader::over(octets);
    let mut all = Vec::new();
    while let Some(element) = reader.element() {
        let contents = match element.tag & CONSTRUCTED {
            0 => element.contents.to_vec(),
            _ => recoded(random, element.contents, codings),
        };
        let [.., high, low] = contents.len().to_be_bytes();
        all.push(element.tag);
        all.extend(match random.pick(codings) {
            Some(1) if high == 0 => vec![0x81, low],
            Some(1 | 2) => vec![0x82, high, low],
            _ => length_octets(contents.len()),
        });
        all.extend(contents);
    }
    all
}
