//! Octets as upper-case hexadecimal text.

const DIGITS: [char; 16] = [
    '0', '1', '2', '3', '4', '5', '6', '7', '8', '9', 'A', 'B', 'C', 'D', 'E', 'F',
];

/// The octets of hexadecimal text with spaces between them.
pub fn octets(spaced: &str) -> Vec<u8> {
    let pairs = spaced.split_whitespace();
    pairs
        .filter_map(|pair| u8::from_str_radix(pair, 16).ok())
        .collect()
}

/// The octets of upper-case hexadecimal text without spaces; `None` for any other text.
pub fn read(joined: &str) -> Option<Vec<u8>> {
    let digits: Option<Vec<u8>> = joined.chars().map(digit).collect();
    let digits = digits.filter(|digits| digits.len().is_multiple_of(2))?;
    let (pairs, _) = digits.as_chunks::<2>();
    Some(pairs.iter().map(|[high, low]| high << 4 | low).collect())
}

/// At most so many of them.
pub fn read_at_most(joined: &str, most: usize) -> Option<Vec<u8>> {
    read(joined).filter(|octets| octets.len() <= most)
}

fn digit(symbol: char) -> Option<u8> {
    let value = DIGITS.iter().position(|digit| *digit == symbol)?;
    u8::try_from(value).ok()
}

/// Two digits an octet, without spaces.
pub fn joined(octets: &[u8]) -> String {
    let mut text = String::with_capacity(2 * octets.len());
    for octet in octets {
        text.push(DIGITS[usize::from(octet >> 4)]);
        text.push(DIGITS[usize::from(octet & 0x0F)]);
    }
    text
}
