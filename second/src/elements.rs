//! Elements of the basic encoding rules as document 01 narrows them: tags, lengths, integers,
//! enumerated values, and the skipping of private-class elements.

pub const TAG_INTEGER: u8 = 0x02;
pub const TAG_OCTET_STRING: u8 = 0x04;
pub const TAG_NULL: u8 = 0x05;
pub const TAG_ENUMERATED: u8 = 0x0A;
pub const TAG_NUMERIC_STRING: u8 = 0x12;
pub const TAG_SEQUENCE: u8 = 0x30;
pub const TAG_SET: u8 = 0x31;

const LOW_FIVE_BITS: u8 = 0x1F;
pub const CONSTRUCTED: u8 = 0x20;
const CLASS: u8 = 0xC0;
const PRIVATE: u8 = 0xC0;

/// How deep elements may lie in a skipped one, itself counted as depth 1 (A18).
pub const SKIPPING_DEPTH: usize = 8;

#[derive(Clone, Copy, Debug, PartialEq, Eq)]
pub struct Element<'a> {
    pub tag: u8,
    pub contents: &'a [u8],
}

/// Stands over lent octets and remembers how far it has come. Every reading function gives
/// `None` for what is unreadable; nobody reads on after that.
#[derive(Clone, Debug)]
pub struct Reader<'a> {
    octets: &'a [u8],
    at: usize,
}

impl<'a> Reader<'a> {
    pub fn over(octets: &'a [u8]) -> Self {
        Reader { octets, at: 0 }
    }

    pub fn finished(&self) -> bool {
        self.at >= self.octets.len()
    }

    /// The octet that would begin the next element.
    pub fn next_tag(&self) -> Option<u8> {
        self.octets.get(self.at).copied()
    }

    /// Everything not yet read.
    pub fn rest(&self) -> &'a [u8] {
        self.octets.get(self.at..).unwrap_or(&[])
    }

    pub fn element(&mut self) -> Option<Element<'a>> {
        let tag = self.octet()?;
        if tag & LOW_FIVE_BITS == LOW_FIVE_BITS {
            return None;
        }
        let length = self.length()?;
        let end = self.at.checked_add(length)?;
        let contents = self.octets.get(self.at..end)?;
        self.at = end;
        Some(Element { tag, contents })
    }

    /// The contents of the next element, which must have this tag octet (A22: no other).
    pub fn tagged(&mut self, tag: u8) -> Option<&'a [u8]> {
        let element = self.element()?;
        (element.tag == tag).then_some(element.contents)
    }

    pub fn integer(&mut self) -> Option<i32> {
        integer_value(self.tagged(TAG_INTEGER)?)
    }

    /// An enumerated value: one octet of contents, two's complement as in X.209.
    pub fn enumerated(&mut self) -> Option<i32> {
        match *self.tagged(TAG_ENUMERATED)? {
            [value] => Some(i32::from(value as i8)),
            _ => None,
        }
    }

    /// A NULL, which has no contents (A24).
    pub fn null(&mut self) -> Option<()> {
        self.tagged(TAG_NULL)?.is_empty().then_some(())
    }

    fn octet(&mut self) -> Option<u8> {
        let octet = self.next_tag()?;
        self.at += 1;
        Some(octet)
    }

    /// Needless 81 and 82 are allowed for small values; 80 and 83 upward are badly built.
    fn length(&mut self) -> Option<usize> {
        match self.octet()? {
            short @ 0..=0x7F => Some(usize::from(short)),
            0x81 => Some(usize::from(self.octet()?)),
            0x82 => {
                let high = self.octet()?;
                let low = self.octet()?;
                Some(usize::from(u16::from_be_bytes([high, low])))
            }
            _ => None,
        }
    }
}

/// The one element that fills the octets, if they are that.
pub fn whole(octets: &[u8]) -> Option<Element<'_>> {
    let mut reader = Reader::over(octets);
    let element = reader.element()?;
    reader.finished().then_some(element)
}

/// Two's complement in one or two octets, shortest form (A12: the contents, not the length).
pub fn integer_value(contents: &[u8]) -> Option<i32> {
    match *contents {
        [one] => Some(i32::from(one as i8)),
        [high, low] => {
            let value = i16::from_be_bytes([high, low]);
            let one_would_do = i8::try_from(value).is_ok();
            (!one_would_do).then_some(i32::from(value))
        }
        _ => None,
    }
}

/// Skips everything left, which must be private-class elements (A16, A17).
pub fn skip_private(reader: &mut Reader<'_>) -> Option<()> {
    while let Some(tag) = reader.next_tag() {
        if tag & CLASS != PRIVATE {
            return None;
        }
        skip_element(reader, SKIPPING_DEPTH)?;
    }
    Some(())
}

/// `depth_left` counts elements, primitive ones too, so a primitive at depth 9 fails (A18).
fn skip_element(reader: &mut Reader<'_>, depth_left: usize) -> Option<()> {
    let depth_below = depth_left.checked_sub(1)?;
    let element = reader.element()?;
    if element.tag & CONSTRUCTED == 0 {
        return Some(());
    }
    skip_contents(element.contents, depth_below)
}

fn skip_contents(contents: &[u8], depth_left: usize) -> Option<()> {
    let mut reader = Reader::over(contents);
    while !reader.finished() {
        skip_element(&mut reader, depth_left)?;
    }
    Some(())
}

/// An element with the shortest length.
pub fn element(tag: u8, contents: &[u8]) -> Vec<u8> {
    let mut octets = vec![tag];
    octets.extend(length_octets(contents.len()));
    octets.extend_from_slice(contents);
    octets
}

pub fn length_octets(length: usize) -> Vec<u8> {
    let all = length.to_be_bytes();
    let zeros = all.iter().take_while(|octet| **octet == 0).count();
    let significant = all.get(zeros..).unwrap_or(&[]);
    match *significant {
        [] => vec![0],
        [short @ 0..=0x7F] => vec![short],
        _ => {
            let mut octets = vec![0x80 | significant.len() as u8];
            octets.extend_from_slice(significant);
            octets
        }
    }
}

pub fn integer(value: i32) -> Vec<u8> {
    element(TAG_INTEGER, &shortest(value))
}

pub fn enumerated(value: i32) -> Vec<u8> {
    element(TAG_ENUMERATED, &shortest(value))
}

pub fn null() -> Vec<u8> {
    element(TAG_NULL, &[])
}

/// Shortest two's complement of any value, so that a nonsense code has octets as well.
fn shortest(value: i32) -> Vec<u8> {
    if let Ok(value) = i8::try_from(value) {
        value.to_be_bytes().to_vec()
    } else if let Ok(value) = i16::try_from(value) {
        value.to_be_bytes().to_vec()
    } else {
        let all = value.to_be_bytes();
        let three_do = value << 8 >> 8 == value;
        all.get(usize::from(three_do)..).unwrap_or(&[]).to_vec()
    }
}
