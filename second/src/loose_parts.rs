//! Parts of components built loosely at random: odd but allowed codings (needless lengths, other
//! kinds of number, private-class elements), and faults at a chosen rate.

use crate::elements::{self, length_octets};
use crate::numbers::{Address, Number, Subaddress};
use crate::random::Random;
use crate::request::{Request, Served};

/// Builds with one fault in so many parts; 0 for none.
pub struct Loose<'a> {
    pub random: &'a mut Random,
    pub fault_rate: usize,
}

/// Any octets, at times more than a component may have.
pub fn octets(random: &mut Random) -> Vec<u8> {
    let most = random.one_of(&[1, 4, 30, 1_024, 1_100]);
    let length = random.below(most + 1);
    (0..length).map(|_| random.octet()).collect()
}

impl Loose<'_> {
    pub fn fault(&mut self) -> bool {
        self.fault_rate > 0 && self.random.once_in(self.fault_rate)
    }

    pub fn element(&mut self, tag: u8, contents: &[u8]) -> Vec<u8> {
        let length = contents.len();
        let [.., high, low] = length.to_be_bytes();
        let mut coded = match self.random.below(12) {
            0 if length < 256 => vec![0x81, low],
            1 => vec![0x82, high, low],
            _ => length_octets(length),
        };
        let mut tag = tag;
        if self.fault() {
            match self.random.below(5) {
                0 => tag = self.random.octet(),
                1 => tag ^= 0x20,
                2 => coded = vec![self.random.one_of(&[0x80, 0x83, 0x84, 0xFF])],
                3 => coded = vec![low.wrapping_add(1) & 0x7F],
                _ => coded = vec![low.wrapping_sub(1) & 0x7F],
            }
        }
        [&[tag][..], &coded, contents].concat()
    }

    pub fn integer(&mut self, value: i32) -> Vec<u8> {
        let [_, third, second, first] = value.to_be_bytes();
        if self.fault() {
            let contents = match self.random.below(4) {
                0 => vec![],
                1 => vec![second, first],
                2 => vec![third, second, first],
                _ => vec![self.random.octet(), self.random.octet()],
            };
            return self.element(elements::TAG_INTEGER, &contents);
        }
        if i8::try_from(value).is_ok() {
            self.element(elements::TAG_INTEGER, &[first])
        } else {
            self.element(elements::TAG_INTEGER, &[second, first])
        }
    }

    pub fn enumerated(&mut self, code: i32) -> Vec<u8> {
        let [.., low] = code.to_be_bytes();
        let contents = if self.fault() {
            match self.random.below(4) {
                0 => vec![],
                1 => vec![0, low],
                2 => vec![self.random.octet()],
                _ => vec![self.random.one_of(&[3, 5, 6, 7, 31, 43, 255])],
            }
        } else {
            vec![low]
        };
        self.element(elements::TAG_ENUMERATED, &contents)
    }

    pub fn digits(&mut self, digits: &[u8]) -> Vec<u8> {
        if !self.fault() {
            return digits.to_vec();
        }
        match self.random.below(3) {
            0 => vec![],
            1 => vec![b'1'; 21],
            _ => [digits, &[self.random.octet()]].concat(),
        }
    }

    pub fn number(&mut self, number: &Number) -> Vec<u8> {
        if self.random.once_in(30) {
            let tag = self.random.one_of(&[0x82, 0x83, 0x84, 0xA5, 0x88]);
            let contents = octets(self.random);
            return self.element(tag, contents.get(..20).unwrap_or(&contents));
        }
        let digits = self.digits(&number.digits);
        if number.form == 0 {
            return self.element(0x80, &digits);
        }
        let mut contents = self.enumerated(number.number_type);
        contents.extend(self.element(elements::TAG_NUMERIC_STRING, &digits));
        contents.extend(self.stray());
        self.element(0xA1, &contents)
    }

    /// Something that belongs nowhere, as a fault.
    pub fn stray(&mut self) -> Vec<u8> {
        if !self.fault() {
            return Vec::new();
        }
        let tag = self.random.one_of(&[0xC0, 0xC1, 0x04, 0x05, 0x30, 0xFF]);
        elements::element(tag, &[])
    }

    pub fn address(&mut self, address: &Address) -> Vec<u8> {
        let mut contents = self.number(&address.number);
        if self.random.once_in(15) {
            let inside = octets(self.random);
            let inside = inside.get(..5).unwrap_or(&inside).to_vec();
            contents.extend(self.element(elements::TAG_SEQUENCE, &inside));
        } else if let Subaddress::Octets(octets) = &address.subaddress {
            let octets = if self.fault() {
                vec![1; self.random.one_of(&[0, 21])]
            } else {
                octets.clone()
            };
            contents.extend(self.element(elements::TAG_OCTET_STRING, &octets));
        }
        contents.extend(self.stray());
        self.element(elements::TAG_SEQUENCE, &contents)
    }

    pub fn served(&mut self, served: &Served) -> Vec<u8> {
        match served {
            Served::Individual(number) => self.number(number),
            Served::AllNumbers if self.fault() => self.element(elements::TAG_NULL, &[0]),
            Served::AllNumbers => self.element(elements::TAG_NULL, &[]),
        }
    }

    /// Private-class elements nested to depths on both sides of the limit.
    pub fn private(&mut self) -> Vec<u8> {
        let mut all = Vec::new();
        for _ in 0..self.random.one_of(&[0, 0, 0, 1, 2]) {
            let depth = self.random.one_of(&[1, 2, 7, 8, 9]);
            all.extend(self.nested(depth));
        }
        all
    }

    /// A private-class element inside which others lie to this depth.
    pub fn nested(&mut self, depth: usize) -> Vec<u8> {
        let mut nested = self.element(0xC4, b"any");
        for level in 1..depth {
            let tag = if level + 1 == depth { 0xE5 } else { 0x30 };
            let beside = self.element(0x04, &[0x80]);
            let contents = [nested, if level > 1 { beside } else { Vec::new() }].concat();
            nested = self.element(tag, &contents);
        }
        nested
    }

    pub fn argument(&mut self, request: &Request) -> Vec<u8> {
        let mut contents = self.enumerated(request.procedure());
        let interrogation = matches!(request, Request::Interrogation { .. });
        let omitted = (interrogation && self.random.once_in(4)) || self.fault();
        if !omitted {
            contents.extend(self.enumerated(request.service()));
        }
        if let Request::Activation { address, .. } = request {
            contents.extend(self.address(address));
        }
        contents.extend(self.served(request.served()));
        contents.extend(self.private());
        contents.extend(self.stray());
        self.element(elements::TAG_SEQUENCE, &contents)
    }
}
