//! Components and replies built loosely at random, to be thrown at the exchange and the end.

use crate::codes::OPERATIONS;
use crate::elements;
use crate::end::End;
use crate::loose_parts::{octets, Loose};
use crate::made;
use crate::profile::Profile;
use crate::random::Random;
use crate::request::Served;

/// Anything for the exchange: random octets, a spoiled copy, or an invoke built loosely.
pub fn component(random: &mut Random, profile: &Profile, last: i32) -> Vec<u8> {
    let fault_rate = random.one_of(&[0, 0, 10, 30]);
    match random.below(12) {
        0 => octets(random),
        1 => {
            let request = made::request(random, profile);
            let identifier = near(random, last);
            scratched(random, request.written(identifier))
        }
        _ => Loose { random, fault_rate }.invoke(profile, last),
    }
}

/// Anything for the end: random octets, or a reply built loosely, most often for its request.
pub fn reply(random: &mut Random, profile: &Profile, end: &End) -> Vec<u8> {
    let fault_rate = random.one_of(&[0, 0, 10, 30]);
    if random.once_in(20) {
        return octets(random);
    }
    let built = Loose { random, fault_rate }.reply(profile, end.last_used);
    if random.once_in(10) {
        scratched(random, built)
    } else {
        built
    }
}

/// One octet changed, removed or put in, or the end cut off.
pub fn scratched(random: &mut Random, mut octets: Vec<u8>) -> Vec<u8> {
    let at = random.below(octets.len());
    match random.below(5) {
        0 => octets.truncate(at),
        1 => octets.insert(at, random.octet()),
        2 if at < octets.len() => {
            octets.remove(at);
        }
        3 => octets.push(random.octet()),
        _ => {
            if let Some(octet) = octets.get_mut(at) {
                *octet = random.octet();
            }
        }
    }
    octets
}

/// Identifiers at and around the last handled one, and at the edges.
pub fn near(random: &mut Random, last: i32) -> i32 {
    let step = random.between(-1, 3);
    match random.below(6) {
        0 => random.one_of(&[-32_768, -129, -128, -1, 0, 1, 127, 128, 255, 256, 32_767]),
        _ => last.saturating_add(step).clamp(-32_768, 32_767),
    }
}

impl Loose<'_> {
    fn invoke(&mut self, profile: &Profile, last: i32) -> Vec<u8> {
        let request = made::request(self.random, profile);
        let identifier = near(self.random, last);
        let mut contents = self.integer(identifier);
        if self.fault() {
            contents.extend(elements::element(0x80, &[1]));
        }
        let operation = if self.fault() {
            self.random.one_of(&[0, 7, 8, 9, 10, 11, 17, 300, -1])
        } else {
            request.operation()
        };
        contents.extend(self.integer(operation));
        if !self.fault() {
            contents.extend(self.argument(&request));
        }
        contents.extend(self.stray());
        let tag = if self.fault() {
            self.random.one_of(&[0xA0, 0xA2, 0xA3, 0xA4, 0xA5, 0x30])
        } else {
            0xA1
        };
        self.element(tag, &contents)
    }

    fn reply(&mut self, profile: &Profile, last_used: i32) -> Vec<u8> {
        let identifier = if self.random.once_in(8) {
            near(self.random, last_used)
        } else {
            last_used
        };
        let mut contents = self.integer(identifier);
        let tag = match self.random.below(10) {
            0 => 0xA1,
            1 => 0xA4,
            2 | 3 => 0xA3,
            _ => 0xA2,
        };
        contents.extend(match tag {
            0xA2 if self.random.once_in(3) => Vec::new(),
            0xA2 => self.result(profile),
            0xA3 => self.integer_of_error(),
            _ => elements::element(0x81, &[0]),
        });
        contents.extend(self.stray());
        self.element(tag, &contents)
    }

    fn integer_of_error(&mut self) -> Vec<u8> {
        let code = self.random.one_of(&[0, 3, 46, 300, -1]);
        self.integer(code)
    }

    fn result(&mut self, profile: &Profile) -> Vec<u8> {
        let operation = if self.fault() {
            self.random.one_of(&OPERATIONS)
        } else {
            11
        };
        let procedure = self.random.between(0, 2);
        let mut listed = Vec::new();
        for _ in 0..self.random.one_of(&[0, 1, 2, 3, 8, 9]) {
            listed.extend(self.entry(profile, procedure));
        }
        let mut contents = self.integer(operation);
        contents.extend(self.element(elements::TAG_SET, &listed));
        contents.extend(self.stray());
        self.element(elements::TAG_SEQUENCE, &contents)
    }

    fn entry(&mut self, profile: &Profile, procedure: i32) -> Vec<u8> {
        let served = if self.fault() {
            made::asked_number(self.random, profile)
        } else {
            match self.random.pick(&profile.numbers) {
                Some(number) => Served::Individual(number.clone()),
                None => Served::AllNumbers,
            }
        };
        let service = if self.fault() {
            made::asked_service(self.random, profile)
        } else {
            self.random.pick(&profile.services).copied().unwrap_or(1)
        };
        let mut contents = self.served(&served);
        contents.extend(self.enumerated(service));
        contents.extend(self.enumerated(procedure));
        let address = made::forwarded_to(self.random, profile);
        contents.extend(self.address(&address));
        contents.extend(self.stray());
        self.element(elements::TAG_SEQUENCE, &contents)
    }
}
