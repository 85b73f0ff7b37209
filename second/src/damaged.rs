//! A component taken apart, so that each of its elements can be damaged, left out, put twice or
//! replaced while the lengths around it stay right.

use std::ops::Range;

use crate::elements::CONSTRUCTED;

/// A component, and where each of its elements stands. All its lengths are of one octet.
pub struct Dissected {
    octets: Vec<u8>,
    places: Vec<Range<usize>>,
}

impl Dissected {
    pub fn of(octets: Vec<u8>) -> Self {
        let mut places = Vec::new();
        let mut at = 0;
        while let [tag, length, ..] = octets[at..] {
            let end = at + 2 + usize::from(length);
            places.push(at..end);
            at = if tag & CONSTRUCTED == 0 { end } else { at + 2 };
        }
        Dissected { octets, places }
    }

    /// The component whole, cut off at each octet, and with each element damaged or missing.
    pub fn damaged(&self) -> Vec<Vec<u8>> {
        let ends = 0..=self.octets.len();
        let mut damaged: Vec<_> = ends.map(|end| self.octets[..end].to_vec()).collect();
        for place in &self.places {
            damaged.push(self.with(place.start + 1, 0, 1));
            damaged.push(self.with(place.start + 1, 0, 0xFF));
            damaged.push(self.with(place.start, CONSTRUCTED, 0));
            damaged.push(self.changed(place, place.end..place.end, &[0xC0, 0]));
            damaged.push(self.changed(place, place.clone(), &[]));
            damaged.extend(self.swapped(place));
        }
        damaged
    }

    /// Other octets in place of an element; elements count from 0 in the order their tags come.
    pub fn replaced(&self, at: usize, with: &[u8]) -> Vec<u8> {
        let place = &self.places[at];
        self.changed(place, place.clone(), with)
    }

    /// Each element in turn replaced by these octets.
    pub fn each_replaced(&self, with: &[u8]) -> Vec<Vec<u8>> {
        let ones = 0..self.places.len();
        ones.map(|at| self.replaced(at, with)).collect()
    }

    /// Cut off at each octet, once with the outermost length put right, so that what is inside
    /// runs past its end, and once with the length of every element that is cut.
    pub fn cut_inside(&self) -> Vec<Vec<u8>> {
        let cuts = (2..self.octets.len()).flat_map(|end| [(end, 1), (end, self.places.len())]);
        cuts.map(|(end, mended)| {
            let mut octets = self.octets[..end].to_vec();
            for place in self.places.iter().take(mended) {
                if (place.start + 2..place.end).contains(&end) {
                    octets[place.start + 1] = (end - place.start - 2) as u8;
                }
            }
            octets
        })
        .collect()
    }

    /// The places of the elements whose contents hold this one.
    fn around(&self, place: &Range<usize>) -> impl Iterator<Item = &Range<usize>> {
        let Range { start, end } = *place;
        let places = self.places.iter();
        places.filter(move |outer| outer.start < start && end <= outer.end)
    }

    /// A stretch changed, and the lengths around that place put right.
    fn changed(&self, place: &Range<usize>, stretch: Range<usize>, with: &[u8]) -> Vec<u8> {
        let mut octets = self.octets.clone();
        for outer in self.around(place) {
            let length = &mut octets[outer.start + 1];
            *length = *length + with.len() as u8 - stretch.len() as u8;
        }
        octets.splice(stretch, with.iter().copied());
        octets
    }

    /// The element and the next one in the same contents, the other way round.
    fn swapped(&self, place: &Range<usize>) -> Option<Vec<u8>> {
        let mut others = self.places.iter();
        let next = others.find(|other| other.start == place.end)?;
        let together = self.around(place).all(|outer| next.end <= outer.end);
        let swapped = [&self.octets[next.clone()], &self.octets[place.clone()]].concat();
        together.then(|| self.changed(place, place.start..next.end, &swapped))
    }

    /// One octet with some bits turned over, or a number added.
    fn with(&self, at: usize, bits: u8, added: u8) -> Vec<u8> {
        let mut octets = self.octets.clone();
        octets[at] = (octets[at] ^ bits).wrapping_add(added);
        octets
    }
}
