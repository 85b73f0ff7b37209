//! A small seeded generator (splitmix64): the same seed always gives the same run.

#[derive(Clone, Debug)]
pub struct Random {
    state: u64,
}

impl Random {
    pub fn seeded(seed: u64) -> Self {
        Random { state: seed }
    }

    pub fn draw(&mut self) -> u64 {
        self.state = self.state.wrapping_add(0x9E37_79B9_7F4A_7C15);
        let mut mixed = self.state;
        mixed = (mixed ^ (mixed >> 30)).wrapping_mul(0xBF58_476D_1CE4_E5B9);
        mixed = (mixed ^ (mixed >> 27)).wrapping_mul(0x94D0_49BB_1331_11EB);
        mixed ^ (mixed >> 31)
    }

    /// From 0 to one below `bound`; 0 if the bound is 0.
    pub fn below(&mut self, bound: usize) -> usize {
        let drawn = self.draw() % (bound.max(1) as u64);
        drawn as usize
    }

    /// Both ends count.
    pub fn between(&mut self, least: i32, most: i32) -> i32 {
        let span = (most - least).unsigned_abs() as usize + 1;
        least + self.below(span) as i32
    }

    /// True once in so many draws.
    pub fn once_in(&mut self, many: usize) -> bool {
        self.below(many) == 0
    }

    /// 1 in all but one of so many draws.
    pub fn mostly(&mut self, many: usize) -> i32 {
        i32::from(!self.once_in(many))
    }

    pub fn flag(&mut self) -> i32 {
        self.between(0, 1)
    }

    pub fn octet(&mut self) -> u8 {
        self.below(256) as u8
    }

    pub fn one_of<T: Copy, const N: usize>(&mut self, choices: &[T; N]) -> T {
        choices[self.below(N)]
    }

    pub fn pick<'a, T>(&mut self, choices: &'a [T]) -> Option<&'a T> {
        choices.get(self.below(choices.len()))
    }
}
