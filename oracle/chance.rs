//! Random numbers, the same for the same seed and call.

/// The generator splitmix64.
pub struct Chance {
    state: u64,
}

impl Chance {
    /// Each call has a row of numbers of its own, whatever other calls there are.
    pub fn of(name: &str, seed: u64) -> Chance {
        Chance { state: name.bytes().fold(seed, |state, byte| mixed(state ^ u64::from(byte))) }
    }

    pub fn next(&mut self) -> u64 {
        self.state = self.state.wrapping_add(0x9E37_79B9_7F4A_7C15);
        mixed(self.state)
    }

    pub fn below(&mut self, bound: u64) -> u64 {
        self.next() % bound
    }

    pub fn one_of(&mut self, numbers: &[i128]) -> i128 {
        numbers[self.below(numbers.len() as u64) as usize]
    }

    /// A number from the least to the greatest of a range, both among them.
    pub fn within(&mut self, least: i128, greatest: i128) -> i128 {
        least + i128::from(self.below((greatest - least + 1) as u64))
    }

    /// A number of either sign and of any length up to so many bits.
    pub fn of_length_up_to(&mut self, most: u64) -> i128 {
        let bits = self.below(most + 1) as u32;
        let magnitude = i128::from(self.next().checked_shr(64 - bits).unwrap_or(0));
        if self.below(2) == 0 {
            magnitude
        } else {
            -magnitude
        }
    }
}

fn mixed(state: u64) -> u64 {
    let state = (state ^ (state >> 30)).wrapping_mul(0xBF58_476D_1CE4_E5B9);
    let state = (state ^ (state >> 27)).wrapping_mul(0x94D0_49BB_1331_11EB);
    state ^ (state >> 31)
}
