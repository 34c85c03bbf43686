//! Faults without aim: bytes changed, inserted and removed.

use crate::random::Random;

/// The file is a whole one, so that it has more bytes than there are faults.
pub fn scatter(random: &mut Random, file: &mut Vec<u8>) {
    for _ in 0..random.within(1..=3) {
        let at = random.below(file.len());
        match random.below(4) {
            0 => file.insert(at, random.byte()),
            1 => drop(file.remove(at)),
            // Faults of one bit find limits that are off by one.
            2 => file[at] ^= 1 << random.below(8),
            _ => file[at] = random.byte(),
        }
    }
}
