//! Faults of the trailer and of the file's length: rules 1 to 5, and 19.

use crate::case::{Draft, LARGEST, TRAILER};
use crate::random::Random;

/// Where the trailer's fields lie, from its start.
const NUMBERS: usize = 16;
const POLICY: usize = 24;
const WAYS: usize = 25;
const SETS: usize = 26;
const VERSION: usize = 27;

/// The file is the draft's, with its trailer whole.
pub fn damage(random: &mut Random, draft: &Draft, file: &mut Vec<u8>, rule: u8) {
    match rule {
        1 => shorten(random, file),
        2 => {
            let at = random.within(VERSION..=TRAILER - 1);
            patch(file, at, |bytes| bytes[0] ^= 1 + (random.draw() % 255) as u8);
        }
        3 => spoil_machine(random, file),
        4 => spoil_number(random, file),
        5 => spoil_offsets(random, draft, file),
        _ => {
            let at = file.len() - TRAILER;
            let stray = random.within(1..=20);
            file.splice(at..at, random.noise(stray, |number| number as u8));
        }
    }
}

/// Changes the trailer from the given field on.
fn patch(file: &mut [u8], field: usize, change: impl FnOnce(&mut [u8])) {
    let at = file.len() - TRAILER + field;
    change(&mut file[at..]);
}

fn shorten(random: &mut Random, file: &mut Vec<u8>) {
    let keep = random.below(TRAILER);
    if random.chance(50) {
        file.drain(..file.len() - keep);
    } else {
        file.truncate(keep);
    }
}

fn spoil_machine(random: &mut Random, file: &mut [u8]) {
    let faults = [(POLICY, 4), (POLICY, 255), (WAYS, 0), (WAYS, 9), (WAYS, 255), (SETS, 0), (SETS, 65), (SETS, 255)];
    if random.chance(30) {
        // "NMRU with one way: 3." The tree has 2, 4 or 8.
        let machine = random.pick(&[[2, 1], [3, 1], [3, 3], [3, 6]]);
        patch(file, POLICY, |bytes| bytes[..2].copy_from_slice(&machine));
    } else {
        let (field, value) = random.pick(&faults);
        patch(file, field, |bytes| bytes[0] = value);
    }
}

fn spoil_number(random: &mut Random, file: &mut [u8]) {
    let which = random.below(LARGEST.len());
    let past = LARGEST[which] + 1;
    let number = if which == 0 { random.pick(&[0, past, 65_535]) } else { random.pick(&[past, 65_535]) };
    patch(file, NUMBERS + 2 * which, |bytes| bytes[..2].copy_from_slice(&number.to_le_bytes()));
}

fn spoil_offsets(random: &mut Random, draft: &Draft, file: &mut Vec<u8>) {
    match random.below(4) {
        0 => {
            let which = random.below(4);
            let shift = random.pick(&[1, 2, 4, 16, 1 << 16, 1 << 24, u32::MAX, u32::MAX - 1]);
            patch(file, 4 * which, |bytes| {
                let (offset, _) = bytes.split_first_chunk_mut::<4>().expect("the trailer has four offsets");
                *offset = u32::from_le_bytes(*offset).wrapping_add(shift).to_le_bytes();
            });
        }
        1 => {
            // "the facts would start past the trailer": the sections are cut, the trailer stays.
            let keep = random.below(draft.facts_start());
            file.drain(keep..file.len() - TRAILER);
        }
        // The other version: its loops have another size, so where there are any the facts start elsewhere.
        2 => patch(file, VERSION, |bytes| bytes[0] ^= 3),
        _ => {
            let which = random.below(3);
            patch(file, NUMBERS + 2 * which, |bytes| bytes[0] = bytes[0].wrapping_add(1));
        }
    }
}
