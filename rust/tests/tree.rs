//! Item 9 of the requests, "The tree board": steps, legal states, refusals and bounds, worked by hand.

use second::case::{Paper, Rules, Stakes};
use second::machine::step::step;
use second::machine::trace::trace_run;
use second::machine::{Outcome, Policy, SetState, NONE};
use second::refusal::Refusal;

const TREE: u8 = 3;
const HOLE: u16 = NONE;

fn state(lines: &[u16], bits: u8) -> SetState {
    let mut all = [NONE; 8];
    all[..lines.len()].copy_from_slice(lines);
    SetState { lines: all, bits }
}

fn stepped(ways: u8, lines: &[u16], bits: u8, block: u16) -> (Outcome, SetState) {
    step(TREE, ways, &state(lines, bits), block).unwrap()
}

/// "A miss follows the bits and takes that line, empty or not." "Each access turns the bits on its line's path away from it."
#[test]
fn a_miss_follows_the_bits() {
    assert_eq!(stepped(2, &[6, 7], 0, 5), (Outcome::Miss, state(&[5, 7], 1)));
    assert_eq!(stepped(2, &[6, 7], 1, 5), (Outcome::Miss, state(&[6, 5], 0)));
    assert_eq!(stepped(4, &[6, 7, 8, 9], 0, 5), (Outcome::Miss, state(&[5, 7, 8, 9], 3)));
    assert_eq!(stepped(4, &[6, 7, 8, 9], 2, 5), (Outcome::Miss, state(&[6, 5, 8, 9], 1)));
    assert_eq!(stepped(4, &[6, 7, 8, 9], 3, 5), (Outcome::Miss, state(&[6, 7, 5, 9], 6)));
    assert_eq!(stepped(4, &[6, 7, 8, 9], 5, 5), (Outcome::Miss, state(&[6, 7, 8, 5], 0)));
    let eight = [10, 11, 12, 13, 14, 15, 16, 17];
    assert_eq!(stepped(8, &eight, 0, 5), (Outcome::Miss, state(&[5, 11, 12, 13, 14, 15, 16, 17], 11)));
    assert_eq!(stepped(8, &eight, 127, 5), (Outcome::Miss, state(&[10, 11, 12, 13, 14, 15, 16, 5], 58)));
    // Root to the upper lines, bit 2 to its lower half, bit 5 to its upper line.
    assert_eq!(stepped(8, &eight, 33, 5), (Outcome::Miss, state(&[10, 11, 12, 13, 14, 5, 16, 17], 4)));
}

#[test]
fn an_empty_line_is_not_sought() {
    assert_eq!(stepped(4, &[6, HOLE, 8, 9], 0, 5), (Outcome::Miss, state(&[5, HOLE, 8, 9], 3)));
    assert_eq!(stepped(4, &[HOLE, 7, HOLE, HOLE], 2, 5), (Outcome::Miss, state(&[HOLE, 5, HOLE, HOLE], 1)));
}

#[test]
fn a_hit_turns_its_path_alone() {
    assert_eq!(stepped(4, &[6, 7, 8, 9], 7, 9), (Outcome::Hit, state(&[6, 7, 8, 9], 2)));
    assert_eq!(stepped(4, &[6, 7, 8, 9], 4, 6), (Outcome::Hit, state(&[6, 7, 8, 9], 7)));
    assert_eq!(stepped(2, &[6, 7], 1, 6), (Outcome::Hit, state(&[6, 7], 1)));
}

/// "A legal state has bits 0 from k-1 on." "3 for other numbers of ways or for policies above 3."
#[test]
fn refusals() {
    let refused = |policy, ways, bits| step(policy, ways, &state(&[], bits), 5).err();
    for (ways, most) in [(2, 1), (4, 7), (8, 127)] {
        assert_eq!(refused(TREE, ways, most), None);
        assert_eq!(refused(TREE, ways, most + 1), Some(Refusal::new(22, 0)));
        assert_eq!(refused(TREE, ways, 255), Some(Refusal::new(22, 0)));
    }
    for ways in [0, 1, 3, 5, 6, 7, 9, 16] {
        assert_eq!(refused(TREE, ways, 0), Some(Refusal::new(3, 0)));
    }
    assert_eq!(refused(4, 4, 0), Some(Refusal::new(3, 0)));
}

/// Two other blocks are too few to push b out of four ways, three are not.
#[test]
fn a_trace() {
    let misses = |blocks: &[u16]| trace_run(TREE, 4, 1, blocks, &mut vec![0; blocks.len()]).unwrap();
    assert_eq!(misses(&[10, 1, 2, 1, 10]), 3);
    assert_eq!(misses(&[10, 1, 2, 1, 3, 10]), 5);
}

/// "A fact whose limit is at most 1 + log2 k has bound E (the lesser of E and N since Item 7); a larger limit gets N".
#[test]
fn bounds() {
    let bound = |ways, limit| Paper.fact_bound(Stakes { policy: Policy::Tree, ways, limit, entries: 3, fetches: 50 });
    assert_eq!([1, 2].map(|limit| bound(2, limit)), [3, 3]);
    assert_eq!([1, 2, 3, 4].map(|limit| bound(4, limit)), [3, 3, 3, 50]);
    assert_eq!([1, 4, 5, 8].map(|limit| bound(8, limit)), [3, 3, 50, 50]);
}
