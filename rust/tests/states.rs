//! States with empty lines in the middle: each policy treats a hole as the paper says.

use second::machine::step::step;
use second::machine::{Outcome, SetState, NONE};
use second::refusal::Refusal;

const HOLE: u16 = NONE;

fn state(lines: [u16; 4], bits: u8) -> SetState {
    let [a, b, c, d] = lines;
    SetState { lines: [a, b, c, d, NONE, NONE, NONE, NONE], bits }
}

/// "A miss moves all one down; the last is lost": a hole moves down as a block does.
#[test]
fn a_miss_moves_holes_down() {
    for policy in [0, 1] {
        let before = state([7, HOLE, 8, 9], 0);
        assert_eq!(step(policy, 4, &before, 5), Ok((Outcome::Miss, state([5, 7, HOLE, 8], 0))));
    }
}

/// "A hit at line j moves the block to line 0 and lines 0 to j-1 one down."
#[test]
fn an_lru_hit_moves_only_what_is_before_it() {
    assert_eq!(step(0, 4, &state([7, HOLE, 8, 9], 0), 8), Ok((Outcome::Hit, state([8, 7, HOLE, 9], 0))));
    assert_eq!(step(0, 4, &state([HOLE, 7, HOLE, 9], 0), 7), Ok((Outcome::Hit, state([7, HOLE, HOLE, 9], 0))));
}

/// "puts a missed block in the lowest empty line, whatever its bit says, and looks at bits only when no line is empty"
#[test]
fn an_nmru_miss_fills_the_lowest_hole() {
    assert_eq!(step(2, 4, &state([HOLE, 7, 8, 9], 1), 5), Ok((Outcome::Miss, state([5, 7, 8, 9], 1))));
    assert_eq!(step(2, 4, &state([7, 8, HOLE, HOLE], 12), 5), Ok((Outcome::Miss, state([7, 8, 5, HOLE], 12))));
    assert_eq!(step(2, 4, &state([7, 8, 9, HOLE], 7), 5), Ok((Outcome::Miss, state([7, 8, 9, 5], 8))));
    assert_eq!(step(2, 4, &state([6, 7, 8, 9], 1), 5), Ok((Outcome::Miss, state([6, 5, 8, 9], 3))));
}

/// "Step: 3, 22, 21", and each of them alone.
#[test]
fn refusals_come_in_order() {
    let twice = state([7, 7, HOLE, HOLE], 0);
    let refused = |policy, ways, state: &SetState, block| step(policy, ways, state, block).err();
    assert_eq!(refused(4, 4, &twice, NONE), Some(Refusal::new(3, 0)));
    assert_eq!(refused(0, 4, &twice, NONE), Some(Refusal::new(22, 0)));
    assert_eq!(refused(0, 4, &SetState::EMPTY, NONE), Some(Refusal::new(21, 0)));
    let illegal = [(0, 4, state([7; 4], 0)), (1, 2, state([1, 2, 3, HOLE], 0)), (0, 4, state([HOLE; 4], 1))];
    let illegal_bits = [(2, 4, state([HOLE; 4], 15)), (2, 4, state([HOLE; 4], 16)), (2, 2, state([HOLE; 4], 3))];
    for (policy, ways, state) in illegal.iter().chain(&illegal_bits) {
        assert_eq!(refused(*policy, *ways, state, 5), Some(Refusal::new(22, 0)));
    }
}
