//! All ways in one pass.

use second::machine::{trace::trace_run, ways::all_ways, NONE};
use second::refusal::Refusal;

/// The trace of source 000, figure 1: with two ways LRU misses six times.
const FIGURE: [u16; 12] = [1, 2, 3, 3, 2, 4, 2, 5, 2, 6, 6, 2];

#[test]
fn the_figure() {
    assert_eq!(all_ways(1, &FIGURE), Ok([10, 6, 6, 6, 6, 6, 6, 6]));
}

#[test]
fn a_loop_of_nine_fits_in_no_way() {
    let blocks: Vec<u16> = (0..9).cycle().take(90).collect();
    assert_eq!(all_ways(1, &blocks), Ok([90; 8]));
    assert_eq!(all_ways(9, &blocks), Ok([9; 8]));
    assert_eq!(all_ways(3, &blocks), Ok([90, 90, 9, 9, 9, 9, 9, 9]));
}

#[test]
fn each_count_is_a_trace_run() {
    let blocks: Vec<u16> = (0..3_000u32).map(|i| (i * i / 7 % 41) as u16).collect();
    for sets in [1, 2, 5, 64] {
        let counts = all_ways(sets, &blocks).unwrap();
        for (ways, count) in (1..).zip(counts) {
            assert_eq!(trace_run(0, ways, sets, &blocks, &mut vec![0; blocks.len()]), Ok(count));
        }
    }
}

#[test]
fn refusals_in_order() {
    for sets in [0, 65, 255] {
        assert_eq!(all_ways(sets, &[NONE]), Err(Refusal::new(3, 0)));
    }
    assert_eq!(all_ways(64, &[1, NONE, 2, NONE]), Err(Refusal::new(21, 1)));
    assert_eq!(all_ways(1, &[]), Ok([0; 8]));
}
