//! Item 4 of the requests: what the writer writes, what it refuses and in which order, and both round trips.

use second::case::{judge, read_content, write, Content, Paper};
use second::generate::cases::{sound, Plan};
use second::generate::damage::{damage, scatter, RULES};
use second::random::Random;
use second::refusal::Refusal;
use std::fs;
use std::path::Path;

const NONE: u16 = 65_535;

fn row(blocks: &[u16]) -> [u16; 8] {
    let mut row = [NONE; 8];
    row[0] = blocks.len() as u16;
    row[1..=blocks.len()].copy_from_slice(blocks);
    row
}

/// "A file and its listing", as lists.
fn paper() -> Content {
    Content {
        version: 1,
        policy: 1,
        ways: 2,
        sets: 1,
        nodes: vec![NONE, 5, 6, NONE],
        edges: vec![0, 1, 1, 2, 2, 1, 2, 3],
        loops: vec![1, 2, 10],
        heads: vec![0, 5, 2, 2, 0, 6, 2, 2],
        rows: [row(&[6]), row(&[]), row(&[]), row(&[5])].concat(),
    }
}

fn example(name: &str) -> Vec<u8> {
    fs::read(Path::new(env!("CARGO_MANIFEST_DIR")).join("../examples").join(name)).unwrap()
}

/// What the changed example earns, number and places, with room enough and with none: 20 is the last rule.
fn earns(change: impl Fn(&mut Content)) -> (u8, u64, u64) {
    let mut content = paper();
    change(&mut content);
    let mut out = [7; 200];
    let Refusal { number, place, second } = write(&content, &mut out).unwrap_err();
    assert_eq!(out, [7; 200]);
    assert_eq!(write(&content, &mut []), Err(Refusal { number, place, second }));
    (number, place, second)
}

#[test]
fn the_papers_file_both_ways() {
    let mut out = [7; 150];
    assert_eq!(write(&paper(), &mut out), Ok(140));
    assert_eq!(out[..140], example("paper.case"));
    assert_eq!(out[140..], [7; 10]);
    assert_eq!(read_content(&example("paper.case")), Ok(paper()));
}

#[test]
fn a_file_that_does_not_fit() {
    let mut out = [7; 139];
    assert_eq!(write(&paper(), &mut out), Err(Refusal::new(20, 0)));
    assert_eq!(out, [7; 139]);
}

#[test]
fn each_refusal_with_its_places() {
    assert_eq!(earns(|c| c.policy = 4), (3, 0, 0));
    assert_eq!(earns(|c| (c.policy, c.ways) = (3, 3)), (3, 0, 0));
    assert_eq!(earns(|c| (c.policy, c.ways) = (2, 1)), (3, 0, 0));
    assert_eq!(earns(|c| c.sets = 65), (3, 0, 0));
    assert_eq!(earns(|c| c.nodes.clear()), (4, 0, 0));
    assert_eq!(earns(|c| c.edges.push(3)), (4, 0, 0));
    assert_eq!(earns(|c| c.loops.truncate(2)), (4, 0, 0));
    assert_eq!(earns(|c| c.heads.truncate(7)), (4, 0, 0));
    assert_eq!(earns(|c| c.rows.truncate(31)), (4, 0, 0));
    assert_eq!(earns(|c| c.rows.truncate(24)), (4, 0, 0));
    assert_eq!(earns(|c| c.edges[3] = 4), (6, 1, 0));
    assert_eq!(earns(|c| c.edges[4..].copy_from_slice(&[1, 2, 1, 2])), (6, 2, 0));
    assert_eq!(earns(|c| c.loops[0] = 3), (7, 0, 0));
    assert_eq!(earns(|c| c.loops[2] = 1_000_001), (7, 0, 0));
    assert_eq!(earns(|c| c.loops.extend([2, 3, 10])), (7, 1, 0));
    assert_eq!(earns(|c| c.heads[4] = 1), (12, 1, 0));
    assert_eq!(earns(|c| c.heads[5] = 5), (13, 1, 0));
    assert_eq!(earns(|c| (c.heads[3], c.heads[7]) = (3, 1)), (15, 0, 0));
    assert_eq!(earns(|c| c.rows[25] = 6), (16, 1, 2));
}

/// "A loop's first, last above 16 bits": they are no nodes, whatever their low bits are.
#[test]
fn a_loop_past_16_bits() {
    assert_eq!(earns(|c| c.loops[0] += 65_536), (7, 0, 0));
    assert_eq!(earns(|c| c.loops[1] += 65_536), (7, 0, 0));
    assert_eq!(earns(|c| c.loops[..2].iter_mut().for_each(|node| *node += 65_536)), (7, 0, 0));
}

/// "Refusals, in this order: 3, 4, 6 and 7; then for each fact in turn 12, 13, 15 and 16".
#[test]
fn the_order() {
    let bad_row = |c: &mut Content| c.rows[0] = 10;
    let bad_loop = |c: &mut Content| c.loops[2] = 0;
    let bad_edge = |c: &mut Content| c.edges[7] = 9;
    let short = |c: &mut Content| (c.heads[3], c.heads[7]) = (1, 3);
    let behind = |c: &mut Content| c.heads[5] = 0;
    assert_eq!(earns(|c| (bad_row(c), bad_loop(c), bad_edge(c), c.edges.push(0), c.sets = 0).4), (3, 0, 0));
    assert_eq!(earns(|c| (bad_row(c), bad_loop(c), bad_edge(c), c.edges.push(0)).3), (4, 0, 0));
    assert_eq!(earns(|c| (bad_row(c), bad_loop(c), bad_edge(c)).2), (6, 3, 0));
    assert_eq!(earns(|c| (bad_row(c), bad_loop(c)).1), (7, 0, 0));
    assert_eq!(earns(|c| (bad_row(c), behind(c)).1), (16, 0, 1));
    assert_eq!(earns(|c| (bad_row(c), short(c)).1), (15, 0, 0));
    assert_eq!(earns(|c| (short(c), c.heads[2] = 3).1), (12, 0, 0));
    assert_eq!(earns(|c| (c.rows[16] = 10, behind(c)).1), (13, 1, 0));
    assert_eq!(earns(|c| (behind(c), c.heads[6] = 0).1), (12, 1, 0));
}

/// "A row's content is its number and all seven slots as they stand": a slot that is not free is refused, not dropped.
#[test]
fn a_free_slot_is_not_mended() {
    assert_eq!(earns(|c| c.rows[15] = 3), (16, 0, 2));
    assert_eq!(earns(|c| c.rows[1] = NONE), (16, 0, 1));
}

/// The writer does not ask what is fetched, nor whether the rows are evidence.
#[test]
fn the_other_rules_are_not_its_own() {
    let mut content = paper();
    content.nodes = vec![NONE; 4];
    content.edges = vec![0, 2, 3, 0];
    let mut out = [0; 132];
    assert_eq!(write(&content, &mut out), Ok(132));
    assert_eq!(judge(&out, &Paper).err(), Some(Refusal::new(8, 0)));
    assert_eq!(read_content(&out), Ok(content));
}

/// Sound, damaged and scattered files: what passes the layout rules comes out again; what does not is refused by the
/// check as well, by the same rule or by an earlier one that is none of the layout's.
#[test]
fn files_come_out_again() {
    let mut random = Random::for_part(7, "writer");
    let mut again = 0;
    for turn in 0..3_000 {
        let plan = Plan::roomy(&mut random);
        let draft = sound(&mut random, &plan, &Paper);
        let mut file = draft.write();
        match turn % 3 {
            0 => {}
            1 => file = damage(&mut random, &draft, &[RULES[turn / 3 % RULES.len()]]).0,
            _ => scatter(&mut random, &mut file),
        }
        match read_content(&file) {
            Ok(content) => {
                let mut out = vec![0; file.len()];
                assert_eq!(write(&content, &mut out), Ok(file.len()));
                assert_eq!(out, file);
                again += 1;
            }
            Err(refusal) => {
                let told = judge(&file, &Paper).err().expect("a file that breaks a rule of the layout is refused");
                assert!(
                    told == refusal || matches!(told.number, 8..=10 | 14 | 17 | 18 | 24..=26),
                    "{told:?}, {refusal:?}"
                );
            }
        }
    }
    assert!(again > 1_000);
}
