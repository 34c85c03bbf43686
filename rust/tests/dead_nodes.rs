//! Item 5 of the requests: "a file with a node other than 0 that no edges lead to from node 0 is refused".

use second::case::{judge, read_content, Draft, Graph, Lists, LoopRecord, Paper};
use second::generate::cases::{sound, Plan};
use second::random::Random;
use second::refusal::Refusal;

fn draft(nodes: u16, edges: &[(u16, u16)], loops: &[(u16, u16)]) -> Draft {
    let loops = loops.iter().map(|&(first, last)| LoopRecord::new(first, last, 3)).collect();
    let lists = Lists { nodes: (0..nodes).collect(), edges: edges.to_vec(), loops };
    Draft { version: 1, policy: 0, ways: 2, sets: 1, lists, facts: Vec::new() }
}

fn refused(draft: &Draft) -> Option<(u8, u64, u64)> {
    let Refusal { number, place, second } = judge(&draft.write(), &Paper).err()?;
    Some((number, place, second))
}

#[test]
fn nothing_need_lead_to_node_0() {
    assert_eq!(refused(&draft(1, &[], &[])), None);
    assert_eq!(refused(&draft(3, &[(0, 1), (0, 2)], &[])), None);
}

/// "place the least such node"
#[test]
fn the_least_dead_node_is_told() {
    assert_eq!(refused(&draft(2, &[], &[])), Some((26, 1, 0)));
    assert_eq!(refused(&draft(4, &[(0, 1), (1, 2)], &[])), Some((26, 3, 0)));
    assert_eq!(refused(&draft(4, &[(0, 3)], &[])), Some((26, 1, 0)));
    assert_eq!(refused(&draft(4, &[(0, 2), (2, 3)], &[])), Some((26, 1, 0)));
}

/// An edge alone does not make a node live: it must come from a live one.
#[test]
fn what_only_dead_nodes_lead_to_is_dead() {
    assert_eq!(refused(&draft(4, &[(0, 1), (2, 3)], &[])), Some((26, 2, 0)));
    assert_eq!(refused(&draft(4, &[(0, 1), (2, 3), (3, 2)], &[(2, 3)])), Some((26, 2, 0)));
    assert_eq!(refused(&draft(3, &[(0, 1), (2, 2)], &[(2, 2)])), Some((26, 2, 0)));
}

#[test]
fn a_dead_node_may_lead_to_live_ones() {
    assert_eq!(refused(&draft(4, &[(0, 1), (1, 3), (2, 3)], &[])), Some((26, 2, 0)));
}

#[test]
fn loops_are_live_by_their_headers() {
    assert_eq!(refused(&draft(4, &[(0, 1), (1, 2), (2, 1), (2, 3), (3, 1)], &[(1, 3)])), None);
    assert_eq!(refused(&draft(4, &[(0, 1), (1, 3), (3, 1)], &[(1, 3)])), Some((26, 2, 0)));
}

/// "after 9 and before 10"
#[test]
fn the_order() {
    assert_eq!(refused(&draft(4, &[(0, 1), (1, 3), (3, 2)], &[(1, 3)])), Some((9, 2, 0)));
    let mut heavy = draft(4, &[(0, 1), (1, 3)], &[(0, 3), (1, 3)]);
    heavy.lists.loops.iter_mut().for_each(|record| record.bound = 1_000_000);
    assert_eq!(refused(&heavy), Some((26, 2, 0)));
    heavy.lists.edges.push((2, 3));
    heavy.lists.edges.insert(1, (1, 2));
    assert_eq!(refused(&heavy), Some((10, 1, 0)));
}

/// 26 is none of the layout's rules: the writer takes dead nodes.
#[test]
fn the_layout_rules_do_not_ask() {
    assert!(read_content(&draft(3, &[], &[]).write()).is_ok());
}

/// Sound files have no dead nodes, and yet nodes that the one before does not lead to.
#[test]
fn sound_files_have_none() {
    let mut random = Random::for_part(7, "dead nodes");
    let mut jumped = 0;
    for turn in 0..600 {
        let plan = if turn % 100 == 0 { Plan::large(&mut random) } else { Plan::any(&mut random) };
        let lists = sound(&mut random, &plan, &Paper).lists;
        assert_eq!(Graph::new(&lists).reached().len(), lists.nodes.len());
        jumped += (1..lists.nodes.len() as u16).filter(|&node| !lists.edges.contains(&(node - 1, node))).count();
    }
    assert!(jumped > 100, "{jumped}");
}
