//! The three ways to gather agree, sound files pass, and every wrong rule is broken.

use second::case::{judge, Gathered, Graph, Paper};
use second::compare::gathering::gather;
use second::generate::braids::braid;
use second::generate::cases::{sound, Plan};
use second::generate::evidence::Question;
use second::machine::Geometry;
use second::must_break;
use second::random::Random;

#[test]
fn walks_gather_what_rounds_gather() {
    let mut random = Random::for_part(7, "gathering");
    for _ in 0..300 {
        let plan = Plan::small(&mut random);
        let draft = sound(&mut random, &plan, &Paper);
        let geometry = Geometry::read(draft.policy, draft.ways, draft.sets).unwrap();
        let graph = Graph::new(&draft.lists);
        for (scope, block) in graph.scopes().into_iter().flat_map(|scope| (0..9).map(move |block| (scope, block))) {
            let question = Question { geometry, graph: &graph, rules: &Paper, scope, block };
            let gathered = gather(geometry, &graph, scope, block);
            assert_eq!(gathered, Gathered::since(geometry, &graph, scope, block));
            for limit in 1..=8 {
                assert_eq!(gathered.rows(limit), question.least_rows(limit));
            }
        }
    }
}

#[test]
fn files_that_should_be_sound_are() {
    let mut random = Random::for_part(7, "sound");
    for _ in 0..300 {
        let plan = Plan::any(&mut random);
        for draft in [sound(&mut random, &plan, &Paper), braid(&mut random, &Paper)] {
            assert!(judge(&draft.write(), &Paper).is_ok(), "{draft:?}");
        }
    }
}

#[test]
fn every_wrong_rule_is_broken() {
    assert_eq!(must_break::run(None), Ok(()));
}
