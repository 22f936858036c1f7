//! The generators make what they say.

use crate::reference::Plant;
use crate::rng::Rng;
use crate::search::search;
use crate::shapes::*;
use std::collections::BTreeSet;

#[test]
fn the_catalogue_has_every_size() {
    let rng = &mut Rng::new(1);
    let plans = catalogue(rng, 1);
    let switches: BTreeSet<u8> = plans.iter().map(|plan| plan.switches).collect();
    let cables: BTreeSet<usize> = plans.iter().map(|plan| plan.rows.len()).collect();
    assert!(switches.iter().copied().eq(1..=64));
    assert!(cables.iter().copied().eq(0..=512));
    for plan in &plans {
        let faults = plan.some_faults(rng);
        assert!(faults.len() <= 3 * MOST_ROWS);
        Plant::read(&plan.bytes(), &faults).expect("accepted");
    }
}

#[test]
fn fault_lists_get_as_long_as_they_may() {
    let rng = &mut Rng::new(2);
    let plan = full(rng);
    for faults in [plan.faults(rng, MOST_ROWS), plan.all_dead(rng, MOST_ROWS)] {
        assert_eq!(faults.len(), 3 * MOST_ROWS);
        Plant::read(&plan.bytes(), &faults).expect("accepted");
    }
}

#[test]
fn shapes_are_what_their_names_say() {
    let rng = &mut Rng::new(3);
    let reached = |plan: &Plan| search(&plan.bytes(), &[], 1).switches.len();
    for shape in [Shape::Star, Shape::Ring, Shape::Path, Shape::Tree] {
        assert_eq!(reached(&plan(rng, shape, 20, 20)), 20, "{shape:?}");
    }
    assert!(reached(&plan(rng, Shape::Halves, 20, 60)) <= 10);
    let double = plan(rng, Shape::Pair, 20, 60);
    assert_eq!(double.rows.len(), MOST_PORTS as usize);
}

#[test]
fn a_rebuilt_plan_has_the_same_cables() {
    let rng = &mut Rng::new(4);
    let plan = plan(rng, Shape::Any, 30, 60);
    let rebuilt = plan.rebuilt(rng);
    assert_ne!(plan.bytes(), rebuilt.bytes());
    let ends = |plan: &Plan| -> BTreeSet<[[u8; 3]; 2]> {
        let rows = plan.rows.iter();
        rows.map(|row| {
            let mut ends = [[row[0], row[1], row[2]], [row[3], row[4], row[5]]];
            ends.sort();
            ends
        })
        .collect()
    };
    assert_eq!(ends(&plan), ends(&rebuilt));
}
