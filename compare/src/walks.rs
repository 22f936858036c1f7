//! Walks made by calling the library at each switch, against the reference's
//! walk and against condition 3 as a separate search finds it.

use crate::cases::Case;
use crate::door::{self, Empty, Outcome};
use crate::reference::{walk, Plant, Walk, WalkEnd};
use crate::report::{self, Tally};
use crate::rng::Rng;
use crate::search::{check, search, Seen};
use crate::shapes::{self, Plan, Shape};
use crate::shrink::shrink;
use crate::steps;

const DELIVERED: u64 = 1 << 32;
const NONE: u64 = 2 << 32;

/// The walk that the library makes.
struct Made {
    delivered: bool,
    switch: u64,
    hops: Vec<(u8, u8)>,
    tag: Vec<u8>,
}

/// A case here is a walk: source, 0, destination, and no tag.
fn case_of(sheet: &[u8], faults: &[u8], source: u64, destination: u64) -> Case {
    Case {
        numbers: [source, 0, destination],
        sheet: sheet.to_vec(),
        faults: faults.to_vec(),
        tag: Vec::new(),
    }
}

/// Carries a packet from switch to switch; an error tells what went wrong.
fn carry(plant: &Plant, case: &Case, most_hops: usize) -> Result<Made, String> {
    let mut at = case.clone();
    at.tag = vec![0; 2 * plant.switches as usize];
    let mut hops = Vec::new();
    loop {
        let Outcome { answer, tag } = door::step(&at, Empty::Fenced)?;
        at.tag = tag;
        let delivered = answer == DELIVERED;
        let [switch, _, destination] = at.numbers;
        if delivered || answer == NONE {
            let tag = at.tag;
            return Ok(Made {
                delivered,
                switch,
                hops,
                tag,
            });
        }
        let Some((next, arrival)) = plant.far_end((switch, answer)) else {
            return Err(format!("hop {}: {}", hops.len(), report::answer(answer)));
        };
        if hops.len() == most_hops {
            return Err(format!("more than the reference's {most_hops} hops"));
        }
        hops.push((switch as u8, answer as u8));
        at.numbers = [next, arrival, destination];
    }
}

/// The reference's walk: answer, tag and hops.
fn walk_of(plant: &Plant, case: &Case) -> (Walk, Vec<u8>, Vec<(u8, u8)>) {
    let mut tag = vec![0; 2 * plant.switches as usize];
    let mut trace = vec![0; 4 * plant.cables];
    let [source, _, destination] = case.numbers;
    let ask = (source, destination);
    let walk = walk(ask, &case.sheet, &case.faults, &mut tag, &mut trace);
    let hops = trace[..2 * walk.hops].chunks(2);
    let hops = hops.map(|hop| (hop[0], hop[1])).collect();
    (walk, tag, hops)
}

/// What the library's walk does otherwise than it should; refused walks are
/// no matter of this comparison.
fn judge(case: &Case) -> Option<Result<Made, String>> {
    let plant = Plant::read(&case.sheet, &case.faults).ok()?;
    let (walk, tag, hops) = walk_of(&plant, case);
    if matches!(walk.end, WalkEnd::Refused(_)) {
        return None;
    }
    let made = match carry(&plant, case, hops.len()) {
        Ok(made) => made,
        Err(complaint) => return Some(Err(complaint)),
    };
    if let Some(hop) = (0..hops.len()).find(|&hop| made.hops.get(hop) != Some(&hops[hop])) {
        return Some(Err(format!("hop {hop} is not the reference's")));
    }
    let end = made.delivered == (walk.end == WalkEnd::Delivered);
    if !end || made.switch != walk.switch || made.tag != tag {
        return Some(Err("end, switch or tag is not the reference's".to_string()));
    }
    Some(condition_three(case, &made).map(|()| made))
}

fn condition_three(case: &Case, made: &Made) -> Result<(), String> {
    let [source, _, destination] = case.numbers;
    let reach = search(&case.sheet, &case.faults, source as u8);
    let seen = Seen {
        source: source as u8,
        destination: destination as u8,
        delivered: made.delivered,
        switch: made.switch as u8,
        hops: &made.hops,
    };
    check(&reach, &seen)
}

fn show(case: Case) {
    let case = shrink(case, &mut |case| matches!(judge(case), Some(Err(_))));
    let Some(Err(complaint)) = judge(&case) else {
        return;
    };
    println!("smallest walk found that is wrong (source is 'present'):\n{case}");
    println!("  {complaint}");
}

/// Source and destination pairs: all on a small plan, else some.
fn asks(rng: &mut Rng, plan: &Plan) -> Vec<(u64, u64)> {
    let n = plan.switches as u64;
    if n <= 5 {
        return (1..=n).flat_map(|s| (1..=n).map(move |d| (s, d))).collect();
    }
    // The longest walks are those over many cables, so fewer of them.
    let walks = if plan.rows.len() > 100 { 1 } else { 5 };
    (0..walks)
        .map(|_| (1 + rng.number() % n, 1 + rng.number() % n))
        .collect()
}

/// A plan with one more switch, which has no cable: no walk to it delivers.
fn with_lonely(plan: &Plan) -> Option<(Vec<u8>, u64)> {
    let switches = plan.switches + 1;
    let rows = plan.rows.clone();
    let sheet = Plan { switches, rows }.bytes();
    (switches <= shapes::MOST_SWITCHES).then_some((sheet, switches as u64))
}

/// The longest walk there is: all 512 cables, once each way.
fn longest_walk(rng: &mut Rng) -> Case {
    let plan = shapes::plan(rng, Shape::Ring, 63, shapes::MOST_ROWS);
    assert_eq!(plan.rows.len(), shapes::MOST_ROWS);
    let (sheet, lonely) = with_lonely(&plan).expect("64 switches");
    case_of(&sheet, &[], 1, lonely)
}

fn each_walk(sink: &mut dyn FnMut(Case)) {
    let rng = &mut Rng::new(88);
    sink(longest_walk(rng));
    for plan in shapes::catalogue(rng, 3) {
        let sheet = plan.bytes();
        for faults in [vec![], plan.some_faults(rng)] {
            for (source, destination) in asks(rng, &plan) {
                sink(case_of(&sheet, &faults, source, destination));
            }
            if let Some((sheet, lonely)) = with_lonely(&plan) {
                let source = 1 + rng.number() % plan.switches as u64;
                sink(case_of(&sheet, &faults, source, lonely));
            }
        }
    }
}

/// `compare walks`; true if all is well.
pub fn run() -> bool {
    let (mut ends, mut hops) = (Tally::default(), Tally::default());
    let (mut differ, mut longest) = (0, 0);
    let mut smallest = None;
    each_walk(&mut |case| {
        let name = match judge(&case) {
            None => "refused",
            Some(Err(_)) => "wrong",
            Some(Ok(made)) => {
                let name = if made.delivered { "delivered" } else { "none" };
                hops.add(name, made.hops.len() as u64);
                longest = longest.max(made.hops.len() as u64);
                name
            }
        };
        ends.add(name, 1);
        if name == "wrong" {
            differ += 1;
            steps::keep_smaller(&mut smallest, case);
        }
    });
    println!("walks by end:\n{}", ends.lines());
    println!("hops by end:\n{}", hops.lines());
    println!("longest walk: {} hops", report::thousands(longest));
    smallest.into_iter().for_each(show);
    report::verdict("walks", ends.total() - ends.of("refused"), differ)
}
