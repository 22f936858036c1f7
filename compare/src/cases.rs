//! The cases that are compared, from fixed seeds: accepted sheets with tags
//! that a walk meets and tags that it never meets, and damage of every sort.

use crate::reference::{step_on, Answer, Plant};
use crate::report;
use crate::rng::Rng;
use crate::shapes::{self, Plan, Shape, MOST_ROWS};
use std::fmt;

/// What one step is given.
#[derive(Clone, Debug, PartialEq, Eq)]
pub struct Case {
    /// Present switch, arrival port, destination.
    pub numbers: [u64; 3],
    pub sheet: Vec<u8>,
    pub faults: Vec<u8>,
    pub tag: Vec<u8>,
}

impl Case {
    pub fn size(&self) -> usize {
        self.sheet.len() + self.faults.len() + self.tag.len()
    }
}

impl fmt::Display for Case {
    fn fmt(&self, f: &mut fmt::Formatter) -> fmt::Result {
        let [present, arrival, destination] = self.numbers;
        writeln!(
            f,
            "  present {present}, arrival {arrival}, destination {destination}"
        )?;
        writeln!(f, "  sheet  {}", report::bytes(&self.sheet))?;
        writeln!(f, "  faults {}", report::bytes(&self.faults))?;
        write!(f, "  tag    {}", report::bytes(&self.tag))
    }
}

/// Takes the name of a family and one of its cases.
pub type Sink<'a> = &'a mut dyn FnMut(&'static str, Case);

/// All cases of `compare steps`.
pub fn step_cases(sink: Sink) {
    accepted(sink, 1);
    wrong_cases(sink);
}

/// Those among them where sheet or fault list is likely to be wrong.
pub fn wrong_cases(sink: Sink) {
    paper(sink);
    damaged_everywhere(sink);
    damaged_twice(sink);
    limits(sink);
    huge_numbers(sink);
    soup(sink);
}

// ---------------------------------------------------------------- accepted

/// Each catalogued plan with tags that a walk meets and that it never meets.
pub fn accepted(sink: Sink, thin: usize) {
    let rng = &mut Rng::new(11);
    for plan in shapes::catalogue(rng, thin) {
        let sheet = plan.bytes();
        for _ in 0..3 {
            let faults = plan.some_faults(rng);
            let mut met = met(rng, &plan, &sheet, &faults);
            rng.shuffle(&mut met);
            met.truncate(24);
            met.into_iter()
                .for_each(|case| sink("tag met by a walk", case));
            for _ in 0..24 {
                sink("tag no walk meets", never_met(rng, &plan, &sheet, &faults));
            }
        }
    }
}

/// The steps of one walk between two switches taken at random.
fn met(rng: &mut Rng, plan: &Plan, sheet: &[u8], faults: &[u8]) -> Vec<Case> {
    let plant = Plant::read(sheet, faults).expect("an accepted plan");
    let switches = plan.switches as usize;
    let destination = 1 + rng.below(switches) as u64;
    let (mut present, mut arrival) = (1 + rng.below(switches) as u64, 0);
    // Bytes beyond 2n are none of a step's business.
    let mut tag = vec![0; 2 * switches];
    tag.extend((0..rng.below(4)).map(|spare| 200 + spare as u8));
    let mut cases = Vec::new();
    loop {
        // A reference that is wrong must not walk for ever.
        assert!(cases.len() <= 2 * plant.cables, "the walk does not end");
        let numbers = [present, arrival, destination];
        cases.push(Case {
            numbers,
            sheet: sheet.to_vec(),
            faults: faults.to_vec(),
            tag: tag.clone(),
        });
        match step_on(&plant, numbers, &mut tag) {
            Answer::Forwarded(port) => {
                (present, arrival) = plant.far_end((present, port)).expect("a cabled port");
            }
            _ => return cases,
        }
    }
}

/// A step whose numbers and tag are made up; now and then out of bounds.
pub fn never_met(rng: &mut Rng, plan: &Plan, sheet: &[u8], faults: &[u8]) -> Case {
    let switches = plan.switches as u64;
    let present = some_switch(rng, switches);
    let ports = plan.ports(present);
    let arrival = some_arrival(rng, &ports);
    let tag = some_tag(rng, switches as usize, present, &ports, arrival);
    Case {
        numbers: [present, arrival, some_switch(rng, switches)],
        sheet: sheet.to_vec(),
        faults: faults.to_vec(),
        tag,
    }
}

fn some_switch(rng: &mut Rng, switches: u64) -> u64 {
    let switch = 1 + rng.number() % switches;
    if rng.one_in(24) {
        let odd = [0, switches + 1, switch + 256, switch + (1 << 32), u64::MAX];
        return rng.pick(&odd);
    }
    switch
}

fn some_arrival(rng: &mut Rng, ports: &[u8]) -> u64 {
    let port = 1 + rng.number() % 48;
    match rng.below(16) {
        0..=3 => 0,
        4 => port,
        5 => rng.pick(&[49, 255, 256, port + 256, port + (1 << 32), u64::MAX]),
        _ if ports.is_empty() => 0,
        _ => rng.pick(ports) as u64,
    }
}

fn some_tag(rng: &mut Rng, switches: usize, present: u64, ports: &[u8], arrival: u64) -> Vec<u8> {
    let length = match rng.below(32) {
        0 => rng.below(2 * switches),
        1 => 2 * switches - 1,
        2..=7 => 2 * switches + rng.below(9),
        _ => 2 * switches,
    };
    let mut tag = vec![0; length];
    if arrival == 0 && !rng.one_in(3) {
        return tag;
    }
    let cell = 2 * (present as usize).wrapping_sub(1).min(64);
    for (place, byte) in tag.iter_mut().enumerate() {
        if place == cell || place == cell + 1 {
            *byte = some_cell_byte(rng, ports);
        } else if rng.one_in(3) {
            *byte = rng.byte();
        }
    }
    tag
}

fn some_cell_byte(rng: &mut Rng, ports: &[u8]) -> u8 {
    match rng.below(10) {
        0..=2 => 0,
        3 => rng.below(50) as u8,
        4 if rng.one_in(4) => rng.byte(),
        _ if ports.is_empty() => 0,
        _ => rng.pick(ports),
    }
}

// ------------------------------------------------------------------ damage

/// Bytes at which a rule turns, and some beside them.
const TURNS: [u8; 12] = [0, 1, 2, 3, 4, 5, 48, 49, 64, 65, 128, 255];

/// The bytes with one changed, lost, added, doubled or cut at `place`.
pub fn damage_at(bytes: &[u8], place: usize, values: &[u8]) -> Vec<Vec<u8>> {
    let (front, back) = bytes.split_at(place);
    let mut made: Vec<Vec<u8>> = values
        .iter()
        .map(|&v| [front, &[v], back].concat())
        .collect();
    if let [byte, rest @ ..] = back {
        made.extend(values.iter().map(|&v| [front, &[v], rest].concat()));
        made.push([front, rest].concat());
        made.push([front, &[*byte, *byte], rest].concat());
        made.push(front.to_vec());
        for near in [byte.wrapping_add(1), byte.wrapping_sub(1)] {
            made.push([front, &[near], rest].concat());
        }
    }
    made
}

/// One damage at a place taken at random.
pub fn damage_once(rng: &mut Rng, bytes: &[u8]) -> Vec<u8> {
    let place = rng.below(bytes.len() + 1);
    let value = if rng.one_in(2) {
        rng.pick(&TURNS)
    } else {
        rng.byte()
    };
    let mut made = damage_at(bytes, place, &[value]);
    made.swap_remove(rng.below(made.len()))
}

/// A plan with a fault list and some step on it.
pub fn base(rng: &mut Rng, plan: &Plan) -> Case {
    let sheet = plan.bytes();
    let count = 1 + rng.below(4);
    let faults = plan.faults(rng, count);
    let mut met = met(rng, plan, &sheet, &faults);
    met.swap_remove(rng.below(met.len()))
}

/// Some smaller plans of each shape.
pub fn small_plans(rng: &mut Rng) -> Vec<Plan> {
    let mut plans = vec![shapes::square(), shapes::triangle()];
    for shape in shapes::SHAPES {
        let switches = 3 + rng.below(9) as u8;
        plans.push(shapes::plan(rng, shape, switches, switches as usize));
    }
    plans
}

/// Small sheets, fault lists and tags, damaged at every place in every way,
/// and a larger set at every place with one value.
fn damaged_everywhere(sink: Sink) {
    let rng = &mut Rng::new(22);
    for plan in small_plans(rng) {
        let case = base(rng, &plan);
        damaged_places(sink, &case, &TURNS);
    }
    let plan = shapes::plan(rng, Shape::Tree, 30, 60);
    let mut case = base(rng, &plan);
    case.faults = plan.faults(rng, 40);
    damaged_places(sink, &case, &[2]);
}

fn damaged_places(sink: Sink, case: &Case, values: &[u8]) {
    for place in 0..=case.sheet.len() {
        for sheet in damage_at(&case.sheet, place, values) {
            let case = case.clone();
            sink("damaged sheet", Case { sheet, ..case });
        }
    }
    for place in 0..=case.faults.len() {
        for faults in damage_at(&case.faults, place, values) {
            let case = case.clone();
            sink("damaged fault list", Case { faults, ..case });
        }
    }
    for place in 0..=case.tag.len() {
        for tag in damage_at(&case.tag, place, values) {
            let case = case.clone();
            sink("damaged tag", Case { tag, ..case });
        }
    }
}

/// Catalogued sheets of all sizes with several things wrong at once, which
/// shows what comes first.
fn damaged_twice(sink: Sink) {
    let rng = &mut Rng::new(33);
    for plan in shapes::catalogue(rng, 2) {
        for _ in 0..24 {
            let list = plan.some_faults(rng);
            let mut case = never_met(rng, &plan, &plan.bytes(), &list);
            for _ in 0..1 + rng.below(3) {
                match rng.below(5) {
                    0 | 1 => case.sheet = damage_once(rng, &case.sheet),
                    2 | 3 => case.faults = damage_once(rng, &case.faults),
                    _ => case.numbers[rng.below(3)] = rng.number() % 70,
                }
            }
            sink("several things wrong", case);
        }
    }
}

// ------------------------------------------------------------------ limits

/// What may follow the last row that is allowed: the bytes after a record.
fn tails(row: &[u8]) -> Vec<Vec<u8>> {
    let mut tails = vec![Vec::new(), row.repeat(2), vec![0; 9]];
    tails.extend((1..=row.len()).map(|length| row[..length].to_vec()));
    tails.extend([0, 1, 2, 3, 4, 255].map(|kind| [&[kind], &row[1..]].concat()));
    tails
}

/// Full sheets and full fault lists, and those that pass a limit by one.
fn limits(sink: Sink) {
    let rng = &mut Rng::new(44);
    let plan = shapes::full(rng);
    let full = plan.bytes();
    let rows = [[2, 1, 48, 0, 2, 48, 0], [2, 0, 0, 0, 0, 0, 0]];
    for list in [vec![], plan.faults(rng, 3), plan.faults(rng, MOST_ROWS)] {
        for tail in rows.iter().flat_map(|row| tails(row)) {
            let sheet = [&full[..], &tail].concat();
            for _ in 0..4 {
                let case = never_met(rng, &plan, &sheet, &list);
                sink("limits of the sheet", case);
            }
        }
    }
    let many = plan.faults(rng, MOST_ROWS);
    let named = [3, plan.rows[0][0], plan.rows[0][1]];
    for tail in [named, [3, 99, 99]].iter().flat_map(|row| tails(row)) {
        let list = [&many[..], &tail].concat();
        for _ in 0..8 {
            let case = never_met(rng, &plan, &full, &list);
            sink("limits of the fault list", case);
        }
    }
    counts(sink, rng);
    long(sink, rng);
}

/// Every number of switches, with cables at its edge and past it.
fn counts(sink: Sink, rng: &mut Rng) {
    for switches in 0..=255 {
        let edge = switches.clamp(2, 254);
        for (switch, port) in [(edge, 48), (edge, 49), (edge + 1, 1), (edge, 0), (0, 1)] {
            let rows = vec![[1, 1, 0, switch, port, 0]];
            let plan = Plan { switches, rows };
            let asked = Plan {
                switches: switches.clamp(1, 64),
                rows: plan.rows.clone(),
            };
            for faults in [vec![], vec![3, switch, port]] {
                let case = never_met(rng, &asked, &plan.bytes(), &faults);
                sink("limits of the numbers", case);
            }
        }
    }
}

/// Slices far longer than any that is accepted.
fn long(sink: Sink, rng: &mut Rng) {
    let plan = shapes::square();
    let sheet = plan.bytes();
    for byte in [0, 1, 2, 3, 255] {
        for length in [513 * 7, 513 * 7 + 1, 20_000] {
            let run = vec![byte; length];
            let wrong = [&sheet[..], &run].concat();
            sink("long slices", never_met(rng, &plan, &wrong, &[]));
            sink("long slices", never_met(rng, &plan, &run, &[3, 2, 2]));
            sink("long slices", never_met(rng, &plan, &sheet, &run));
            let mut case = never_met(rng, &plan, &sheet, &[3, 2, 2]);
            case.tag.extend(run);
            sink("long slices", case);
        }
    }
}

/// Numbers that would be right if some of their bits were dropped.
fn huge_numbers(sink: Sink) {
    let rng = &mut Rng::new(55);
    for plan in [shapes::square(), shapes::triangle(), shapes::full(rng)] {
        for bit in 6..64 {
            for which in 0..3 {
                for _ in 0..4 {
                    let mut case = base(rng, &plan);
                    case.numbers[which] = case.numbers[which].wrapping_add(1 << bit);
                    sink("huge numbers", case);
                }
            }
        }
    }
}

// ------------------------------------------------------------------- paper

/// The square of the outline: every byte with every value, and all small
/// numbers with all small cells.
fn paper(sink: Sink) {
    let sheet = shapes::square().bytes();
    let start = Case {
        numbers: [1, 0, 3],
        sheet: sheet.clone(),
        faults: vec![3, 2, 2],
        tag: vec![0; 10],
    };
    let middle = Case {
        numbers: [4, 2, 5],
        sheet,
        faults: vec![3, 2, 2, 3, 3, 1],
        tag: vec![0, 2, 1, 0, 0, 0, 0, 0, 0, 0],
    };
    for case in [start, middle] {
        for value in 0..=255 {
            every_place(sink, &case, value);
        }
        small_numbers(sink, &case);
    }
}

fn every_place(sink: Sink, case: &Case, value: u8) {
    for place in 0..case.sheet.len() {
        let mut case = case.clone();
        case.sheet[place] = value;
        sink("the square, each byte", case);
    }
    for place in 0..case.faults.len() {
        let mut case = case.clone();
        case.faults[place] = value;
        sink("the square, each byte", case);
    }
    for place in 0..case.tag.len() {
        let mut case = case.clone();
        case.tag[place] = value;
        sink("the square, each byte", case);
    }
}

fn small_numbers(sink: Sink, case: &Case) {
    for present in 0..=6 {
        for arrival in [0, 1, 2, 3, 48, 49] {
            for destination in 0..=6 {
                for cell in 0..16 {
                    let mut tag = vec![0; 10];
                    let place = 2 * (present as usize).clamp(1, 5) - 2;
                    tag[place..place + 2].copy_from_slice(&[cell / 4, cell % 4]);
                    let numbers = [present, arrival, destination];
                    let case = case.clone();
                    sink(
                        "the square, small numbers",
                        Case {
                            numbers,
                            tag,
                            ..case
                        },
                    );
                }
            }
        }
    }
}

// -------------------------------------------------------------------- soup

/// Short slices of bytes that are likely to be right.
fn soup(sink: Sink) {
    let rng = &mut Rng::new(66);
    for _ in 0..30_000 {
        let mut sheet = vec![1, 2 + rng.below(4) as u8];
        for _ in 0..rng.below(6) {
            let ends = [1, 2].map(|_| [1 + rng.below(5), rng.below(4), rng.below(2)]);
            sheet.push(if rng.one_in(60) { rng.byte() } else { 2 });
            sheet.extend(ends.concat().into_iter().map(|number| number as u8));
        }
        let mut faults = Vec::new();
        for _ in 0..rng.below(3) {
            faults.extend([3, 1 + rng.below(4) as u8, 1 + rng.below(3) as u8]);
        }
        if rng.one_in(30) {
            sheet.truncate(rng.below(sheet.len() + 1));
        }
        let length = if rng.one_in(2) { 10 } else { rng.below(14) };
        let mut tag = vec![0; length];
        if rng.one_in(2) {
            tag.iter_mut().for_each(|byte| *byte = rng.below(4) as u8);
        }
        let numbers = [rng.below(6), rng.below(4), rng.below(6)].map(|number| number as u64);
        sink(
            "soup",
            Case {
                numbers,
                sheet,
                faults,
                tag,
            },
        );
    }
}
