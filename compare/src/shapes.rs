//! Accepted sheets of every size and shape, and fault lists for them.

use crate::rng::Rng;

pub const MOST_SWITCHES: u8 = 64;
pub const MOST_PORTS: u8 = 48;
pub const MOST_ROWS: usize = 512;

/// How the cables lie.
#[derive(Clone, Copy, Debug, PartialEq, Eq)]
pub enum Shape {
    Any,
    Star,
    Ring,
    Path,
    Tree,
    Halves,
    Pair,
    Few,
}

pub const SHAPES: [Shape; 8] = [
    Shape::Any,
    Shape::Star,
    Shape::Ring,
    Shape::Path,
    Shape::Tree,
    Shape::Halves,
    Shape::Pair,
    Shape::Few,
];

/// Which free port an end takes.
#[derive(Clone, Copy)]
enum Ports {
    Lowest,
    Highest,
    Any,
}

/// Where preferences come from.
#[derive(Clone, Copy)]
enum Preferences {
    Equal,
    Different,
    Close,
    Any,
}

/// An accepted sheet as rows: switch, port, preference, twice.
#[derive(Clone, Debug)]
pub struct Plan {
    pub switches: u8,
    pub rows: Vec<[u8; 6]>,
}

impl Plan {
    pub fn bytes(&self) -> Vec<u8> {
        let mut bytes = vec![1, self.switches];
        for row in &self.rows {
            bytes.push(2);
            bytes.extend(row);
        }
        bytes
    }

    /// The cabled ports of a switch, in the order of the rows.
    pub fn ports(&self, switch: u64) -> Vec<u8> {
        let ends = self
            .rows
            .iter()
            .flat_map(|row| [(row[0], row[1]), (row[3], row[4])]);
        ends.filter(|end| end.0 as u64 == switch)
            .map(|end| end.1)
            .collect()
    }

    /// The same cables with the rows shuffled and ends swapped.
    pub fn rebuilt(&self, rng: &mut Rng) -> Plan {
        let mut plan = self.clone();
        rng.shuffle(&mut plan.rows);
        for row in &mut plan.rows {
            if rng.one_in(2) {
                *row = [row[3], row[4], row[5], row[0], row[1], row[2]];
            }
        }
        plan
    }

    /// One end of one cable as a fault row.
    fn fault(&self, cable: usize, second: bool) -> [u8; 3] {
        let row = self.rows[cable];
        if second {
            [3, row[3], row[4]]
        } else {
            [3, row[0], row[1]]
        }
    }

    /// A fault list of `count` rows, repeats and both ends among them.
    pub fn faults(&self, rng: &mut Rng, count: usize) -> Vec<u8> {
        if self.rows.is_empty() {
            return Vec::new();
        }
        let rows = (0..count).flat_map(|_| self.fault(rng.below(self.rows.len()), rng.one_in(2)));
        rows.collect()
    }

    /// A fault list that names each of the first `cables` cables once.
    pub fn all_dead(&self, rng: &mut Rng, cables: usize) -> Vec<u8> {
        let dead = cables.min(self.rows.len());
        (0..dead)
            .flat_map(|cable| self.fault(cable, rng.one_in(2)))
            .collect()
    }

    /// Some fault list: mostly none or few, now and then as many as may be.
    pub fn some_faults(&self, rng: &mut Rng) -> Vec<u8> {
        match rng.below(8) {
            0 | 1 => Vec::new(),
            2 | 3 => self.faults(rng, 1),
            4 => self.faults(rng, 1 + self.rows.len() / 8),
            5 => self.faults(rng, (self.rows.len() / 2).max(2)),
            6 => self.all_dead(rng, MOST_ROWS),
            _ => {
                // Few cables, named many times.
                let few = self.faults(rng, 3);
                let times = 1 + rng.below(MOST_ROWS / 3);
                few.repeat(times)
            }
        }
    }
}

/// Lays cables until `cables` are laid or no port is free where one is wanted.
pub fn plan(rng: &mut Rng, shape: Shape, switches: u8, cables: usize) -> Plan {
    let mut layer = Layer {
        free: vec![(1..=MOST_PORTS).collect(); switches as usize + 1],
        ports: rng.pick(&[Ports::Lowest, Ports::Highest, Ports::Any, Ports::Any]),
        preferences: rng.pick(&[
            Preferences::Equal,
            Preferences::Different,
            Preferences::Close,
            Preferences::Any,
        ]),
        names: (1..=switches).collect(),
        rows: Vec::new(),
    };
    if rng.one_in(2) {
        rng.shuffle(&mut layer.names);
    }
    // A shape may ask for a switch that is full: give up after some tries.
    let mut tries = 0;
    while switches > 1 && layer.rows.len() < cables.min(MOST_ROWS) && tries < 4 * cables + 8 {
        if let Some((one, other)) = pair(rng, shape, switches as usize, tries) {
            layer.lay(rng, one, other);
        }
        tries += 1;
    }
    rng.shuffle(&mut layer.rows);
    Plan {
        switches,
        rows: layer.rows,
    }
}

/// The two switches (from 0) that the next cable joins; there are at least 2.
fn pair(rng: &mut Rng, shape: Shape, n: usize, turn: usize) -> Option<(usize, usize)> {
    let two = match shape {
        Shape::Any => (rng.below(n), rng.below(n)),
        Shape::Star => (0, 1 + turn % (n - 1)),
        Shape::Ring => (turn % n, (turn + 1) % n),
        Shape::Path => (turn % (n - 1), turn % (n - 1) + 1),
        Shape::Tree => {
            let child = 1 + turn % (n - 1);
            (child, rng.below(child))
        }
        Shape::Halves => {
            let half = n / 2;
            let (first, size) = rng.pick(&[(0, half), (half, n - half)]);
            (first + rng.below(size), first + rng.below(size))
        }
        Shape::Pair => (turn % 2, 1 - turn % 2),
        Shape::Few => {
            // A knot of few switches with many cables; the rest stay alone.
            let knot = n.min(12);
            (rng.below(knot), rng.below(knot))
        }
    };
    (two.0 != two.1).then_some(two)
}

/// What is still free while cables are laid.
struct Layer {
    free: Vec<Vec<u8>>,
    ports: Ports,
    preferences: Preferences,
    names: Vec<u8>,
    rows: Vec<[u8; 6]>,
}

impl Layer {
    fn lay(&mut self, rng: &mut Rng, one: usize, other: usize) {
        let (a, b) = (self.names[one], self.names[other]);
        if self.free[a as usize].is_empty() || self.free[b as usize].is_empty() {
            return;
        }
        let (p, q) = (self.take(rng, a), self.take(rng, b));
        let (u, v) = (self.preference(rng, p), self.preference(rng, q));
        self.rows.push([a, p, u, b, q, v]);
    }

    fn take(&mut self, rng: &mut Rng, switch: u8) -> u8 {
        let free = &mut self.free[switch as usize];
        let at = match self.ports {
            Ports::Lowest => 0,
            Ports::Highest => free.len() - 1,
            Ports::Any => rng.below(free.len()),
        };
        free.remove(at)
    }

    fn preference(&self, rng: &mut Rng, port: u8) -> u8 {
        match self.preferences {
            Preferences::Equal => 7,
            // 5 and 256 share no factor: no two ports of a switch agree.
            Preferences::Different => port.wrapping_mul(5).wrapping_add(100),
            Preferences::Close => rng.below(3) as u8,
            Preferences::Any if rng.one_in(4) => rng.pick(&[0, 255]),
            Preferences::Any => rng.byte(),
        }
    }
}

/// The square of the outline.
pub fn square() -> Plan {
    Plan {
        switches: 5,
        rows: vec![
            [1, 1, 0, 2, 1, 0],
            [2, 2, 0, 3, 1, 0],
            [3, 2, 0, 4, 1, 0],
            [4, 2, 0, 1, 2, 0],
        ],
    }
}

/// The triangle of the outline.
pub fn triangle() -> Plan {
    Plan {
        switches: 5,
        rows: vec![
            [1, 1, 0, 2, 1, 0],
            [1, 2, 0, 4, 1, 0],
            [1, 3, 0, 3, 2, 0],
            [2, 2, 0, 3, 1, 0],
        ],
    }
}

/// 64 switches and 512 cables.
pub fn full(rng: &mut Rng) -> Plan {
    let plan = plan(rng, Shape::Ring, MOST_SWITCHES, MOST_ROWS);
    assert_eq!(plan.rows.len(), MOST_ROWS);
    plan
}

/// A plan for each number of switches and shape, then for each number of
/// cables; `thin` keeps one in that many.
pub fn catalogue(rng: &mut Rng, thin: usize) -> Vec<Plan> {
    let mut plans = vec![square(), triangle(), full(rng)];
    let mut turn = 0;
    for switches in 1..=MOST_SWITCHES {
        for shape in SHAPES {
            turn += 1;
            let cables = rng.below(3 * switches as usize + 1);
            if turn % thin == 0 {
                plans.push(plan(rng, shape, switches, cables));
            }
        }
    }
    for cables in 0..=MOST_ROWS {
        turn += 1;
        // A switch has 48 ports: enough switches for so many cables.
        let least = (cables / 16 + 2).min(MOST_SWITCHES as usize);
        let switches = least + rng.below(MOST_SWITCHES as usize - least + 1);
        let shape = rng.pick(&[Shape::Any, Shape::Ring, Shape::Path, Shape::Tree]);
        if turn % thin == 0 {
            plans.push(plan(rng, shape, switches as u8, cables));
        }
    }
    plans
}
