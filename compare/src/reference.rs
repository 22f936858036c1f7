//! The outline's rules, read once more and written as plainly as possible:
//! maps, sorts and numbers wide enough for anything. Nothing here is fast.

use std::collections::{BTreeMap, BTreeSet};

const MOST_SWITCHES: u64 = 64;
const MOST_PORTS: u64 = 48;
const MOST_ROWS: usize = 512;

/// A switch and one of its ports.
pub type Place = (u64, u64);

/// The slice that a faulty row lies in.
#[derive(Clone, Copy, Debug, PartialEq, Eq)]
pub enum Part {
    Sheet,
    Faults,
}

/// The bytes of a faulty row.
#[derive(Clone, Copy, Debug, PartialEq, Eq)]
pub struct Row {
    pub part: Part,
    pub start: usize,
    pub length: usize,
}

/// Why a sheet or a fault list is refused (1 to 5), and where.
#[derive(Clone, Copy, Debug, PartialEq, Eq)]
pub struct Wrong {
    pub refusal: u64,
    pub row: Row,
}

/// What one kind of record must look like before its content is read.
struct Form {
    part: Part,
    kind: u8,
    length: usize,
    refusal: u64,
}

const COUNT: Form = Form {
    part: Part::Sheet,
    kind: 1,
    length: 2,
    refusal: 1,
};
const CABLE: Form = Form {
    part: Part::Sheet,
    kind: 2,
    length: 7,
    refusal: 1,
};
const FAULT: Form = Form {
    part: Part::Faults,
    kind: 3,
    length: 3,
    refusal: 4,
};

impl Form {
    fn wrong(&self, refusal: u64, start: usize, length: usize) -> Wrong {
        let row = Row {
            part: self.part,
            start,
            length,
        };
        Wrong { refusal, row }
    }

    /// The record at `at`, where a byte stands, after `before` of its kind.
    fn record<'a>(&self, bytes: &'a [u8], at: usize, before: usize) -> Result<&'a [u8], Wrong> {
        if bytes[at] != self.kind {
            return Err(self.wrong(self.refusal, at, 1));
        }
        let present = (bytes.len() - at).min(self.length);
        if present < self.length || before >= MOST_ROWS {
            return Err(self.wrong(self.refusal, at, present));
        }
        Ok(&bytes[at..at + present])
    }
}

/// What stands at a cabled port.
#[derive(Clone, Copy, Debug)]
struct Socket {
    preference: u64,
    far: Place,
}

/// An accepted sheet with an accepted fault list.
#[derive(Debug)]
pub struct Plant {
    pub switches: u64,
    pub cables: usize,
    sockets: BTreeMap<Place, Socket>,
    named: BTreeSet<Place>,
}

impl Plant {
    /// Refusals 1 to 5, in the outline's order.
    pub fn read(sheet: &[u8], faults: &[u8]) -> Result<Plant, Wrong> {
        let mut plant = read_sheet(sheet)?;
        read_faults(&mut plant, faults)?;
        Ok(plant)
    }

    pub fn is_switch(&self, number: u64) -> bool {
        (1..=self.switches).contains(&number)
    }

    pub fn is_cabled(&self, place: Place) -> bool {
        self.sockets.contains_key(&place)
    }

    /// The other end of the cable at `place`.
    pub fn far_end(&self, place: Place) -> Option<Place> {
        self.sockets.get(&place).map(|socket| socket.far)
    }

    /// A cable stands here and the fault list names neither of its ends.
    pub fn is_live(&self, place: Place) -> bool {
        match self.far_end(place) {
            Some(far) => !self.named.contains(&place) && !self.named.contains(&far),
            None => false,
        }
    }

    /// The cabled ports of a switch, by preference and then by number.
    pub fn port_order(&self, switch: u64) -> Vec<u64> {
        let mut order: Vec<(u64, u64)> = self
            .sockets
            .range((switch, 0)..=(switch, u64::MAX))
            .map(|(place, socket)| (socket.preference, place.1))
            .collect();
        order.sort();
        order.into_iter().map(|(_, port)| port).collect()
    }
}

fn read_sheet(bytes: &[u8]) -> Result<Plant, Wrong> {
    if bytes.is_empty() {
        return Err(COUNT.wrong(1, 0, 0));
    }
    let switches = COUNT.record(bytes, 0, 0)?[1] as u64;
    if !(1..=MOST_SWITCHES).contains(&switches) {
        return Err(COUNT.wrong(2, 0, COUNT.length));
    }
    let mut plant = Plant {
        switches,
        cables: 0,
        sockets: BTreeMap::new(),
        named: BTreeSet::new(),
    };
    let mut at = COUNT.length;
    while at < bytes.len() {
        let row = CABLE.record(bytes, at, plant.cables)?;
        if !add_cable(&mut plant, row) {
            return Err(CABLE.wrong(3, at, CABLE.length));
        }
        at += CABLE.length;
    }
    Ok(plant)
}

/// False if the row breaks a rule on switches or ports.
fn add_cable(plant: &mut Plant, row: &[u8]) -> bool {
    let one = (row[1] as u64, row[2] as u64);
    let other = (row[4] as u64, row[5] as u64);
    if one.0 == other.0 {
        return false;
    }
    for place in [one, other] {
        let known = plant.is_switch(place.0) && (1..=MOST_PORTS).contains(&place.1);
        if !known || plant.is_cabled(place) {
            return false;
        }
    }
    for (place, preference, far) in [(one, row[3], other), (other, row[6], one)] {
        let preference = preference as u64;
        plant.sockets.insert(place, Socket { preference, far });
    }
    plant.cables += 1;
    true
}

fn read_faults(plant: &mut Plant, bytes: &[u8]) -> Result<(), Wrong> {
    let mut at = 0;
    let mut before = 0;
    while at < bytes.len() {
        let row = FAULT.record(bytes, at, before)?;
        let place = (row[1] as u64, row[2] as u64);
        if !plant.is_cabled(place) {
            return Err(FAULT.wrong(5, at, FAULT.length));
        }
        plant.named.insert(place);
        at += FAULT.length;
        before += 1;
    }
    Ok(())
}

/// The faulty row; the empty part at the sheet's front if nothing is wrong.
pub fn faulty_row(sheet: &[u8], faults: &[u8]) -> Row {
    match Plant::read(sheet, faults) {
        Err(wrong) => wrong.row,
        Ok(_) => Row {
            part: Part::Sheet,
            start: 0,
            length: 0,
        },
    }
}

/// The answer of one step.
#[derive(Clone, Copy, Debug, PartialEq, Eq)]
pub enum Answer {
    Forwarded(u64),
    Delivered,
    None,
    Refused(u64),
}

impl Answer {
    /// The one number that a C caller gets.
    pub fn number(self) -> u64 {
        let (end, rest) = match self {
            Answer::Forwarded(port) => (0, port),
            Answer::Delivered => (1, 0),
            Answer::None => (2, 0),
            Answer::Refused(number) => (3, number),
        };
        end * 4294967296 + rest
    }
}

/// One step on bytes: refusals 1 to 10, the answer, and the tag afterwards.
pub fn step(numbers: [u64; 3], sheet: &[u8], faults: &[u8], tag: &mut [u8]) -> Answer {
    match Plant::read(sheet, faults) {
        Err(wrong) => Answer::Refused(wrong.refusal),
        Ok(plant) => step_on(&plant, numbers, tag),
    }
}

/// One step on a plant; the numbers are present switch, arrival, destination.
pub fn step_on(plant: &Plant, numbers: [u64; 3], tag: &mut [u8]) -> Answer {
    if let Some(number) = refused_step(plant, numbers, tag) {
        return Answer::Refused(number);
    }
    let [present, arrival, destination] = numbers;
    if present == destination {
        return Answer::Delivered;
    }
    let cell = 2 * (present as usize - 1);
    let current = tag[cell + 1] as u64;
    let parent = if current == 0 {
        arrival
    } else {
        tag[cell] as u64
    };
    match next_port(plant, present, parent, current) {
        Some(port) => {
            tag[cell] = parent as u8;
            tag[cell + 1] = port as u8;
            Answer::Forwarded(port)
        }
        None if parent == 0 => Answer::None,
        None => {
            tag[cell] = parent as u8;
            Answer::Forwarded(parent)
        }
    }
}

/// The first live port after the current one, the parent excepted.
fn next_port(plant: &Plant, present: u64, parent: u64, current: u64) -> Option<u64> {
    let order = plant.port_order(present);
    let first = match order.iter().position(|&port| port == current) {
        Some(position) => position + 1,
        None => 0,
    };
    let later = order[first..].iter().copied();
    let mut open = later.filter(|&port| port != parent && plant.is_live((present, port)));
    open.next()
}

/// Refusals 6 to 10, the first that holds.
fn refused_step(plant: &Plant, numbers: [u64; 3], tag: &[u8]) -> Option<u64> {
    let [present, arrival, destination] = numbers;
    if !plant.is_switch(present) || !plant.is_switch(destination) {
        return Some(6);
    }
    let room = 2 * plant.switches as usize;
    if tag.len() < room {
        return Some(7);
    }
    // A port that is not cabled is not live either.
    if arrival != 0 && !plant.is_live((present, arrival)) {
        return Some(8);
    }
    if arrival == 0 && tag[..room].iter().any(|&byte| byte != 0) {
        return Some(9);
    }
    let cell = 2 * (present as usize - 1);
    let parent = tag[cell] as u64;
    let current = tag[cell + 1] as u64;
    let bad_current = !plant.is_cabled((present, current));
    let bad_parent = parent != 0 && !plant.is_live((present, parent));
    if current != 0 && (bad_current || bad_parent) {
        return Some(10);
    }
    None
}

/// How a walk ends.
#[derive(Clone, Copy, Debug, PartialEq, Eq)]
pub enum WalkEnd {
    Delivered,
    None,
    Refused(u64),
}

/// The answer of a walk.
#[derive(Clone, Copy, Debug, PartialEq, Eq)]
pub struct Walk {
    pub end: WalkEnd,
    pub switch: u64,
    pub hops: usize,
}

fn refused_walk(number: u64) -> Walk {
    Walk {
        end: WalkEnd::Refused(number),
        switch: 0,
        hops: 0,
    }
}

/// A walk on bytes: refusals 1 to 7, the answer, tag and trace afterwards.
pub fn walk(ask: Place, sheet: &[u8], faults: &[u8], tag: &mut [u8], trace: &mut [u8]) -> Walk {
    let plant = match Plant::read(sheet, faults) {
        Err(wrong) => return refused_walk(wrong.refusal),
        Ok(plant) => plant,
    };
    let (source, destination) = ask;
    if !plant.is_switch(source) || !plant.is_switch(destination) {
        return refused_walk(6);
    }
    if tag.len() < 2 * plant.switches as usize || trace.len() < 4 * plant.cables {
        return refused_walk(7);
    }
    walk_on(&plant, ask, tag, trace)
}

/// Steps from the source until an end; there is room for tag and trace.
fn walk_on(plant: &Plant, ask: Place, tag: &mut [u8], trace: &mut [u8]) -> Walk {
    let (mut present, destination) = ask;
    let mut arrival = 0;
    let mut hops = 0;
    tag[..2 * plant.switches as usize].fill(0);
    loop {
        let end = match step_on(plant, [present, arrival, destination], tag) {
            Answer::Forwarded(port) => {
                trace[2 * hops] = present as u8;
                trace[2 * hops + 1] = port as u8;
                hops += 1;
                (present, arrival) = plant.far_end((present, port)).expect("a cabled port");
                continue;
            }
            Answer::Delivered => WalkEnd::Delivered,
            Answer::None => WalkEnd::None,
            Answer::Refused(number) => panic!("a walk met refusal {number}"),
        };
        return Walk {
            end,
            switch: present,
            hops,
        };
    }
}

/// All that the program prints; a file that cannot be opened is `None`.
pub fn program_output(files: [Option<&[u8]>; 3]) -> String {
    let [Some(sheet), Some(faults), Some(asks)] = files else {
        return "file missing\n".to_string();
    };
    let mut printed = String::new();
    for ask in asks.chunks(3) {
        if ask.len() < 3 || ask[0] != 4 {
            printed.push_str("asks broken\n");
            break;
        }
        printed.push_str(&ask_line((ask[1] as u64, ask[2] as u64), sheet, faults));
        printed.push('\n');
    }
    printed
}

fn ask_line(ask: Place, sheet: &[u8], faults: &[u8]) -> String {
    // Room for any accepted sheet.
    let mut tag = vec![0; 2 * MOST_SWITCHES as usize];
    let mut trace = vec![0; 4 * MOST_ROWS];
    let walk = walk(ask, sheet, faults, &mut tag, &mut trace);
    let word = match walk.end {
        WalkEnd::Refused(number) => return format!("{} {} refused {number}", ask.0, ask.1),
        WalkEnd::Delivered => "delivered",
        WalkEnd::None => "none",
    };
    let mut line = format!("{} {} {word} {}", ask.0, ask.1, walk.hops);
    for hop in trace[..2 * walk.hops].chunks(2) {
        line.push_str(&format!(" {}:{}", hop[0], hop[1]));
    }
    line
}
