//! A breadth-first search over live cables, and condition 3 checked with it.
//! It reads the accepted bytes by itself and takes no walk's word for
//! anything.

use std::collections::{BTreeMap, BTreeSet, VecDeque};

type Place = (u8, u8);

/// The live cables of an accepted sheet, both ways.
struct Map {
    far: BTreeMap<Place, Place>,
}

impl Map {
    fn read(sheet: &[u8], faults: &[u8]) -> Map {
        let dead: BTreeSet<Place> = faults.chunks(3).map(|row| (row[1], row[2])).collect();
        let mut far = BTreeMap::new();
        for row in sheet[2..].chunks(7) {
            let (one, other) = ((row[1], row[2]), (row[4], row[5]));
            if !dead.contains(&one) && !dead.contains(&other) {
                far.insert(one, other);
                far.insert(other, one);
            }
        }
        Map { far }
    }

    fn reached(&self, source: u8) -> BTreeSet<u8> {
        let mut reached = BTreeSet::from([source]);
        let mut waiting = VecDeque::from([source]);
        while let Some(switch) = waiting.pop_front() {
            for (_, far) in self.far.range((switch, 0)..=(switch, 255)) {
                if reached.insert(far.0) {
                    waiting.push_back(far.0);
                }
            }
        }
        reached
    }
}

/// What a search from a source finds.
pub struct Reach {
    /// The switches joined to the source by live cables, itself among them.
    pub switches: BTreeSet<u8>,
    /// M, the number of live cables between those switches.
    pub cables: usize,
    /// Both ends of each of those cables.
    ends: BTreeSet<Place>,
    map: Map,
}

/// The search on an accepted sheet and fault list.
pub fn search(sheet: &[u8], faults: &[u8], source: u8) -> Reach {
    let map = Map::read(sheet, faults);
    let switches = map.reached(source);
    let ends: BTreeSet<Place> = map
        .far
        .keys()
        .copied()
        .filter(|place| switches.contains(&place.0))
        .collect();
    Reach {
        cables: ends.len() / 2,
        switches,
        ends,
        map,
    }
}

/// A finished walk as its caller saw it.
pub struct Seen<'a> {
    pub source: u8,
    pub destination: u8,
    pub delivered: bool,
    pub switch: u8,
    /// Switch left and port left by, for each hop.
    pub hops: &'a [Place],
}

/// Condition 3; the error says what does not hold.
pub fn check(reach: &Reach, seen: &Seen) -> Result<(), String> {
    let crossed: BTreeSet<Place> = seen.hops.iter().copied().collect();
    must(
        crossed.len() == seen.hops.len(),
        "a cable is crossed twice the same way",
    )?;
    follow(reach, seen)?;
    must(
        seen.delivered == reach.switches.contains(&seen.destination),
        "delivered is not the same as reached",
    )?;
    if seen.delivered {
        check_delivered(reach, seen)
    } else {
        check_none(reach, seen, &crossed)
    }
}

fn must(holds: bool, complaint: &str) -> Result<(), String> {
    if holds {
        Ok(())
    } else {
        Err(complaint.to_string())
    }
}

/// The hops hang together over live cables from the source to the end.
fn follow(reach: &Reach, seen: &Seen) -> Result<(), String> {
    let mut present = seen.source;
    for &(switch, port) in seen.hops {
        must(switch == present, "the packet leaves where it is not")?;
        let far = reach.map.far.get(&(switch, port));
        must(far.is_some(), "the packet leaves by no live cable")?;
        present = far.expect("just seen").0;
    }
    must(present == seen.switch, "the walk ends elsewhere")
}

fn check_delivered(reach: &Reach, seen: &Seen) -> Result<(), String> {
    must(
        seen.switch == seen.destination,
        "delivered elsewhere than at the destination",
    )?;
    if seen.source == seen.destination {
        return must(seen.hops.is_empty(), "hops from a switch to itself");
    }
    // Written without taking 1 away, so that M = 0 is safe.
    must(
        seen.hops.len() < 2 * reach.cables,
        "delivered after more than 2M - 1 hops",
    )
}

fn check_none(reach: &Reach, seen: &Seen, crossed: &BTreeSet<Place>) -> Result<(), String> {
    must(seen.switch == seen.source, "none away from the source")?;
    must(
        seen.hops.len() == 2 * reach.cables,
        "none after other than 2M hops",
    )?;
    must(
        *crossed == reach.ends,
        "a reachable cable is not crossed once each way",
    )
}
