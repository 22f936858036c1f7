//! The same rules as a good Rust programmer would write them for speed:
//! arrays and bit sets, one pass over the rows, nothing on the heap. This is
//! what the proved code is measured beside, and a third opinion on the rules.

const MOST_ROWS: usize = 512;
const REFUSED: u64 = 3 << 32;
const DELIVERED: u64 = 1 << 32;
const NONE: u64 = 2 << 32;

/// Bit p of entry s stands for port p of switch s.
type Ports = [u64; 65];

/// A sheet's count of switches and its cable rows, form and content checked.
struct Sheet<'a> {
    switches: u8,
    rows: &'a [u8],
    cabled: Ports,
}

fn read_sheet(bytes: &[u8]) -> Result<Sheet<'_>, u64> {
    let [1, switches, rows @ ..] = bytes else {
        return Err(1);
    };
    if !(1..=64).contains(switches) {
        return Err(2);
    }
    let mut cabled = [0; 65];
    for (before, row) in rows.chunks(7).enumerate() {
        let &[2, a, p, _, b, q, _] = row else {
            return Err(1);
        };
        if before == MOST_ROWS {
            return Err(1);
        }
        let known = |switch, port| (1..=*switches).contains(&switch) && (1..=48).contains(&port);
        if !known(a, p) || !known(b, q) || a == b {
            return Err(3);
        }
        if has(&cabled, a, p) || has(&cabled, b, q) {
            return Err(3);
        }
        cabled[a as usize] |= 1 << p;
        cabled[b as usize] |= 1 << q;
    }
    Ok(Sheet {
        switches: *switches,
        rows,
        cabled,
    })
}

/// Whether the set holds this port; a switch or port too high is not in it.
fn has(set: &Ports, switch: u8, port: u8) -> bool {
    switch <= 64 && port < 64 && set[switch as usize] >> port & 1 == 1
}

/// The ports that the fault list names.
fn read_faults(bytes: &[u8], cabled: &Ports) -> Result<Ports, u64> {
    let mut named = [0; 65];
    for (before, row) in bytes.chunks(3).enumerate() {
        let &[3, switch, port] = row else {
            return Err(4);
        };
        if before == MOST_ROWS {
            return Err(4);
        }
        if !has(cabled, switch, port) {
            return Err(5);
        }
        named[switch as usize] |= 1 << port;
    }
    Ok(named)
}

/// One switch's ports: preference by port, and which of them are live.
struct Bank {
    cabled: u64,
    live: u64,
    preference: [u8; 64],
}

impl Bank {
    fn gather(sheet: &Sheet, named: &Ports, present: u8) -> Bank {
        let mut preference = [0; 64];
        let mut dead = 0;
        for row in sheet.rows.chunks_exact(7) {
            let (a, p, b, q) = (row[1], row[2], row[4], row[5]);
            let (port, wish) = if a == present {
                (p, row[3])
            } else if b == present {
                (q, row[6])
            } else {
                continue;
            };
            preference[(port & 63) as usize] = wish;
            if has(named, a, p) || has(named, b, q) {
                dead |= 1 << port;
            }
        }
        let cabled = sheet.cabled[present as usize];
        Bank {
            cabled,
            live: cabled & !dead,
            preference,
        }
    }

    /// Orders ports by preference, then by number.
    fn rank(&self, port: u32) -> u32 {
        (self.preference[(port & 63) as usize] as u32) << 8 | port
    }

    /// The live port that comes first after `current`, leaving out `parent`.
    fn next(&self, parent: u8, current: u8) -> Option<u8> {
        let mut open = self.live & !(1 << parent);
        let after = if current == 0 {
            0
        } else {
            self.rank(current as u32)
        };
        let mut best = u32::MAX;
        while open != 0 {
            let rank = self.rank(open.trailing_zeros());
            if rank > after && rank < best {
                best = rank;
            }
            open &= open - 1;
        }
        (best != u32::MAX).then_some(best as u8)
    }
}

fn within(set: u64, port: u64) -> bool {
    port < 64 && set >> port & 1 == 1
}

/// Refusals 7 to 10 at a known switch, whose cell is `parent` and `current`.
fn check(bank: &Bank, switches: u8, arrival: u64, cell: usize, tag: &[u8]) -> Result<(), u64> {
    let room = 2 * switches as usize;
    if tag.len() < room {
        return Err(7);
    }
    if arrival != 0 && !within(bank.live, arrival) {
        return Err(8);
    }
    if arrival == 0 && tag[..room].iter().any(|&byte| byte != 0) {
        return Err(9);
    }
    let (parent, current) = (tag[cell] as u64, tag[cell + 1] as u64);
    let bad_parent = parent != 0 && !within(bank.live, parent);
    if current != 0 && (!within(bank.cabled, current) || bad_parent) {
        return Err(10);
    }
    Ok(())
}

/// The two tag bytes of a switch and the answer, after the checks.
fn leave(bank: &Bank, arrival: u8, cell: &mut [u8]) -> u64 {
    let current = cell[1];
    let parent = if current == 0 { arrival } else { cell[0] };
    match bank.next(parent, current) {
        Some(port) => {
            cell.copy_from_slice(&[parent, port]);
            port as u64
        }
        None if parent == 0 => NONE,
        None => {
            cell[0] = parent;
            parent as u64
        }
    }
}

/// One step, answered as the static library answers it.
pub fn step(numbers: [u64; 3], sheet: &[u8], faults: &[u8], tag: &mut [u8]) -> u64 {
    try_step(numbers, sheet, faults, tag).unwrap_or_else(|number| REFUSED + number)
}

fn try_step(numbers: [u64; 3], sheet: &[u8], faults: &[u8], tag: &mut [u8]) -> Result<u64, u64> {
    let [present, arrival, destination] = numbers;
    let sheet = read_sheet(sheet)?;
    let named = read_faults(faults, &sheet.cabled)?;
    let switches = 1..=sheet.switches as u64;
    if !switches.contains(&present) || !switches.contains(&destination) {
        return Err(6);
    }
    let bank = Bank::gather(&sheet, &named, present as u8);
    let cell = 2 * (present as usize - 1);
    check(&bank, sheet.switches, arrival, cell, tag)?;
    if present == destination {
        return Ok(DELIVERED);
    }
    Ok(leave(&bank, arrival as u8, &mut tag[cell..cell + 2]))
}

/// A checked sheet and fault list, laid out for many walks.
pub struct Plant {
    pub switches: u8,
    pub cables: usize,
    /// By switch: the live port after each live port, the first at entry 0,
    /// and 0 after the last.
    after: Vec<[u8; 64]>,
    far: Vec<[(u8, u8); 64]>,
}

impl Plant {
    /// The refusal number, or the plant.
    pub fn read(sheet: &[u8], faults: &[u8]) -> Result<Plant, u64> {
        let sheet = read_sheet(sheet)?;
        let named = read_faults(faults, &sheet.cabled)?;
        let mut far = vec![[(0, 0); 64]; 65];
        let mut live = vec![Vec::with_capacity(48); sheet.switches as usize + 1];
        for row in sheet.rows.chunks_exact(7) {
            let (a, p, b, q) = (row[1], row[2], row[4], row[5]);
            far[a as usize][p as usize] = (b, q);
            far[b as usize][q as usize] = (a, p);
            if !has(&named, a, p) && !has(&named, b, q) {
                live[a as usize].push((row[3], p));
                live[b as usize].push((row[6], q));
            }
        }
        Ok(Plant {
            switches: sheet.switches,
            cables: sheet.rows.len() / 7,
            after: live.iter_mut().map(|ports| chain(ports)).collect(),
            far,
        })
    }

    pub fn far_end(&self, switch: u8, port: u8) -> (u8, u8) {
        self.far[switch as usize][port as usize]
    }

    /// Whether the walk delivers, and its hops; both switches are known.
    pub fn walk(&self, source: u8, destination: u8, trace: &mut Vec<(u8, u8)>) -> bool {
        let mut cells = [(0, 0); 65];
        let (mut present, mut arrival) = (source, 0);
        trace.clear();
        while present != destination {
            let after = &self.after[present as usize];
            let (parent, current) = &mut cells[present as usize];
            if *current == 0 {
                *parent = arrival;
            }
            let mut port = after[*current as usize];
            if port != 0 && port == *parent {
                port = after[port as usize];
            }
            if port != 0 {
                *current = port;
            } else if *parent != 0 {
                port = *parent;
            } else {
                return false;
            }
            trace.push((present, port));
            (present, arrival) = self.far_end(present, port);
        }
        true
    }
}

/// Links live ports, given with their preferences, in the port order.
fn chain(ports: &mut [(u8, u8)]) -> [u8; 64] {
    let mut after = [0; 64];
    let mut last = 0;
    ports.sort_unstable();
    for &(_, port) in ports.iter() {
        after[last as usize] = port;
        last = port;
    }
    after
}
