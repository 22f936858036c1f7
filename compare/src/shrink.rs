//! Makes a case that differs as small as it gets: fewer rows, fewer faults,
//! fewer bytes, lower numbers, as long as the difference stays.

use crate::cases::Case;

/// Tries in all, so that shrinking ends soon even where each try is slow.
const MOST_TRIES: usize = 20_000;

struct Shrinker<'a> {
    best: Case,
    differs: &'a mut dyn FnMut(&Case) -> bool,
    tries: usize,
}

/// The smallest case found from `case`, which differs, that still differs.
pub fn shrink(case: Case, differs: &mut dyn FnMut(&Case) -> bool) -> Case {
    let mut shrinker = Shrinker {
        best: case,
        differs,
        tries: 0,
    };
    // Each pass may open the way for another.
    let mut before = None;
    while before.as_ref() != Some(&shrinker.best) && shrinker.tries < MOST_TRIES {
        before = Some(shrinker.best.clone());
        shrinker.pass();
    }
    shrinker.best
}

/// The three slices of a case: where rows begin, and how long a row is.
const SLICES: [(usize, usize); 3] = [(2, 7), (0, 3), (0, 2)];

fn slice(case: &mut Case, which: usize) -> &mut Vec<u8> {
    match which {
        0 => &mut case.sheet,
        1 => &mut case.faults,
        _ => &mut case.tag,
    }
}

impl Shrinker<'_> {
    /// Keeps the case if it still differs.
    fn keep(&mut self, case: Case) -> bool {
        if self.tries >= MOST_TRIES || case == self.best {
            return false;
        }
        self.tries += 1;
        let kept = (self.differs)(&case);
        if kept {
            self.best = case;
        }
        kept
    }

    fn pass(&mut self) {
        for (which, (first, row)) in SLICES.into_iter().enumerate() {
            self.drop_rows(which, first, row);
            self.drop_rows(which, 0, 1);
        }
        self.rename_switches();
        self.rename_ports();
        self.lower_numbers();
        for which in 0..SLICES.len() {
            self.lower_bytes(which);
        }
    }

    fn length(&mut self, which: usize) -> usize {
        slice(&mut self.best, which).len()
    }

    /// Takes out runs of rows, long runs first, the last rows first.
    fn drop_rows(&mut self, which: usize, first: usize, row: usize) {
        let mut run = self.length(which) / row;
        while run > 0 {
            let mut end = self.length(which);
            while end >= first + run * row {
                let start = end - run * row;
                let mut case = self.best.clone();
                slice(&mut case, which).drain(start..end);
                self.keep(case);
                end = start;
            }
            run /= 2;
        }
    }

    /// Gives each switch the name of a lower one, everywhere at once.
    fn rename_switches(&mut self) {
        for high in (2..=64).rev() {
            for low in 1..high {
                let renamed = swap_names(&self.best, low, high);
                if weight(&renamed) < weight(&self.best) && self.keep(renamed) {
                    break;
                }
            }
        }
    }

    /// Gives each cabled port the name of a lower one of its switch.
    fn rename_ports(&mut self) {
        let rows = self.best.sheet.get(2..).unwrap_or_default();
        let rows: Vec<Vec<u8>> = rows.chunks_exact(7).map(<[u8]>::to_vec).collect();
        for row in rows {
            for (switch, high) in [(row[1], row[2]), (row[4], row[5])] {
                for low in 1..high {
                    let renamed = swap_ports(&self.best, switch, low, high);
                    if weight(&renamed) < weight(&self.best) && self.keep(renamed) {
                        break;
                    }
                }
            }
        }
    }

    fn lower_numbers(&mut self) {
        for which in 0..3 {
            let number = self.best.numbers[which];
            for lower in [0, 1, 2, number / 2, number.saturating_sub(1)] {
                let mut case = self.best.clone();
                case.numbers[which] = lower;
                if lower < number && self.keep(case) {
                    break;
                }
            }
        }
    }

    fn lower_bytes(&mut self, which: usize) {
        for place in 0..self.length(which) {
            let byte = slice(&mut self.best, which)[place];
            for lower in [0, 1, 2, 3, byte / 2, byte.saturating_sub(1)] {
                let mut case = self.best.clone();
                slice(&mut case, which)[place] = lower;
                if lower < byte && self.keep(case) {
                    break;
                }
            }
        }
    }
}

/// Lower is better; only compared between cases of the same lengths.
fn weight(case: &Case) -> u64 {
    let bytes = case.sheet.iter().chain(&case.faults);
    let numbers = [case.numbers[0], case.numbers[2]];
    let sum: u64 = bytes.map(|&byte| byte as u64).sum();
    numbers.into_iter().fold(sum, u64::saturating_add)
}

/// Each of two bytes becomes the other; any third stays.
fn exchange(byte: &mut u8, low: u8, high: u8) {
    if *byte == low {
        *byte = high;
    } else if *byte == high {
        *byte = low;
    }
}

fn exchange_number(number: &mut u64, low: u8, high: u8) {
    if let Ok(mut byte) = u8::try_from(*number) {
        exchange(&mut byte, low, high);
        *number = byte as u64;
    }
}

/// The whole rows of a sheet; a cut one at the end is left alone.
fn rows_of(sheet: &mut [u8]) -> std::slice::ChunksExactMut<'_, u8> {
    sheet.get_mut(2..).unwrap_or_default().chunks_exact_mut(7)
}

/// The same case with two switches' names exchanged.
fn swap_names(case: &Case, low: u8, high: u8) -> Case {
    let mut case = case.clone();
    for row in rows_of(&mut case.sheet) {
        exchange(&mut row[1], low, high);
        exchange(&mut row[4], low, high);
    }
    for row in case.faults.chunks_exact_mut(3) {
        exchange(&mut row[1], low, high);
    }
    exchange_number(&mut case.numbers[0], low, high);
    exchange_number(&mut case.numbers[2], low, high);
    let (a, b) = (2 * (low as usize - 1), 2 * (high as usize - 1));
    if b + 1 < case.tag.len() {
        case.tag.swap(a, b);
        case.tag.swap(a + 1, b + 1);
    }
    case
}

/// The same case with two ports of one switch exchanged.
fn swap_ports(case: &Case, switch: u8, low: u8, high: u8) -> Case {
    let mut case = case.clone();
    for row in rows_of(&mut case.sheet) {
        for end in [1, 4] {
            if row[end] == switch {
                exchange(&mut row[end + 1], low, high);
            }
        }
    }
    for row in case.faults.chunks_exact_mut(3) {
        if row[1] == switch {
            exchange(&mut row[2], low, high);
        }
    }
    if case.numbers[0] == switch as u64 {
        exchange_number(&mut case.numbers[1], low, high);
    }
    let cell = 2 * (switch as usize).saturating_sub(1);
    for byte in case.tag.iter_mut().skip(cell).take(2) {
        exchange(byte, low, high);
    }
    case
}
