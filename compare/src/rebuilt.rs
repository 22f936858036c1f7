//! Rows shuffled and ends swapped: the library must answer as before.

use crate::cases::{self, Case};
use crate::door::{self, Empty, Outcome};
use crate::reference::Plant;
use crate::report::{self, Tally};
use crate::rng::Rng;
use crate::shapes::{self, Plan};
use crate::shrink::shrink;
use crate::steps;

/// Ways in which each sheet is rebuilt.
const REBUILDS: u64 = 3;

/// The library's two outcomes where they differ, with the rebuilt sheet.
struct Moved {
    sheet: Vec<u8>,
    before: Result<Outcome, String>,
    after: Result<Outcome, String>,
}

/// The rows of an accepted sheet.
fn plan_of(sheet: &[u8]) -> Plan {
    let rows = sheet[2..].chunks(7);
    let rows = rows.map(|row| [row[1], row[2], row[3], row[4], row[5], row[6]]);
    Plan {
        switches: sheet[1],
        rows: rows.collect(),
    }
}

/// Nothing if the sheet is refused or every rebuilt one gives the same.
fn moved(case: &Case) -> Option<Moved> {
    Plant::read(&case.sheet, &[]).ok()?;
    let plan = plan_of(&case.sheet);
    let before = door::step(case, Empty::Fenced);
    (0..REBUILDS).find_map(|seed| {
        let sheet = plan.rebuilt(&mut Rng::new(seed)).bytes();
        let other = Case {
            sheet,
            ..case.clone()
        };
        let after = door::step(&other, Empty::Fenced);
        (after != before || after.is_err()).then(|| Moved {
            sheet: other.sheet,
            before: before.clone(),
            after,
        })
    })
}

fn lines(outcome: &Result<Outcome, String>) -> String {
    match outcome {
        Ok(outcome) => steps::outcome_lines(outcome),
        Err(complaint) => format!("  {complaint}"),
    }
}

fn show(case: Case) {
    let case = shrink(case, &mut |case| moved(case).is_some());
    println!("smallest case found that moves:\n{case}");
    if let Some(moved) = moved(&case) {
        println!("the library:\n{}", lines(&moved.before));
        println!("rebuilt sheet:\n  {}", report::bytes(&moved.sheet));
        println!("the library:\n{}", lines(&moved.after));
    }
}

/// Accepted sheets with good fault lists, and with damaged ones.
fn each_case(sink: cases::Sink) {
    cases::accepted(sink, 4);
    let rng = &mut Rng::new(77);
    for plan in shapes::catalogue(rng, 3) {
        for _ in 0..10 {
            let list = plan.some_faults(rng);
            let list = cases::damage_once(rng, &list);
            let case = cases::never_met(rng, &plan, &plan.bytes(), &list);
            sink("damaged fault list", case);
        }
    }
}

/// `compare rebuilt`; true if all is well.
pub fn run() -> bool {
    let mut families = Tally::default();
    let mut differ = 0;
    let mut smallest = None;
    each_case(&mut |family, case| {
        families.add(family, REBUILDS);
        if moved(&case).is_some() {
            differ += 1;
            steps::keep_smaller(&mut smallest, case);
        }
    });
    println!("rebuilt sheets by family:\n{}", families.lines());
    smallest.into_iter().for_each(show);
    report::verdict("rebuilt", families.total(), differ)
}
