//! The faulty row against the reference.

use crate::cases::{self, Case};
use crate::door;
use crate::reference::{faulty_row, Part, Plant};
use crate::report::{self, Tally};
use crate::shrink::shrink;
use crate::steps::keep_smaller;

fn expected(case: &Case) -> u64 {
    let row = faulty_row(&case.sheet, &case.faults);
    let part = (row.part == Part::Faults) as u64;
    (part << 32) + ((row.start as u64) << 16) + row.length as u64
}

fn differs(case: &Case) -> bool {
    door::faulty_row(&case.sheet, &case.faults) != Ok(expected(case))
}

fn words(answer: u64) -> String {
    let part = ["sheet", "fault list"][(answer >> 32 & 1) as usize];
    let start = answer >> 16 & 0xffff;
    format!("  {part}, start {start}, length {}", answer & 0xffff)
}

fn show(case: Case) {
    // Tag and numbers play no part, so shrinking takes them away.
    let case = shrink(case, &mut differs);
    println!("smallest case found that differs:\n{case}");
    println!("the reference:\n{}", words(expected(&case)));
    match door::faulty_row(&case.sheet, &case.faults) {
        Ok(answer) => println!("the library:\n{}", words(answer)),
        Err(complaint) => println!("the library:\n  {complaint}"),
    }
}

/// Where nothing is wrong there is little to see: few of those.
fn each_case(sink: cases::Sink) {
    cases::accepted(sink, 16);
    cases::wrong_cases(sink);
}

/// `compare rows`; true if all is well.
pub fn run() -> bool {
    let mut refusals = Tally::default();
    let mut differ = 0;
    let mut smallest = None;
    each_case(&mut |_, case| {
        match Plant::read(&case.sheet, &case.faults) {
            Ok(_) => refusals.add("nothing wrong", 1),
            Err(wrong) => refusals.add(&format!("refused {}", wrong.refusal), 1),
        }
        if differs(&case) {
            differ += 1;
            keep_smaller(&mut smallest, case);
        }
    });
    println!("faulty rows by refusal:\n{}", refusals.lines());
    smallest.into_iter().for_each(show);
    report::verdict("rows", refusals.total(), differ)
}
