//! `switch_step` against the reference: the answer and every tag byte.

use crate::cases::{self, Case};
use crate::door::{self, Empty, Outcome, EMPTIES};
use crate::reference;
use crate::report::{self, Tally};
use crate::shrink::shrink;

/// Each refusal and each end must be met so often.
const LEAST_MET: u64 = 100;
const LEAST_STEPS: u64 = 200_000;

/// What the reference says of a step.
pub fn expected(case: &Case) -> Outcome {
    let mut tag = case.tag.clone();
    let answer = reference::step(case.numbers, &case.sheet, &case.faults, &mut tag).number();
    Outcome { answer, tag }
}

/// What the library says otherwise, or nothing if they agree.
pub fn difference(case: &Case) -> Option<String> {
    differs_from(case, &expected(case))
}

fn differs_from(case: &Case, expected: &Outcome) -> Option<String> {
    EMPTIES
        .iter()
        .filter(|&&empty| empty == Empty::Fenced || has_empty(case))
        .find_map(|&empty| match door::step(case, empty) {
            Ok(outcome) if outcome == *expected => None,
            Ok(outcome) => Some(outcome_lines(&outcome)),
            Err(complaint) => Some(format!("  {complaint}")),
        })
}

fn has_empty(case: &Case) -> bool {
    case.sheet.is_empty() || case.faults.is_empty() || case.tag.is_empty()
}

pub fn outcome_lines(outcome: &Outcome) -> String {
    let answer = report::answer(outcome.answer);
    format!("  {answer}\n  tag    {}", report::bytes(&outcome.tag))
}

/// Prints the smallest case that can be made of one that differs.
pub fn show(case: Case) {
    let case = shrink(case, &mut |case| difference(case).is_some());
    println!("smallest case found that differs:\n{case}");
    println!("the reference:\n{}", outcome_lines(&expected(&case)));
    let ours = difference(&case).unwrap_or_default();
    println!("the library:\n{ours}");
}

/// Keeps the smaller of the cases that differ.
pub fn keep_smaller(smallest: &mut Option<Case>, case: Case) {
    if smallest
        .as_ref()
        .is_none_or(|kept| case.size() < kept.size())
    {
        *smallest = Some(case);
    }
}

/// The name under which an answer is counted.
fn name_of(answer: u64) -> String {
    match answer >> 32 {
        0 => "forwarded".to_string(),
        3 => format!("refused {:>2}", answer % (1 << 32)),
        _ => report::answer(answer),
    }
}

/// All names that must be met.
fn all_names() -> Vec<String> {
    let mut names = vec!["forwarded".into(), "delivered".into(), "none".into()];
    names.extend((1..=10).map(|number| format!("refused {number:>2}")));
    names
}

/// `compare steps`; true if all is well.
pub fn run() -> bool {
    let mut families = Tally::default();
    let mut answers = Tally::default();
    let mut differ = 0;
    let mut smallest = None;
    cases::step_cases(&mut |family, case| {
        let expected = expected(&case);
        families.add(family, 1);
        answers.add(&name_of(expected.answer), 1);
        if differs_from(&case, &expected).is_some() {
            differ += 1;
            keep_smaller(&mut smallest, case);
        }
    });
    println!("steps by family:\n{}", families.lines());
    println!("steps by answer:\n{}", answers.lines());
    let mut enough = families.total() >= LEAST_STEPS;
    for name in all_names() {
        if answers.of(&name) < LEAST_MET {
            println!("{name} is met fewer than {LEAST_MET} times");
            enough = false;
        }
    }
    smallest.into_iter().for_each(show);
    report::verdict("steps", families.total(), differ) && enough
}
