//! Counting, and how cases and numbers are printed.

use std::collections::BTreeMap;
use std::fmt::Write;

/// 214000 as 214,000.
pub fn thousands(number: u64) -> String {
    let digits = number.to_string();
    let mut text = String::new();
    for (place, digit) in digits.chars().enumerate() {
        if place > 0 && (digits.len() - place).is_multiple_of(3) {
            text.push(',');
        }
        text.push(digit);
    }
    text
}

/// Bytes as a user of `od` or `printf` would write them.
pub fn bytes(bytes: &[u8]) -> String {
    if bytes.is_empty() {
        return "(empty)".to_string();
    }
    let words: Vec<String> = bytes.iter().map(u8::to_string).collect();
    words.join(" ")
}

/// An answer's number in words.
pub fn answer(number: u64) -> String {
    let rest = number % (1 << 32);
    match number >> 32 {
        0 => format!("forwarded by {rest}"),
        1 if rest == 0 => "delivered".to_string(),
        2 if rest == 0 => "none".to_string(),
        3 => format!("refused {rest}"),
        _ => format!("the number {number}"),
    }
}

/// How often each thing was met.
#[derive(Default)]
pub struct Tally(BTreeMap<String, u64>);

impl Tally {
    pub fn add(&mut self, name: &str, times: u64) {
        match self.0.get_mut(name) {
            Some(count) => *count += times,
            None => {
                self.0.insert(name.to_string(), times);
            }
        }
    }

    pub fn of(&self, name: &str) -> u64 {
        self.0.get(name).copied().unwrap_or(0)
    }

    pub fn total(&self) -> u64 {
        self.0.values().sum()
    }

    /// One line for each name, in the names' order.
    pub fn lines(&self) -> String {
        let mut text = String::new();
        for (name, count) in &self.0 {
            writeln!(text, "  {name:<34} {:>10}", thousands(*count)).expect("a string");
        }
        text
    }
}

/// The last line of each comparison; true if nothing differs.
pub fn verdict(name: &str, compared: u64, differ: u64) -> bool {
    println!(
        "{name}: {} compared, {} differ",
        thousands(compared),
        thousands(differ)
    );
    differ == 0
}
