//! The proved code beside plain Rust: same inputs, same run, as a ratio.
//! Prints markdown. `bench` measures the static library; `bench PATH` also
//! the program at PATH.

use compare::cases::Case;
use compare::door::{self, Door};
use compare::plain::{self, Plant};
use compare::rng::Rng;
use compare::shapes::{self, Plan, Shape};
use std::fmt::Write;
use std::hint::black_box;
use std::path::Path;
use std::process::{Command, Stdio};
use std::time::{Duration, Instant};
use std::{env, fs, io, process, thread};

/// The best of so many rounds, each at least this long.
const ROUNDS: usize = 7;
const ROUND: Duration = Duration::from_millis(15);

/// A sheet, faults, and a walk to a switch that has no live cable.
struct Setting {
    name: String,
    sheet: Vec<u8>,
    faults: Vec<u8>,
    destination: u8,
    plant: Plant,
    /// The walk's steps.
    states: Vec<Case>,
}

/// A step as the library's door or as plain Rust.
type Step = fn([u64; 3], &[u8], &[u8], &mut [u8]) -> u64;

fn main() -> io::Result<()> {
    let settings = settings();
    steps(&settings);
    walks(&settings);
    checks(&settings);
    stacks(&settings);
    if let Some(path) = env::args().nth(1) {
        programs(&settings, &path)?;
    }
    Ok(())
}

// ---------------------------------------------------------------- settings

fn settings() -> Vec<Setting> {
    let rng = &mut Rng::new(2014);
    let mut made = vec![setting("few faults", shapes::square(), vec![])];
    for (switches, cables) in [(30, 60), (64, 200), (64, 512)] {
        // All but the last switch hang together.
        let mut plan = shapes::plan(rng, Shape::Tree, switches - 1, cables);
        plan.switches = switches;
        let few = plan.faults(rng, 2);
        made.push(setting("few faults", plan.clone(), few));
        if cables == 512 {
            // Few cables named often, so that the walk stays long.
            let mut many = plan.faults(rng, 8).repeat(64);
            many.truncate(3 * 512);
            made.push(setting("512 faults", plan, many));
        }
    }
    made
}

fn setting(note: &str, plan: Plan, faults: Vec<u8>) -> Setting {
    let sheet = plan.bytes();
    let plant = Plant::read(&sheet, &faults).expect("an accepted sheet");
    let rows = faults.len() / 3;
    let note = if rows == 0 { "no fault" } else { note };
    let mut setting = Setting {
        name: format!("{}/{}, {note}", plan.switches, plan.rows.len()),
        sheet,
        faults,
        destination: plan.switches,
        plant,
        states: Vec::new(),
    };
    let mut states = Vec::new();
    carry(&setting, plain::step, &mut |numbers, tag| {
        states.push(Case {
            numbers,
            sheet: setting.sheet.clone(),
            faults: setting.faults.clone(),
            tag: tag.to_vec(),
        })
    });
    setting.states = states;
    setting
}

/// Carries a packet from switch 1 until an end; tells each step beforehand.
fn carry(setting: &Setting, step: Step, tell: &mut dyn FnMut([u64; 3], &[u8])) -> usize {
    let mut tag = vec![0; 2 * setting.plant.switches as usize];
    let mut numbers = [1, 0, setting.destination as u64];
    let mut hops = 0;
    loop {
        tell(numbers, &tag);
        let answer = step(numbers, &setting.sheet, &setting.faults, &mut tag);
        if answer >> 32 != 0 {
            return hops;
        }
        let (switch, port) = setting.plant.far_end(numbers[0] as u8, answer as u8);
        numbers = [switch as u64, port as u64, setting.destination as u64];
        hops += 1;
    }
}

// ------------------------------------------------------------------ timing

/// Nanoseconds for one call of each job, the best of some rounds; the jobs
/// take turns, so that a slow moment of the machine strikes all of them.
fn time_all<const N: usize>(mut jobs: [&mut dyn FnMut(); N]) -> [f64; N] {
    let mut best = [f64::MAX; N];
    for _ in 0..ROUNDS {
        for (job, best) in jobs.iter_mut().zip(&mut best) {
            *best = best.min(round(*job));
        }
    }
    best
}

/// Nanoseconds for one call, over a round.
fn round(work: &mut dyn FnMut()) -> f64 {
    let start = Instant::now();
    let mut calls = 0;
    while calls == 0 || start.elapsed() < ROUND {
        work();
        calls += 1;
    }
    start.elapsed().as_nanos() as f64 / calls as f64
}

fn duration(nanoseconds: f64) -> String {
    match nanoseconds {
        n if n < 1e3 => format!("{n:.0} ns"),
        n if n < 1e6 => format!("{:.2} µs", n / 1e3),
        n => format!("{:.2} ms", n / 1e6),
    }
}

fn heading(title: &str, columns: &[&str]) {
    println!("\n### {title}\n");
    println!("| {} |", columns.join(" | "));
    println!("|{}", "---|".repeat(columns.len()));
}

// ------------------------------------------------------------------ tables

fn steps(settings: &[Setting]) {
    let columns = ["switches/cables", "proved", "plain Rust", "ratio"];
    heading("One step (mean over the steps of a full walk)", &columns);
    for setting in settings {
        let mut tag = Vec::new();
        let mut other = Vec::new();
        let times = time_all([
            &mut || all_steps(setting, door::step_unfenced, &mut tag),
            &mut || all_steps(setting, plain::step, &mut other),
        ]);
        let [ours, plain] = times.map(|time| time / setting.states.len() as f64);
        let ratio = ours / plain;
        let (name, ours, plain) = (&setting.name, duration(ours), duration(plain));
        println!("| {name} | {ours} | {plain} | {ratio:.2} |");
    }
}

fn all_steps(setting: &Setting, step: Step, tag: &mut Vec<u8>) {
    for state in &setting.states {
        tag.clear();
        tag.extend(&state.tag);
        let numbers = black_box(state.numbers);
        black_box(step(numbers, &setting.sheet, &setting.faults, tag));
    }
}

fn walks(settings: &[Setting]) {
    let columns = [
        "switches/cables",
        "hops",
        "proved steps",
        "plain steps",
        "ratio",
        "plain walk, sheet checked once",
    ];
    heading("A full walk, to a switch that is not reached", &columns);
    for setting in settings {
        let hops = carry(setting, door::step_unfenced, &mut |_, _| ());
        assert_eq!(hops + 1, setting.states.len());
        let mut trace = Vec::new();
        let walk = |step: Step| {
            black_box(carry(setting, step, &mut |_, _| ()));
        };
        let [ours, plain, once] = time_all([
            &mut || walk(door::step_unfenced),
            &mut || walk(plain::step),
            &mut || plain_walk(setting, &mut trace),
        ]);
        let ratio = ours / plain;
        let [ours, plain, once] = [ours, plain, once].map(duration);
        let name = &setting.name;
        println!("| {name} | {hops} | {ours} | {plain} | {ratio:.2} | {once} |");
    }
}

/// Reading the sheet and walking once, in plain Rust.
fn plain_walk(setting: &Setting, trace: &mut Vec<(u8, u8)>) {
    let plant = Plant::read(black_box(&setting.sheet), &setting.faults);
    let plant = plant.expect("an accepted sheet");
    black_box(plant.walk(1, setting.destination, trace));
}

/// Present switch 0 is refused as soon as sheet and faults are accepted, so
/// that the call is the check and nothing else.
fn checks(settings: &[Setting]) {
    let columns = ["switches/cables", "proved", "plain Rust", "ratio of times"];
    heading(
        "Sheets (with their fault lists) checked per second",
        &columns,
    );
    for setting in settings {
        let check = |step: Step| {
            let answer = step(
                [0, 0, 0],
                black_box(&setting.sheet),
                &setting.faults,
                &mut [],
            );
            assert_eq!(answer, (3 << 32) + 6);
        };
        let [ours, plain] = time_all([&mut || check(door::step_unfenced), &mut || {
            check(plain::step)
        }]);
        let (name, ratio) = (&setting.name, ours / plain);
        let [ours, plain] =
            [ours, plain].map(|time| compare::report::thousands((1e9 / time) as u64));
        println!("| {name} | {ours} | {plain} | {ratio:.2} |");
    }
}

// ------------------------------------------------------------------- stack

/// So far down the stack is painted.
const PAINTED: usize = 256 * 1024;
/// Left unpainted for the frames of those who paint and look.
const KEPT: usize = 1024;

/// How the stack is measured: on a thread of its own, `depth` paints the
/// stack below itself with a pattern, calls the door from a frame that lies
/// below what must stay unpainted, and looks for the lowest byte that lost
/// its paint. The same is done with a door that does nothing; the difference
/// is what the door touches below its return address. Two patterns are used,
/// since a byte may be written with the very value of one.
fn stacks(settings: &[Setting]) {
    let columns = ["switches/cables", "proved", "plain Rust"];
    heading(
        "Bytes of stack that one step touches (most over its steps)",
        &columns,
    );
    for setting in settings {
        let states = setting.states.clone();
        let measured = thread::Builder::new()
            .stack_size(4 * 1024 * 1024)
            .spawn(move || [door::step_door(), plain_door as Door].map(|door| most(&states, door)))
            .expect("a thread");
        let [ours, plain] = measured.join().expect("a number");
        println!("| {} | {ours} | {plain} |", setting.name);
    }
}

/// The most over some of the states, evenly taken, the last among them.
fn most(states: &[Case], door: Door) -> usize {
    let stride = (states.len() / 40).max(1);
    let some = states.iter().rev().step_by(stride);
    some.map(|state| net_depth(state, door)).max().unwrap_or(0)
}

fn net_depth(state: &Case, door: Door) -> usize {
    let deepest = |door| depth(state, door, 0xA5).max(depth(state, door, 0x5A));
    deepest(door) - deepest(idle_door as Door)
}

/// Bytes from this frame down to the lowest byte that the call changed.
#[inline(never)]
fn depth(state: &Case, door: Door, pattern: u8) -> usize {
    let mark = 0u8;
    let top = black_box(&mark) as *const u8 as usize;
    let mut tag = state.tag.clone();
    paint(top, pattern);
    low_call(state, door, &mut tag);
    top - lowest_changed(top, pattern)
}

#[inline(never)]
fn paint(top: usize, pattern: u8) {
    for address in top - PAINTED..top - KEPT {
        // SAFETY: this thread's own stack, below every frame in use.
        unsafe { (address as *mut u8).write_volatile(pattern) };
    }
}

#[inline(never)]
fn lowest_changed(top: usize, pattern: u8) -> usize {
    let mut addresses = top - PAINTED..top - KEPT;
    // SAFETY: as above; all of it was painted.
    let changed =
        addresses.find(|&address| unsafe { (address as *const u8).read_volatile() } != pattern);
    changed.expect("the call writes at least its return address")
}

/// Calls the door from below the unpainted part.
#[inline(never)]
fn low_call(state: &Case, door: Door, tag: &mut [u8]) {
    let ballast = [0u8; KEPT + 1024];
    black_box(&ballast);
    let [present, arrival, destination] = state.numbers;
    let (sheet, faults) = (&state.sheet, &state.faults);
    // SAFETY: pointers and lengths are those of live slices.
    let answer = unsafe {
        door(
            present,
            arrival,
            destination,
            sheet.as_ptr(),
            sheet.len(),
            faults.as_ptr(),
            faults.len(),
            tag.as_mut_ptr(),
            tag.len(),
        )
    };
    black_box((answer, &ballast));
}

#[inline(never)]
unsafe extern "C" fn idle_door(
    _: u64,
    _: u64,
    _: u64,
    _: *const u8,
    _: usize,
    _: *const u8,
    _: usize,
    _: *mut u8,
    _: usize,
) -> u64 {
    0
}

/// The plain step behind the same door.
#[inline(never)]
unsafe extern "C" fn plain_door(
    present: u64,
    arrival: u64,
    destination: u64,
    sheet: *const u8,
    sheet_len: usize,
    faults: *const u8,
    faults_len: usize,
    tag: *mut u8,
    tag_len: usize,
) -> u64 {
    // SAFETY: `low_call` passes live slices.
    let (sheet, faults, tag) = unsafe {
        (
            std::slice::from_raw_parts(sheet, sheet_len),
            std::slice::from_raw_parts(faults, faults_len),
            std::slice::from_raw_parts_mut(tag, tag_len),
        )
    };
    plain::step([present, arrival, destination], sheet, faults, tag)
}

// ----------------------------------------------------------------- program

/// Asks in the long run of the program.
const ASKS: usize = 400;

/// A run with many asks less a run with none, by the number of asks.
fn programs(settings: &[Setting], path: &str) -> io::Result<()> {
    let columns = [
        "switches/cables",
        "proved",
        "plain Rust",
        "ratio",
        "start and end",
    ];
    heading("A full walk by the program, its line printed", &columns);
    let folder = env::temp_dir().join(format!("bench-{}", process::id()));
    fs::create_dir_all(&folder)?;
    for setting in settings {
        let asks = [4, 1, setting.destination].repeat(ASKS);
        write_files(&folder, setting, &asks)?;
        let run = |asks: &str| {
            let names = ["sheet", "faults", asks].map(|name| folder.join(name));
            let status = Command::new(path)
                .args(names)
                .stdout(Stdio::null())
                .status();
            assert!(status.is_ok(), "the program cannot be run");
        };
        let [long, empty, plain] =
            time_all([&mut || run("asks"), &mut || run("none"), &mut || {
                plain_lines(setting, &asks)
            }]);
        let [ours, plain] = [long - empty, plain].map(|time| time / ASKS as f64);
        let ratio = ours / plain;
        let [ours, plain, empty] = [ours, plain, empty].map(duration);
        let name = &setting.name;
        println!("| {name} | {ours} | {plain} | {ratio:.2} | {empty} |");
    }
    fs::remove_dir_all(&folder)
}

fn write_files(folder: &Path, setting: &Setting, asks: &[u8]) -> io::Result<()> {
    fs::write(folder.join("sheet"), &setting.sheet)?;
    fs::write(folder.join("faults"), &setting.faults)?;
    fs::write(folder.join("asks"), asks)?;
    fs::write(folder.join("none"), [])
}

/// The same lines in plain Rust, the sheet checked once for all asks.
fn plain_lines(setting: &Setting, asks: &[u8]) {
    let plant = Plant::read(black_box(&setting.sheet), &setting.faults);
    let plant = plant.expect("an accepted sheet");
    let (mut text, mut trace) = (String::new(), Vec::new());
    for ask in asks.chunks(3) {
        let end = ["none", "delivered"][plant.walk(ask[1], ask[2], &mut trace) as usize];
        let _ = write!(text, "{} {} {end} {}", ask[1], ask[2], trace.len());
        for (switch, port) in &trace {
            let _ = write!(text, " {switch}:{port}");
        }
        text.push('\n');
    }
    black_box(text);
}
