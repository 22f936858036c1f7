//! The program on sets of three files, against what the reference prints.

use crate::cases::{self, Case};
use crate::reference::program_output;
use crate::report::{self, Tally};
use crate::rng::Rng;
use crate::shapes::{self, Plan};
use crate::shrink::shrink;
use crate::steps::keep_smaller;
use std::fs;
use std::io;
use std::path::{Path, PathBuf};
use std::process::{self, Command, Stdio};

const LEAST_SETS: u64 = 500;

/// How a file is handed over.
#[derive(Clone, Copy, PartialEq, Eq)]
enum Given {
    Written,
    /// A name, but no such file.
    Absent,
    /// A folder: it opens and cannot be read.
    Folder,
    /// Neither this name nor a later one.
    Unnamed,
}

const ALL_WRITTEN: [Given; 3] = [Given::Written; 3];

/// A case here is a set of files: sheet, faults, and the asks as the tag.
struct Bench {
    program: PathBuf,
    folder: PathBuf,
}

impl Bench {
    fn new(program: &Path) -> io::Result<Bench> {
        let program = fs::canonicalize(program)?;
        let folder = std::env::temp_dir().join(format!("compare-{}", process::id()));
        fs::create_dir_all(folder.join("folder"))?;
        Ok(Bench { program, folder })
    }

    /// The arguments, after the files are written.
    fn arguments(&self, case: &Case, given: [Given; 3]) -> io::Result<Vec<PathBuf>> {
        let contents = [&case.sheet, &case.faults, &case.tag];
        let mut names = Vec::new();
        for ((name, bytes), given) in ["sheet", "faults", "asks"].iter().zip(contents).zip(given) {
            let path = self.folder.join(name);
            match given {
                Given::Written => {
                    fs::write(&path, bytes)?;
                    names.push(path);
                }
                Given::Absent => names.push(self.folder.join("absent")),
                Given::Folder => names.push(self.folder.join("folder")),
                Given::Unnamed => break,
            }
        }
        Ok(names)
    }

    /// All that the program writes to its standard output.
    fn printed(&self, case: &Case, given: [Given; 3]) -> io::Result<Vec<u8>> {
        let output = Command::new(&self.program)
            .args(self.arguments(case, given)?)
            .stdin(Stdio::null())
            .stderr(Stdio::null())
            .output()?;
        Ok(output.stdout)
    }

    fn differs(&self, case: &Case, given: [Given; 3]) -> bool {
        match self.printed(case, given) {
            Ok(printed) => printed != expected(case, given).as_bytes(),
            Err(_) => true,
        }
    }

    fn show(&self, case: Case, given: [Given; 3]) {
        let case = shrink(case, &mut |case| self.differs(case, given));
        println!("smallest set of files found that differs:");
        println!("  sheet  {}", report::bytes(&case.sheet));
        println!("  faults {}", report::bytes(&case.faults));
        println!("  asks   {}", report::bytes(&case.tag));
        let named = given.iter().filter(|&&given| given == Given::Written);
        println!("  files written and named: {}", named.count());
        println!("the reference prints:\n{}", expected(&case, given));
        match self.printed(&case, given) {
            Ok(printed) => println!("the program prints:\n{}", String::from_utf8_lossy(&printed)),
            Err(error) => println!("the program cannot be run: {error}"),
        }
    }
}

fn expected(case: &Case, given: [Given; 3]) -> String {
    let files = [&case.sheet, &case.faults, &case.tag];
    let file = |which: usize| (given[which] == Given::Written).then_some(&files[which][..]);
    program_output([file(0), file(1), file(2)])
}

/// Takes the name of a family, a set of files and how each is handed over.
type Sink<'a> = &'a mut dyn FnMut(&'static str, Case, [Given; 3]);

fn set(sheet: &[u8], faults: &[u8], asks: &[u8]) -> Case {
    Case {
        numbers: [0; 3],
        sheet: sheet.to_vec(),
        faults: faults.to_vec(),
        tag: asks.to_vec(),
    }
}

/// The set in the outline, whose four lines are known.
fn example() -> Case {
    let asks = [4, 1, 3, 4, 1, 5, 4, 3, 3, 4, 1, 6];
    set(&shapes::square().bytes(), &[3, 2, 2], &asks)
}

/// Asks about a plan; one in eight names a switch it may not have.
fn some_asks(rng: &mut Rng, plan: &Plan) -> Vec<u8> {
    let switch = |rng: &mut Rng| match rng.below(16) {
        0 => rng.byte(),
        _ => 1 + rng.below(plan.switches as usize) as u8,
    };
    let asks = 1 + rng.below(10);
    (0..asks)
        .flat_map(|_| [4, switch(rng), switch(rng)])
        .collect()
}

fn good(sink: Sink, rng: &mut Rng) {
    sink("the outline's example", example(), ALL_WRITTEN);
    for plan in shapes::catalogue(rng, 4) {
        let faults = plan.some_faults(rng);
        let case = set(&plan.bytes(), &faults, &some_asks(rng, &plan));
        sink("good files", case, ALL_WRITTEN);
    }
}

fn damaged(sink: Sink, rng: &mut Rng) {
    for plan in shapes::catalogue(rng, 8) {
        let mut case = set(
            &plan.bytes(),
            &plan.some_faults(rng),
            &some_asks(rng, &plan),
        );
        match rng.below(3) {
            0 => case.sheet = cases::damage_once(rng, &case.sheet),
            1 => case.faults = cases::damage_once(rng, &case.faults),
            _ => {
                case.sheet = cases::damage_once(rng, &case.sheet);
                case.faults = cases::damage_once(rng, &case.faults);
            }
        }
        sink("damaged sheet or fault list", case, ALL_WRITTEN);
    }
    let case = example();
    for place in 0..=case.tag.len() {
        for tag in cases::damage_at(&case.tag, place, &[0, 2, 4, 5, 255]) {
            sink(
                "damaged asks",
                Case {
                    tag,
                    ..case.clone()
                },
                ALL_WRITTEN,
            );
        }
    }
}

fn missing(sink: Sink) {
    for which in 0..3 {
        for way in [Given::Absent, Given::Folder, Given::Unnamed] {
            let mut given = ALL_WRITTEN;
            given[which] = way;
            if way == Given::Unnamed {
                given[which..].fill(Given::Unnamed);
            }
            sink("a file missing", example(), given);
            // Nor does it matter what stands in the other two.
            sink("a file missing", set(&[], &[9], &[9]), given);
        }
    }
    sink("a file missing", example(), [Given::Absent; 3]);
}

/// Each way to leave some of the three files empty.
fn empty(sink: Sink) {
    for holes in 1..8 {
        let mut case = example();
        let files = [&mut case.sheet, &mut case.faults, &mut case.tag];
        for (which, file) in files.into_iter().enumerate() {
            if holes >> which & 1 == 1 {
                file.clear();
            }
        }
        sink("empty files", case, ALL_WRITTEN);
    }
}

/// Files far longer than a buffer is likely to be.
fn long(sink: Sink, rng: &mut Rng) {
    let Case {
        sheet,
        faults,
        tag: asks,
        ..
    } = example();
    let full = shapes::full(rng);
    let rows = full.rows.iter().cycle().take(20_000);
    let rows: Vec<u8> = rows.flat_map(|row| [2].into_iter().chain(*row)).collect();
    let mut switch = || rng.byte() % 7;
    let many: Vec<u8> = (0..30_000).flat_map(|_| [4, switch(), switch()]).collect();
    let broken = [&many[..], &[4, 1]].concat();
    let filled = full.bytes();
    let zeros = [0; 70_000];
    for case in [
        set(&[&filled[..], &rows].concat(), &[], &asks),
        set(&[&filled[..], &zeros].concat(), &faults, &asks),
        set(&filled, &full.faults(rng, 512), &asks),
        set(&filled, &full.faults(rng, 513), &asks),
        set(&filled, &full.faults(rng, 30_000), &asks),
        set(&sheet, &zeros, &asks),
        set(&sheet, &faults, &many),
        set(&sheet, &faults, &broken),
        set(&sheet, &faults, &zeros),
    ] {
        sink("long files", case, ALL_WRITTEN);
    }
}

fn each_set(sink: Sink) {
    let rng = &mut Rng::new(99);
    good(sink, rng);
    damaged(sink, rng);
    missing(sink);
    empty(sink);
    long(sink, rng);
}

fn compare(bench: &Bench) -> bool {
    let mut families = Tally::default();
    let mut differ = 0;
    let mut smallest = None;
    let mut handed = ALL_WRITTEN;
    let mut lines = 0;
    each_set(&mut |family, case, given| {
        families.add(family, 1);
        lines += expected(&case, given).lines().count() as u64;
        if bench.differs(&case, given) {
            differ += 1;
            keep_smaller(&mut smallest, case.clone());
            if smallest.as_ref() == Some(&case) {
                handed = given;
            }
        }
    });
    println!("sets of files by family:\n{}", families.lines());
    println!("lines compared: {}", report::thousands(lines));
    smallest
        .into_iter()
        .for_each(|case| bench.show(case, handed));
    let enough = families.total() >= LEAST_SETS;
    report::verdict("program", families.total(), differ) && enough
}

/// `compare program PATH`; true if all is well.
pub fn run(program: &Path) -> bool {
    let bench = match Bench::new(program) {
        Ok(bench) => bench,
        Err(error) => {
            println!("program: {} cannot be tried: {error}", program.display());
            return false;
        }
    };
    let well = compare(&bench);
    if let Err(error) = fs::remove_dir_all(&bench.folder) {
        println!("{} is left behind: {error}", bench.folder.display());
    }
    well
}
