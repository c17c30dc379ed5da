//! A comparison: random scripts through upstream, in this process, and through programs. The first difference ends
//! it, and is shown by the shortest script found.
use crate::generate::Rng;
use crate::program::{run, Departure};
use crate::script::RECORD;
use crate::shrink::shrink;
use std::process::ExitCode;
use std::time::Instant;

const LONGEST: u64 = 5000;
/// What the hosts of one script may cost.
pub const BUDGET: u64 = 20_000;
/// From so many records on, everything that a comparison counts has to have been reached.
const ENOUGH: u64 = 100_000;

/// A comparison as it is asked for: it ends after so many records or seconds.
pub struct Comparison<'a> {
    pub seed: u64,
    pub records: u64,
    pub seconds: u64,
    pub programs: &'a [&'a str],
    /// Where a difference is left: as `records`, and as the `lines` that the last program should have written.
    pub folder: &'a str,
}

/// What the programs should write, and what of it has been reached.
pub trait Reached: Default {
    /// What records are called where they are counted.
    const RECORDS: &'static str;

    /// Upstream's account of a script, up to an overflow of its own: an output for each program.
    fn account(&mut self, script: &[u8]) -> Vec<Output>;

    /// What is compared beside the records.
    fn beside(&self) -> String;

    fn print(&self);

    fn unreached(&self) -> Vec<String>;
}

/// What a program should write for a script, and where each record's part of it ends.
#[derive(Default)]
pub struct Output {
    pub bytes: Vec<u8>,
    ends: Vec<usize>,
}

impl Output {
    pub fn end_record(&mut self) {
        self.ends.push(self.bytes.len());
    }

    fn start(&self, record: usize) -> usize {
        if record == 0 {
            0
        } else {
            self.ends[record - 1]
        }
    }

    /// Whose part a byte belongs to; what follows the last record counts as its part.
    fn record_at(&self, at: usize) -> usize {
        self.ends.iter().position(|end| *end > at).unwrap_or(self.ends.len().max(1) - 1)
    }
}

/// How many records upstream has an answer to.
fn answered(account: &[Output]) -> usize {
    account[0].ends.len()
}

/// How much has been compared.
#[derive(Default)]
struct Extent {
    scripts: u64,
    records: u64,
    /// Records left out.
    overflows: u64,
}

impl Extent {
    fn print<R: Reached>(&self, reached: &R, seconds: f64) {
        let Extent { scripts, records, overflows } = self;
        let name = R::RECORDS;
        println!("{scripts} scripts, {records} {name}, {} compared", reached.beside());
        println!("{overflows} {name} left out because upstream's own sum overflows there");
        println!("{seconds:.1} s, {:.0} {name} a second", *records as f64 / seconds);
        reached.print();
    }
}

struct Difference {
    program: usize,
    record: usize,
    departure: Departure,
}

impl Comparison<'_> {
    /// `draw` gives a random script, and the number of overflows that it steps around.
    pub fn run<R: Reached>(&self, mut draw: impl FnMut() -> (Vec<u8>, u64)) -> ExitCode {
        let start = Instant::now();
        let (mut extent, mut reached) = (Extent::default(), R::default());
        while extent.records < self.records && start.elapsed().as_secs() < self.seconds {
            let (script, overflows) = draw();
            let account = reached.account(&script);
            extent.scripts += 1;
            extent.records += answered(&account) as u64;
            extent.overflows += overflows;
            if self.difference(&script, &account).is_some() {
                self.report::<R>(&script);
                return ExitCode::FAILURE;
            }
        }
        extent.print(&reached, start.elapsed().as_secs_f64());
        verdict(extent.records, &reached)
    }

    /// The first record at which a program leaves upstream's account.
    fn difference(&self, script: &[u8], account: &[Output]) -> Option<Difference> {
        // what stands after an overflow is not upstream's to say
        let script = &script[..script.len().min(answered(account) * RECORD)];
        let departures: Vec<Option<Departure>> = std::thread::scope(|scope| {
            let pairs = self.programs.iter().zip(account);
            let runs: Vec<_> = pairs.map(|(p, output)| scope.spawn(|| run(p, script, &output.bytes))).collect();
            runs.into_iter().map(|run| run.join().unwrap()).collect()
        });
        let of = |(program, departure): (usize, Option<Departure>)| {
            let departure = departure?;
            Some(Difference { program, record: account[program].record_at(departure.same), departure })
        };
        departures.into_iter().enumerate().filter_map(of).min_by_key(|d| d.record)
    }

    fn report<R: Reached>(&self, script: &[u8]) {
        let found = |script: &[u8]| {
            let account = R::default().account(script);
            self.difference(script, &account).map(|difference| (account, difference))
        };
        let shows = |script: &[u8]| found(script).map(|(_, difference)| difference.record + 1);
        let (prefix, length) = (shows(script).unwrap_or(0), script.len().div_ceil(RECORD));
        println!("a difference: seed {}, shown by the first {prefix} records of a script of {length}", self.seed);
        let short = shrink(script, shows);
        match found(&short) {
            None => println!("it is not shown each time: the program's answers vary"),
            Some((account, difference)) => {
                show_script(&short);
                self.show(&account, &difference);
                self.leave(&short, &account);
            }
        }
    }

    fn show(&self, account: &[Output], found: &Difference) {
        let expected = &account[found.program];
        let (start, same) = (expected.start(found.record), found.departure.same);
        println!("after record {}, upstream:", found.record + 1);
        print!("{}", String::from_utf8_lossy(&expected.bytes[start..]));
        println!("{}:", self.programs[found.program]);
        print!("{}", String::from_utf8_lossy(&[&expected.bytes[start..same], &found.departure.rest].concat()));
    }

    fn leave(&self, script: &[u8], account: &[Output]) {
        let leave = |name: &str, bytes: &[u8]| std::fs::write(format!("{}/{name}", self.folder), bytes).unwrap();
        leave("records", script);
        leave("lines", &account[account.len() - 1].bytes);
    }
}

fn show_script(script: &[u8]) {
    println!("shortest script found: {} records; in hex:", script.len().div_ceil(RECORD));
    for record in script.chunks(RECORD) {
        println!("  {}", record.iter().map(|b| format!("{b:02x}")).collect::<String>());
    }
}

/// What to say where something was not reached.
pub fn shortfall(reached: &impl Reached) -> Option<String> {
    let unreached = reached.unreached();
    (!unreached.is_empty()).then(|| format!("FAILED: not reached: {}", unreached.join(", ")))
}

/// The end of a comparison that found no difference.
fn verdict(records: u64, reached: &impl Reached) -> ExitCode {
    match shortfall(reached) {
        Some(shortfall) if records >= ENOUGH => {
            println!("{shortfall}");
            ExitCode::FAILURE
        }
        _ => {
            println!("no difference");
            ExitCode::SUCCESS
        }
    }
}

/// A random number of records: the longest is halved up to nine times, so that short scripts are not rare.
pub fn length(rng: &mut Rng) -> usize {
    let longest = LONGEST >> rng.below(10);
    rng.below(longest) as usize
}
