//! Upstream's mechanism and policy, run by scripts: what the programs are compared with.
//!
//!   reference replay               records from standard input, a line for each
//!   reference plain                the same by upstream alone, every placement on the lowest pCPU: what is timed
//!   reference trace                as replay, and the host after each
//!   reference examine              records of `examine`, and every read after each
//!   reference generate SEED CALLS [small | examined | damaged]
//!                                  a random script; with `small`, on hosts of a few vCPUs; with `examined`,
//!                                  records of `examine` on such hosts; with `damaged`, such records that write
//!                                  fields with no test
//!   reference compare SEED CALLS SECONDS TRACE REPLAY FOLDER
//!                                  random scripts through upstream and the two programs; a difference is
//!                                  left in FOLDER, as `records` and upstream's `lines`
//!   reference reads SEED RECORDS SECONDS EXAMINE FOLDER
//!                                  random records of `examine` through upstream and the program, in the same way
//!   reference damage SEED RECORDS SECONDS EXAMINE FOLDER
//!                                  the same with records that write fields with no test
//!   reference reached [damaged]    whether the records of standard input reach every outcome of every read; with
//!                                  `damaged`, every verdict and what else such records have to reach
extern crate alloc;
mod advance;
mod calls;
mod comparison;
mod examine;
mod fields;
mod generate;
mod last;
mod lines;
mod outcomes;
mod outside_policy;
mod placements;
mod plain;
mod policies;
mod policy;
mod program;
mod reads;
mod sched;
mod script;
mod shrink;
mod tally;
mod verdicts;

use comparison::Comparison;
use plain::Plain;
use script::{Host, Replay, Scripted, RECORD};
use std::io::{BufReader, Read, Write};
use std::process::ExitCode;

fn main() -> ExitCode {
    script::quiet_overflows();
    let args: Vec<String> = std::env::args().skip(1).collect();
    let args: Vec<&str> = args.iter().map(String::as_str).collect();
    match args[..] {
        ["replay"] => replay::<Host>(|_, _| {}),
        ["plain"] => replay::<Plain>(|_, _| {}),
        ["trace"] => replay(lines::host),
        ["examine"] => examine(),
        ["generate", seed, calls] => print(&generate::script(number(seed), number(calls) as usize, false)),
        ["generate", seed, calls, "small"] => print(&generate::script(number(seed), number(calls) as usize, true)),
        ["generate", seed, calls, "examined"] => {
            print(&generate::examined(number(seed), number(calls) as usize, true, u64::MAX).0)
        }
        ["generate", seed, calls, "damaged"] => {
            print(&generate::damaged(number(seed), number(calls) as usize, true, u64::MAX).0)
        }
        ["compare", seed, calls, seconds, trace, replay, folder] => {
            calls::compare(&comparison([seed, calls, seconds], &[trace, replay], folder))
        }
        ["reads", seed, records, seconds, examine, folder] => {
            reads::compare(&comparison([seed, records, seconds], &[examine], folder))
        }
        ["damage", seed, records, seconds, examine, folder] => {
            verdicts::compare(&comparison([seed, records, seconds], &[examine], folder))
        }
        ["reached"] => reads::reached::<reads::Called>(&input()),
        ["reached", "damaged"] => reads::reached::<verdicts::Damaged>(&input()),
        _ => {
            eprintln!("usage: reference replay | plain | trace | examine | reached [damaged]");
            eprintln!("       reference generate SEED CALLS [small | examined | damaged]");
            eprintln!("       reference compare SEED CALLS SECONDS TRACE REPLAY FOLDER");
            eprintln!("       reference reads | damage SEED RECORDS SECONDS EXAMINE FOLDER");
            ExitCode::from(2)
        }
    }
}

fn number(word: &str) -> u64 {
    word.parse().unwrap_or_else(|_| panic!("not a number: {word}"))
}

fn comparison<'a>(numbers: [&str; 3], programs: &'a [&'a str], folder: &'a str) -> Comparison<'a> {
    let [seed, records, seconds] = numbers.map(number);
    Comparison { seed, records, seconds, programs, folder }
}

fn input() -> Vec<u8> {
    let mut script = Vec::new();
    std::io::stdin().read_to_end(&mut script).unwrap();
    script
}

fn print(script: &[u8]) -> ExitCode {
    std::io::stdout().write_all(script).unwrap();
    ExitCode::SUCCESS
}

/// A line for each record, and what `show` writes of the host after it.
fn replay<H: Scripted>(show: fn(&mut Vec<u8>, &H)) -> ExitCode {
    let mut replay = Replay::<H>::default();
    answer_all(|out, count, record| {
        let told = replay.tell(record)?;
        lines::answer(out, count, told);
        if let Some(host) = &replay.host {
            show(out, host);
        }
        Some(())
    })
}

fn examine() -> ExitCode {
    let mut replay = Replay::default();
    answer_all(|out, count, record| {
        let answered = examine::examine(&mut replay, record)?;
        examine::write(out, count, &answered);
        Some(())
    })
}

/// Writes what `answer` puts out for each record of standard input; `None` is an overflow of upstream's.
fn answer_all(mut answer: impl FnMut(&mut Vec<u8>, u64, &[u8]) -> Option<()>) -> ExitCode {
    let mut input = BufReader::with_capacity(1 << 16, std::io::stdin().lock());
    let mut output = std::io::stdout().lock();
    let mut out = Vec::with_capacity(1 << 17);
    let mut record = [0; RECORD];
    for count in 1.. {
        let length = fill(&mut input, &mut record);
        if length == 0 {
            break;
        }
        if answer(&mut out, count, &record[..length]).is_none() {
            output.write_all(&out).unwrap();
            eprintln!("record {count}: upstream's sum of a service overflows");
            return ExitCode::from(3);
        }
        if out.len() >= 1 << 16 {
            output.write_all(&out).unwrap();
            out.clear();
        }
    }
    output.write_all(&out).unwrap();
    ExitCode::SUCCESS
}

/// How much of a record could still be read.
fn fill(input: &mut impl Read, record: &mut [u8; RECORD]) -> usize {
    let mut length = 0;
    while length < RECORD {
        match input.read(&mut record[length..]).unwrap() {
            0 => break,
            n => length += n,
        }
    }
    length
}
