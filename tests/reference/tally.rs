//! How often records were told what, kind by kind.
use crate::script::{Record, ANSWERS, LAST_KIND};
use crate::script::{BAD_DOMAIN, BAD_PCPU, BAD_SCRIPT, BAD_VCPU, DONE, NOT_AFFINE, PCPU_BUSY, TOO_LARGE};
use crate::script::{FOUND_BLOCKED, FOUND_OFFLINE, FOUND_RUNNABLE, FOUND_RUNNING};
use Of::{CutOff, Kind, KindAbove, Kinds};

/// The records that a row counts.
pub enum Of {
    Kind(u16),
    Kinds(u16, u16),
    KindAbove(u16),
    CutOff,
}

/// A row's name, the records that it counts, and what they can be told.
pub type Row = (&'static str, Of, Vec<u8>);

impl Of {
    fn counts(&self, record: Option<Record>) -> bool {
        match (self, record) {
            (Kind(kind), Some(r)) => r.kind == *kind,
            (Kinds(first, last), Some(r)) => (*first..=*last).contains(&r.kind),
            (KindAbove(kind), Some(r)) => r.kind > *kind,
            (CutOff, None) => true,
            _ => false,
        }
    }
}

const OF_A_VCPU: &[u8] = &[DONE, BAD_DOMAIN, BAD_VCPU, BAD_SCRIPT];
const OF_A_POLICY: &[u8] = &[DONE, BAD_SCRIPT];

/// The kinds of a script from 0 on, and what each can be told where no system is damaged.
const KINDS: [(&str, &[u8], &[u8]); LAST_KIND as usize + 1] = [
    ("build", &[DONE, TOO_LARGE], &[]),
    ("admit", OF_A_VCPU, &[FOUND_RUNNABLE, FOUND_RUNNING, FOUND_BLOCKED]),
    ("run", OF_A_VCPU, &[BAD_PCPU, FOUND_OFFLINE, FOUND_RUNNING, FOUND_BLOCKED, PCPU_BUSY, NOT_AFFINE]),
    ("preempt", OF_A_VCPU, &[FOUND_OFFLINE, FOUND_RUNNABLE, FOUND_BLOCKED]),
    ("block", OF_A_VCPU, &[FOUND_OFFLINE, FOUND_BLOCKED]),
    ("wake", OF_A_VCPU, &[FOUND_OFFLINE, FOUND_RUNNABLE, FOUND_RUNNING]),
    ("offline", OF_A_VCPU, &[FOUND_OFFLINE]),
    ("mask", OF_A_VCPU, &[NOT_AFFINE]),
    ("weight", OF_A_POLICY, &[]),
    ("advance", OF_A_POLICY, &[]),
    ("boost", OF_A_POLICY, &[]),
];

/// Of the kinds of a script.
pub fn kinds() -> Vec<Row> {
    (0..).zip(KINDS).map(|(kind, (name, told, more))| (name, Kind(kind), [told, more].concat())).collect()
}

/// Of every record of a script.
pub fn calls() -> Vec<Row> {
    let no_calls = [("above 10", KindAbove(LAST_KIND), vec![BAD_SCRIPT]), ("cut off", CutOff, vec![BAD_SCRIPT])];
    kinds().into_iter().chain(no_calls).collect()
}

pub struct Tally {
    rows: Vec<Row>,
    told: Vec<[u64; ANSWERS]>,
}

impl Tally {
    pub fn new(rows: Vec<Row>) -> Tally {
        Tally { told: vec![[0; ANSWERS]; rows.len()], rows }
    }

    pub fn note(&mut self, record: Option<Record>, answer: u8) {
        for ((_, of, _), told) in self.rows.iter().zip(&mut self.told) {
            told[usize::from(answer)] += u64::from(of.counts(record));
        }
    }

    pub fn print(&self) {
        if self.rows.is_empty() {
            return;
        }
        println!("{:>9} {}", "told", columns(0..ANSWERS as u64));
        for ((name, ..), told) in self.rows.iter().zip(&self.told) {
            println!("{name:>9} {}", columns(told.iter().copied()));
        }
    }

    pub fn unreached(&self) -> Vec<String> {
        let rows = self.rows.iter().zip(&self.told);
        let cells = rows.flat_map(|((name, _, can), told)| can.iter().map(move |a| (name, a, told[usize::from(*a)])));
        cells.filter(|(_, _, n)| *n == 0).map(|(name, answer, _)| format!("{name} told {answer}")).collect()
    }
}

fn columns(ns: impl Iterator<Item = u64>) -> String {
    ns.map(|n| format!("{n:>8}")).collect()
}
