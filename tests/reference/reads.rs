//! Random records for `examine`: every answer, every read.
use crate::advance::Advances;
use crate::comparison::{length, shortfall, Comparison, Output, Reached, BUDGET};
use crate::examine::{examine, policy_shape, write, Reads, BUILD_APART};
use crate::fields::verdict;
use crate::generate::{examined, Rng};
use crate::outcomes::{Apart, Outcome, Outcomes, Seen, READS};
use crate::placements::Placements;
use crate::script::{Host, Record, Replay, Told, DONE, RECORD};
use crate::tally::{Row, Tally};
use std::marker::PhantomData;
use std::mem::take;
use std::process::ExitCode;

pub fn compare(comparison: &Comparison) -> ExitCode {
    let mut rng = Rng::new(comparison.seed);
    comparison.run::<Records<Called>>(|| {
        let seed = rng.draw();
        examined(seed, length(&mut rng), false, BUDGET)
    })
}

/// Tells whether some records reach every outcome of their sort.
pub fn reached<S: Sort>(script: &[u8]) -> ExitCode {
    let mut records = Records::<S>::default();
    records.account(script);
    match shortfall(&records) {
        Some(shortfall) => {
            eprintln!("{shortfall}");
            ExitCode::FAILURE
        }
        None => ExitCode::SUCCESS,
    }
}

/// What records of one sort have to reach.
pub trait Sort {
    const OUTCOMES: &'static [Outcome];
    /// Whether they write fields with no test.
    const WRITES: bool;
    fn answers() -> Vec<Row>;
}

/// On hosts that calls made.
pub struct Called;

impl Sort for Called {
    const OUTCOMES: &'static [Outcome] = READS;
    const WRITES: bool = false;

    fn answers() -> Vec<Row> {
        Vec::new()
    }
}

pub struct Records<S> {
    outcomes: Outcomes,
    answers: Tally,
    advances: Advances,
    /// Decisions read, and where those that are a Run go.
    decisions: u64,
    placements: Placements,
    sort: PhantomData<S>,
}

impl<S: Sort> Default for Records<S> {
    fn default() -> Records<S> {
        Records {
            outcomes: Outcomes::new(S::OUTCOMES),
            answers: Tally::new(S::answers()),
            advances: Advances::default(),
            decisions: 0,
            placements: Placements::default(),
            sort: PhantomData,
        }
    }
}

impl<S: Sort> Reached for Records<S> {
    const RECORDS: &'static str = "records";

    fn account(&mut self, script: &[u8]) -> Vec<Output> {
        let mut replay = Replay { host: None, advances: take(&mut self.advances) };
        let (mut output, mut apart) = (Output::default(), None);
        for (count, bytes) in (1..).zip(script.chunks(RECORD)) {
            let record = Record::read(bytes);
            let ran = record.zip(replay.host.as_ref()).is_some_and(|(r, host)| runs(host, r.domain));
            let before = replay.host.as_ref().map(verdict);
            let Some(answered) = examine(&mut replay, bytes) else { break };
            write(&mut output.bytes, count, &answered);
            output.end_record();
            self.answers.note(record, answered.told.answer);
            replay.advances.note(replay.host.as_ref());
            self.decided(answered.reads.as_ref());
            if let Some(record) = record {
                let (told, host, reads) = (answered.told, replay.host.as_ref(), answered.reads.as_ref());
                apart = apart_after(apart, record, told);
                self.outcomes.note(&Seen { record, told, ran, apart, before, host, reads });
            }
        }
        self.advances = replay.advances;
        vec![output]
    }

    fn beside(&self) -> String {
        "each with its reads,".into()
    }

    fn print(&self) {
        self.answers.print();
        self.outcomes.print();
        self.advances.print(Self::RECORDS, S::WRITES);
        let (runs, elsewhere) = (self.placements.all, self.placements.elsewhere());
        println!("{} decisions read, {runs} of them a Run, {elsewhere} of these elsewhere", self.decisions);
        self.placements.print(S::WRITES);
    }

    fn unreached(&self) -> Vec<String> {
        let told = self.answers.unreached().into_iter().chain(self.outcomes.unreached());
        let read = self.placements.unreached("a Run read", S::WRITES);
        told.chain(self.advances.unreached(S::WRITES)).chain(read).collect()
    }
}

impl<S> Records<S> {
    fn decided(&mut self, reads: Option<&Reads>) {
        let Some(reads) = reads else { return };
        self.decisions += u64::from(reads.next.is_some());
        reads.placement.iter().for_each(|placement| self.placements.note(placement));
    }
}

fn runs(host: &Host, domain: u16) -> bool {
    (0..host.system.vcpu_count(domain) as u32).any(|v| host.system.is_running(domain, v))
}

fn apart_after(apart: Apart, r: Record, told: Told) -> Apart {
    let [domains, vcpus, _] = policy_shape(r.value);
    match (r.kind, told.answer) {
        (BUILD_APART, DONE) if [domains, vcpus] != [u64::from(r.domain), u64::from(r.vcpu)] => Some([domains, vcpus]),
        (0 | BUILD_APART, DONE) => None,
        _ => apart,
    }
}
