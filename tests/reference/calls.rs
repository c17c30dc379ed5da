//! Random scripts for `trace` and `replay`: every answer, every count of moves, every state.
use crate::advance::Advances;
use crate::comparison::{length, Comparison, Output, Reached, BUDGET};
use crate::generate::{bounded, Rng};
use crate::lines;
use crate::script::{Record, Replay, RECORD};
use crate::tally::{calls, Tally};
use std::mem::take;
use std::process::ExitCode;

pub fn compare(comparison: &Comparison) -> ExitCode {
    // a seed for each script: neighbouring runs share none
    let mut seeds = Rng::new(comparison.seed);
    comparison.run::<Calls>(|| {
        let seed = seeds.draw();
        bounded(seed, length(&mut Rng::new(!seed)), false, BUDGET)
    })
}

struct Calls {
    moves: u64,
    states: u64,
    answers: Tally,
    advances: Advances,
}

impl Default for Calls {
    fn default() -> Calls {
        Calls { moves: 0, states: 0, answers: Tally::new(calls()), advances: Advances::default() }
    }
}

impl Reached for Calls {
    const RECORDS: &'static str = "calls";

    fn account(&mut self, script: &[u8]) -> Vec<Output> {
        let mut replay: Replay = Replay { host: None, advances: take(&mut self.advances) };
        let [mut traced, mut replayed] = [Output::default(), Output::default()];
        for (count, bytes) in (1..).zip(script.chunks(RECORD)) {
            let Some(told) = replay.tell(bytes) else { break };
            lines::answer(&mut traced.bytes, count, told);
            lines::answer(&mut replayed.bytes, count, told);
            if let Some(host) = &replay.host {
                lines::host(&mut traced.bytes, host);
                self.states += 1;
            }
            traced.end_record();
            replayed.end_record();
            self.moves += u64::from(told.moves);
            self.answers.note(Record::read(bytes), told.answer);
            replay.advances.note(replay.host.as_ref());
        }
        self.advances = replay.advances;
        vec![traced, replayed]
    }

    fn beside(&self) -> String {
        format!("{} moves, {} states", self.moves, self.states)
    }

    fn print(&self) {
        self.answers.print();
        self.advances.print(Calls::RECORDS, false);
    }

    fn unreached(&self) -> Vec<String> {
        let moves = (self.moves == 0).then(|| "a move".to_string());
        self.answers.unreached().into_iter().chain(moves).chain(self.advances.unreached(false)).collect()
    }
}
