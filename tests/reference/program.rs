//! A program run on a script, its output held against the expected one as it comes.
use std::io::{Read, Write};
use std::process::{Command, Stdio};

/// Where a program's output leaves the expected one, and how it goes on.
pub struct Departure {
    pub same: usize,
    pub rest: Vec<u8>,
}

/// The script comes through a pipe in uneven pieces: a program must not count on whole records.
pub fn run(program: &str, script: &[u8], expected: &[u8]) -> Option<Departure> {
    let mut child = Command::new(program)
        .stdin(Stdio::piped())
        .stdout(Stdio::piped())
        .spawn()
        .unwrap_or_else(|e| panic!("{program}: {e}"));
    let mut input = child.stdin.take().unwrap();
    let output = child.stdout.take().unwrap();
    let found = std::thread::scope(|scope| {
        scope.spawn(move || {
            // a program that stops reading is seen by what it writes
            let (first, others) = script.split_at(script.len().min(7));
            let _ = input.write_all(first).and_then(|()| others.chunks(4093).try_for_each(|p| input.write_all(p)));
        });
        departure(output, expected)
    });
    let status = child.wait().unwrap();
    let failed = || Departure { same: expected.len(), rest: format!("(ended with {status})\n").into_bytes() };
    found.or_else(|| (!status.success()).then(failed))
}

fn departure(mut output: impl Read, expected: &[u8]) -> Option<Departure> {
    let mut piece = vec![0; 1 << 16];
    let mut at = 0;
    loop {
        let n = output.read(&mut piece).unwrap();
        if n == 0 && at == expected.len() {
            return None;
        }
        let ahead = &expected[at..expected.len().min(at + n)];
        if n == 0 || ahead != &piece[..n] {
            let same = ahead.iter().zip(&piece[..n]).take_while(|(a, b)| a == b).count();
            let mut rest = piece[same..n].to_vec();
            output.take(expected.len() as u64).read_to_end(&mut rest).unwrap();
            return Some(Departure { same: at + same, rest });
        }
        at += n;
    }
}
