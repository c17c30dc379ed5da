//! The same usage files as the program `bench`, in plain Rust: a host's numbers in plain arrays.
use std::hint::black_box;
use std::io::Read;

const ROOM: usize = 2662;

struct Host {
    domains: usize,
    vcpus: usize,
    running: [bool; 128],
    runtime: [u64; 128],
    dispatched_at: [u64; 128],
    weight: [u32; 128],
}

fn put(out: &mut [u8; ROOM], at: &mut usize, bytes: &[u8]) {
    out[*at..*at + bytes.len()].copy_from_slice(bytes);
    *at += bytes.len();
}

fn write(h: &Host, now: u64) -> ([u8; ROOM], usize) {
    let mut out = [0; ROOM];
    let mut at = 0;
    put(&mut out, &mut at, b"USGE");
    put(&mut out, &mut at, &(h.domains as u16).to_be_bytes());
    for d in 0..h.domains {
        let start = 6 + h.domains * 6 + d * h.vcpus * 20;
        put(&mut out, &mut at, &(start as u32).to_be_bytes());
        put(&mut out, &mut at, &(h.vcpus as u16).to_be_bytes());
    }
    for d in 0..h.domains {
        for v in 0..h.vcpus {
            let i = d * 8 + v;
            let open = if h.running[i] { now.saturating_sub(h.dispatched_at[i]) } else { 0 };
            put(&mut out, &mut at, &h.weight[i].max(1).to_be_bytes());
            put(&mut out, &mut at, &(u128::from(h.runtime[i]) + u128::from(open)).to_be_bytes());
        }
    }
    (out, at)
}

fn number(file: &[u8], at: usize, n: usize) -> Option<usize> {
    Some(file.get(at..at + n)?.iter().fold(0, |sum, b| sum * 256 + usize::from(*b)))
}

/// The file's domains, if it is one.
fn open(file: &[u8]) -> Option<usize> {
    let domains = number(file, 4, 2)?;
    let vcpus = if domains == 0 { 0 } else { number(file, 10, 2)? };
    let start = 6 + domains * 6;
    let whole = start + domains * vcpus * 20;
    if !file.starts_with(b"USGE") || domains > 16 || vcpus > 8 || file.len() != whole {
        return None;
    }
    for d in 0..domains {
        if number(file, 6 + d * 6, 4)? != start + d * vcpus * 20 || number(file, 10 + d * 6, 2)? != vcpus {
            return None;
        }
    }
    for i in 0..domains * vcpus {
        if number(file, start + i * 20, 4)? == 0 {
            return None;
        }
    }
    Some(domains)
}

fn main() {
    let mut b = [0u8; 8];
    std::io::stdin().read_exact(&mut b).unwrap();
    let rounds = u64::from(u32::from_be_bytes([b[1], b[2], b[3], b[4]]));
    let (running, runtime, dispatched_at, weight) = ([true; 128], [7; 128], [0; 128], [256; 128]);
    let host = Host { domains: 16, vcpus: 8, running, runtime, dispatched_at, weight };
    let mut total = 0u64;
    if b[0] == 2 {
        for k in 0..rounds {
            let (bytes, _) = black_box(write(black_box(&host), k));
            total += u64::from(bytes[121]) + u64::from(bytes[2661]);
        }
    } else {
        let mut bytes = write(&host, 0).0;
        for k in 0..rounds {
            bytes[2645] = k as u8;
            total += open(black_box(&bytes)).unwrap() as u64;
        }
    }
    println!("{total}");
}
