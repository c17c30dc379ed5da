//! The same advances as the program `bench`, on upstream's mechanism and policy.
extern crate alloc;
mod policy;
mod sched;

use std::io::Read;

fn main() {
    let mut b = [0u8; 8];
    std::io::stdin().read_exact(&mut b).unwrap();
    let rounds = u64::from(u32::from_be_bytes([b[1], b[2], b[3], b[4]]));
    let mut s = std::hint::black_box(sched::System::new(b[5] as usize, b[6] as usize, b[7] as usize));
    let mut p = std::hint::black_box(policy::Scheduler::new(b[5] as usize, b[6] as usize, 10));
    for i in 0..128u32 {
        let _ = s.admit((i / 8) as u16, i % 8);
        p.set_weight((i / 8) as u16, i % 8, i + 1);
    }
    let mut moves = 0u64;
    for k in 0..rounds {
        moves += u64::from(std::hint::black_box(&mut p).advance(std::hint::black_box(&mut s), k * 7));
    }
    println!("{moves}");
}
