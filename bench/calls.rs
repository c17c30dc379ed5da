//! The same calls as the program `bench`, on upstream's mechanism.
extern crate alloc;
mod sched;

use std::io::Read;

fn full_host() -> sched::System {
    let mut s = sched::System::new(16, 8, 64);
    for i in 0..128u32 {
        let (dom, vcpu) = ((i / 8) as u16, i % 8);
        s.admit(dom, vcpu).unwrap();
        if i < 64 {
            s.run(dom, vcpu, i, 0).unwrap();
        }
    }
    s
}

fn main() {
    let mut b = [0u8; 8];
    std::io::stdin().read_exact(&mut b).unwrap();
    let rounds = u64::from(u32::from_be_bytes([b[1], b[2], b[3], b[4]]));
    let mut s = std::hint::black_box(full_host());
    let mut done = 0u64;
    for k in 0..rounds {
        let s = std::hint::black_box(&mut s);
        let _ = s.block(15, 7, k);
        let _ = s.wake(15, 7);
        let _ = s.preempt(0, 0, k);
        done += u64::from(s.run(0, 0, 0, k).is_ok());
    }
    println!("{done}");
}
