//! What the programs write: a line for each record, and for `trace` the host after it.
use crate::last::NO_PCPU;
use crate::sched::RunState;
use crate::script::{Host, Told};

pub fn answer(out: &mut Vec<u8>, count: u64, told: Told) {
    numbers(out, &[count, u64::from(told.answer), u64::from(told.moves)]);
}

pub fn host(out: &mut Vec<u8>, host: &Host) {
    let system = &host.system;
    for domain in 0..system.domain_count() as u16 {
        for vcpu in 0..system.vcpu_count(domain) as u32 {
            out.push(b' ');
            numbers(out, &record(host, domain, vcpu));
        }
    }
    for pcpu in 0..system.pcpu_count() as u32 {
        if let Some((domain, vcpu)) = system.occupant(pcpu) {
            out.extend_from_slice(b" p ");
            numbers(out, &[u64::from(pcpu), u64::from(domain), u64::from(vcpu)]);
        }
    }
}

fn record(host: &Host, domain: u16, vcpu: u32) -> [u64; 9] {
    let system = &host.system;
    let (state, pcpu) = match system.state_of(domain, vcpu).unwrap() {
        RunState::Offline => (0, NO_PCPU),
        RunState::Runnable => (1, NO_PCPU),
        RunState::Running { pcpu } => (2, pcpu),
        RunState::Blocked => (3, NO_PCPU),
    };
    [
        u64::from(domain),
        u64::from(vcpu),
        state,
        u64::from(pcpu),
        system.on_cpu_since(domain, vcpu).unwrap_or(0),
        system.runtime(domain, vcpu).unwrap(),
        system.affinity_of(domain, vcpu).unwrap(),
        u64::from(host.policy.weight_of(domain, vcpu)),
        u64::from(host.last.of(domain, vcpu).pcpu),
    ]
}

pub fn numbers(out: &mut Vec<u8>, ns: &[u64]) {
    for (i, n) in ns.iter().enumerate() {
        if i > 0 {
            out.push(b' ');
        }
        decimal(out, *n);
    }
    out.push(b'\n');
}

// by hand: comparing writes millions of numbers
fn decimal(out: &mut Vec<u8>, mut n: u64) {
    let mut digits = [0u8; 20];
    let mut start = digits.len();
    loop {
        start -= 1;
        digits[start] = b'0' + (n % 10) as u8;
        n /= 10;
        if n == 0 {
            break;
        }
    }
    out.extend_from_slice(&digits[start..]);
}
