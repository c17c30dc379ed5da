//! Records, and upstream's host behind them. Only the answers 7 and 9 are added here, and beside the host the pCPU that
//! each vCPU was last on; all else is upstream's. Its one WrongState is told by the number of the state that its own
//! `state_of` gives just before the call.
use crate::advance::{advance, Advances};
use crate::fields::Tables;
use crate::last::Last;
use crate::policies::Policy;
use crate::sched::{RunState, SchedError, System};
use std::panic::{catch_unwind, resume_unwind, AssertUnwindSafe};

pub const RECORD: usize = 20;
pub const RUN: u16 = 2;
pub const OFFLINE: u16 = 6;
pub const ADVANCE: u16 = 9;
/// Kinds of a script are numbers up to this.
pub const LAST_KIND: u16 = 10;
// the answers; upstream has neither 7, 8 nor 9, and one for 4, 10, 11 and 12
pub const DONE: u8 = 0;
pub const BAD_DOMAIN: u8 = 1;
pub const BAD_VCPU: u8 = 2;
pub const BAD_PCPU: u8 = 3;
pub const FOUND_RUNNABLE: u8 = 4;
pub const PCPU_BUSY: u8 = 5;
pub const NOT_AFFINE: u8 = 6;
pub const TOO_LARGE: u8 = 7;
pub const UNSOUND: u8 = 8;
pub const BAD_SCRIPT: u8 = 9;
pub const FOUND_OFFLINE: u8 = 10;
pub const FOUND_RUNNING: u8 = 11;
pub const FOUND_BLOCKED: u8 = 12;
/// Answers are numbers below this.
pub const ANSWERS: usize = 13;
pub const SIZES: [u64; 3] = [16, 8, 64];

#[derive(Clone, Copy, Default)]
pub struct Record {
    pub kind: u16,
    pub domain: u16,
    pub vcpu: u32,
    pub third: u32,
    pub value: u64,
}

impl Record {
    /// `None` for a record that was cut off.
    pub fn read(bytes: &[u8]) -> Option<Record> {
        let b: &[u8; RECORD] = bytes.try_into().ok()?;
        Some(Record {
            kind: u16::from_be_bytes([b[0], b[1]]),
            domain: u16::from_be_bytes([b[2], b[3]]),
            vcpu: u32::from_be_bytes([b[4], b[5], b[6], b[7]]),
            third: u32::from_be_bytes([b[8], b[9], b[10], b[11]]),
            value: u64::from_be_bytes([b[12], b[13], b[14], b[15], b[16], b[17], b[18], b[19]]),
        })
    }

    pub fn bytes(&self) -> [u8; RECORD] {
        let mut b = [0; RECORD];
        b[0..2].copy_from_slice(&self.kind.to_be_bytes());
        b[2..4].copy_from_slice(&self.domain.to_be_bytes());
        b[4..8].copy_from_slice(&self.vcpu.to_be_bytes());
        b[8..12].copy_from_slice(&self.third.to_be_bytes());
        b[12..20].copy_from_slice(&self.value.to_be_bytes());
        b
    }

    /// The same record with every field that its kind does not use replaced by that of `other`.
    pub fn filled(self, other: Record) -> Record {
        let (ids, third, value) = match self.kind {
            0 | 2 => (true, true, true),
            1 | 5 => (true, false, false),
            3 | 4 | 6 | 7 => (true, false, true),
            8 => (true, true, false),
            9 | 10 => (false, false, true),
            _ => (false, false, false),
        };
        Record {
            kind: self.kind,
            domain: if ids { self.domain } else { other.domain },
            vcpu: if ids { self.vcpu } else { other.vcpu },
            third: if third { self.third } else { other.third },
            value: if value { self.value } else { other.value },
        }
    }
}

#[derive(Clone, Copy)]
pub struct Told {
    pub answer: u8,
    pub moves: u32,
}

pub struct Host {
    pub system: System,
    pub policy: Policy,
    /// The system's counts and the policy's, which are above the sizes only if they were written with no test.
    pub counts: [u64; 3],
    pub policy_counts: [u64; 2],
    /// What stands past the counts, once a field was written with no test.
    pub tables: Option<Box<Tables>>,
    /// The pCPU that each vCPU was last on.
    pub last: Last,
    /// Whether an advance has placed elsewhere than on the lowest since the build.
    pub elsewhere: bool,
}

impl Host {
    /// When each Running vCPU of a domain was dispatched.
    pub fn dispatches(&self, domain: u16) -> Vec<u64> {
        let vcpus = 0..self.system.vcpu_count(domain) as u32;
        vcpus.filter_map(|v| self.system.on_cpu_since(domain, v)).collect()
    }
}

/// A host as scripts want it.
pub trait Scripted {
    /// Of counts within the sizes.
    fn new(counts: [u64; 3], policy_counts: [u64; 2], slice: u64) -> Self;

    /// What a call is told that is no advance.
    fn call(&mut self, r: Record) -> u8;

    /// The moves; `None` where upstream's own sum of a service overflows.
    fn advance(&mut self, now: u64, advances: &mut Advances) -> Option<u32>;
}

impl Scripted for Host {
    fn new(counts: [u64; 3], policy_counts: [u64; 2], slice: u64) -> Host {
        let [domains, vcpus, pcpus] = counts.map(|n| n as usize);
        let system = System::new(domains, vcpus, pcpus);
        let policy = Policy::new(counts, policy_counts, slice);
        Host { system, policy, counts, policy_counts, tables: None, last: Last::built(), elsewhere: false }
    }

    fn call(&mut self, r: Record) -> u8 {
        let answer = answer(&mut self.system, &mut self.policy, r);
        if answer == DONE {
            self.last.called(r);
        }
        answer
    }

    fn advance(&mut self, now: u64, advances: &mut Advances) -> Option<u32> {
        advance(self, now, advances)
    }
}

/// A script under way: no host before its first successful build.
pub struct Replay<H = Host> {
    pub host: Option<H>,
    pub advances: Advances,
}

impl<H> Default for Replay<H> {
    fn default() -> Replay<H> {
        Replay { host: None, advances: Advances::default() }
    }
}

impl<H: Scripted> Replay<H> {
    /// `None` where upstream's own sum of a service overflows. The host is then gone.
    pub fn tell(&mut self, bytes: &[u8]) -> Option<Told> {
        match Record::read(bytes) {
            Some(r) if r.kind == 0 => Some(self.build(r)),
            Some(r) if r.kind <= LAST_KIND => self.call(r),
            _ => Some(told(BAD_SCRIPT)),
        }
    }

    fn build(&mut self, r: Record) -> Told {
        let shape = [u64::from(r.domain), u64::from(r.vcpu), u64::from(r.third)];
        if shape.iter().zip(SIZES).any(|(n, size)| *n > size) {
            return told(TOO_LARGE);
        }
        self.host = Some(H::new(shape, [shape[0], shape[1]], r.value));
        told(DONE)
    }

    fn call(&mut self, r: Record) -> Option<Told> {
        let Some(host) = self.host.as_mut() else { return Some(told(BAD_SCRIPT)) };
        if r.kind == ADVANCE {
            let moves = host.advance(r.value, &mut self.advances);
            if moves.is_none() {
                self.host = None;
            }
            return moves.map(|moves| Told { answer: DONE, moves });
        }
        Some(told(host.call(r)))
    }
}

/// What upstream answers to a call that is no advance.
pub fn answer(system: &mut System, policy: &mut Policy, r: Record) -> u8 {
    let found = system.state_of(r.domain, r.vcpu);
    number(result(system, policy, r), found)
}

fn result(s: &mut System, policy: &mut Policy, r: Record) -> Result<(), SchedError> {
    match r.kind {
        1 => s.admit(r.domain, r.vcpu)?,
        RUN => s.run(r.domain, r.vcpu, r.third, r.value)?,
        3 => s.preempt(r.domain, r.vcpu, r.value)?,
        4 => s.block(r.domain, r.vcpu, r.value)?,
        5 => s.wake(r.domain, r.vcpu)?,
        OFFLINE => s.offline(r.domain, r.vcpu, r.value)?,
        7 => s.set_affinity(r.domain, r.vcpu, r.value)?,
        8 => policy.set_weight(r.domain, r.vcpu, r.third),
        _ => policy.set_wake_boost(r.value != 0),
    }
    Ok(())
}

/// What every call but an advance is told: no moves.
pub fn told(answer: u8) -> Told {
    Told { answer, moves: 0 }
}

fn number(result: Result<(), SchedError>, found: Option<RunState>) -> u8 {
    match result {
        Ok(()) => DONE,
        Err(SchedError::BadDomain) => BAD_DOMAIN,
        Err(SchedError::BadVcpu) => BAD_VCPU,
        Err(SchedError::BadPcpu) => BAD_PCPU,
        Err(SchedError::WrongState) => found_in(found.expect("a vCPU in a wrong state")),
        Err(SchedError::PcpuBusy) => PCPU_BUSY,
        Err(SchedError::NotAffine) => NOT_AFFINE,
    }
}

fn found_in(state: RunState) -> u8 {
    match state {
        RunState::Offline => FOUND_OFFLINE,
        RunState::Runnable => FOUND_RUNNABLE,
        RunState::Running { .. } => FOUND_RUNNING,
        RunState::Blocked => FOUND_BLOCKED,
    }
}

const OVERFLOW: &str = "attempt to add with overflow";

/// `None` where upstream's own sum of a service overflows on the way.
pub fn unless_overflow<T>(answer: impl FnOnce() -> T) -> Option<T> {
    match catch_unwind(AssertUnwindSafe(answer)) {
        Ok(answer) => Some(answer),
        Err(cause) if cause.downcast_ref::<&str>() == Some(&OVERFLOW) => None,
        Err(cause) => resume_unwind(cause),
    }
}

/// An overflow is answered by `None`, so it needs no message of its own.
pub fn quiet_overflows() {
    let loud = std::panic::take_hook();
    std::panic::set_hook(Box::new(move |info| {
        let upstream = info.location().is_some_and(|l| l.file().ends_with("policy.rs"));
        if !upstream || info.payload().downcast_ref::<&str>() != Some(&OVERFLOW) {
            loud(info);
        }
    }));
}
