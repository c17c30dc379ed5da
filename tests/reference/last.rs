//! The pCPU that each vCPU was last on, held beside upstream's host, which does not keep it. A dispatch writes it,
//! going Offline takes it away, and a placement goes back to it where it is idle and admitted. Written from the
//! requirement, not from the port.
use crate::sched::{RunState, System};
use crate::script::{Record, OFFLINE, RUN, SIZES};

/// Stands for no pCPU.
pub const NO_PCPU: u32 = 64;
const DOMAINS: usize = SIZES[0] as usize;
const VCPUS: usize = SIZES[1] as usize;

/// What a number was written by. No rule asks for it: it tells what has been reached.
#[derive(Clone, Copy, PartialEq)]
pub enum By {
    Build,
    Run,
    Advance,
    /// With the number that it took away.
    Offline(u32),
    Field,
}

#[derive(Clone, Copy)]
pub struct Kept {
    pub pcpu: u32,
    pub by: By,
}

/// A number for each slot of the port's tables, within the counts or not.
#[derive(Clone)]
pub struct Last([[Kept; VCPUS]; DOMAINS]);

impl Last {
    pub fn built() -> Last {
        Last([[Kept { pcpu: NO_PCPU, by: By::Build }; VCPUS]; DOMAINS])
    }

    pub fn of(&self, domain: u16, vcpu: u32) -> Kept {
        self.0[usize::from(domain)][vcpu as usize]
    }

    fn set(&mut self, domain: u16, vcpu: u32, pcpu: u32, by: By) {
        self.0[usize::from(domain)][vcpu as usize] = Kept { pcpu, by };
    }

    fn forget(&mut self, domain: u16, vcpu: u32) {
        let by = By::Offline(self.of(domain, vcpu).pcpu);
        self.set(domain, vcpu, NO_PCPU, by);
    }

    /// After a call that was done.
    pub fn called(&mut self, r: Record) {
        match r.kind {
            RUN => self.set(r.domain, r.vcpu, r.third, By::Run),
            OFFLINE => self.forget(r.domain, r.vcpu),
            _ => {}
        }
    }

    /// After a Run of an advance.
    pub fn placed(&mut self, domain: u16, vcpu: u32, pcpu: u32) {
        self.set(domain, vcpu, pcpu, By::Advance);
    }

    /// Before `offline_all`, which passes over those who are Offline already.
    pub fn all_off(&mut self, system: &System, domain: u16) {
        for vcpu in 0..system.vcpu_count(domain) as u32 {
            if system.state_of(domain, vcpu) != Some(RunState::Offline) {
                self.forget(domain, vcpu);
            }
        }
    }

    /// A field written with no test.
    pub fn write(&mut self, r: Record) {
        self.set(r.domain % DOMAINS as u16, r.vcpu % VCPUS as u32, r.third, By::Field);
    }

    /// Where a vCPU goes that upstream puts on `lowest`. A mask as written may have bits past the count, so that the
    /// count is looked at too.
    pub fn placement(&self, system: &System, domain: u16, vcpu: u32, lowest: u32) -> u32 {
        let pcpu = self.of(domain, vcpu).pcpu;
        let there = (pcpu as usize) < system.pcpu_count();
        let idle = system.occupant(pcpu).is_none();
        let admitted = system.affinity_permits(domain, vcpu, pcpu);
        if there && idle && admitted {
            pcpu
        } else {
            lowest
        }
    }
}
