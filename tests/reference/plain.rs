//! Upstream alone behind the script format, with nothing kept beside it: what is timed. Where a placement would have
//! gone elsewhere its pCPU is the lowest, so that a later `run` by hand may be told otherwise than in `replay`.
use crate::advance::Advances;
use crate::policies::Policy;
use crate::sched::System;
use crate::script::{answer, unless_overflow, Record, Scripted};

pub struct Plain {
    system: System,
    policy: Policy,
}

impl Scripted for Plain {
    fn new(counts: [u64; 3], policy_counts: [u64; 2], slice: u64) -> Plain {
        let [domains, vcpus, pcpus] = counts.map(|n| n as usize);
        Plain { system: System::new(domains, vcpus, pcpus), policy: Policy::new(counts, policy_counts, slice) }
    }

    fn call(&mut self, r: Record) -> u8 {
        answer(&mut self.system, &mut self.policy, r)
    }

    fn advance(&mut self, now: u64, _: &mut Advances) -> Option<u32> {
        let Plain { system, policy } = self;
        unless_overflow(|| policy.advance(system, now))
    }
}
