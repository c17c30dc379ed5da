//! A host's policy. Upstream's, unchanged, decides wherever it covers the host; all its weights are set to 256 first.
//! Where a vCPU of the host is outside the policy's shape, upstream's with one line edited by `build` decides: its
//! `weight_of` answers 256 there and not 1.
use crate::outside_policy;
use crate::policy::{self, Decision};
use crate::sched::System;
use crate::script::SIZES;

/// The weight of a vCPU that none was set for.
pub const DEFAULT_WEIGHT: u32 = 256;

/// Weight, offset, snapshot.
pub type Account = (u32, u128, bool);

pub enum Policy {
    Covering(policy::Scheduler),
    Short(outside_policy::Scheduler),
}

/// The same of either.
macro_rules! of_either {
    ($policy:expr, $p:ident => $answer:expr) => {
        match $policy {
            Policy::Covering($p) => $answer,
            Policy::Short($p) => $answer,
        }
    };
}

/// Whether every vCPU of a system of these counts is in the policy's shape; counts are held at the sizes.
fn covers(counts: [u64; 3], policy_counts: [u64; 2]) -> bool {
    let [domains, vcpus] = [0, 1].map(|i| counts[i].min(SIZES[i]));
    let within = domains <= policy_counts[0] && vcpus <= policy_counts[1];
    within || domains == 0 || vcpus == 0
}

impl Policy {
    /// Of counts within the sizes.
    pub fn new(counts: [u64; 3], policy_counts: [u64; 2], slice: u64) -> Policy {
        let [domains, vcpus] = policy_counts.map(|n| n as usize);
        let mut policy = if covers(counts, policy_counts) {
            Policy::Covering(policy::Scheduler::new(domains, vcpus, slice))
        } else {
            Policy::Short(outside_policy::Scheduler::new(domains, vcpus, slice))
        };
        for (d, v) in (0..domains as u16).flat_map(|d| (0..vcpus as u32).map(move |v| (d, v))) {
            policy.set_weight(d, v, DEFAULT_WEIGHT);
        }
        policy
    }

    /// Of any counts, and the accounts that are within them.
    pub fn of(counts: [u64; 3], policy_counts: [u64; 2], accounts: &[Vec<Account>], slice: u64, boost: bool) -> Policy {
        if covers(counts, policy_counts) {
            Policy::Covering(policy::Scheduler::of(accounts, slice, boost))
        } else {
            Policy::Short(outside_policy::Scheduler::of(accounts, slice, boost))
        }
    }

    /// Whether upstream decides unchanged.
    pub fn covers_host(&self) -> bool {
        matches!(self, Policy::Covering(_))
    }

    pub fn set_weight(&mut self, domain: u16, vcpu: u32, weight: u32) {
        of_either!(self, p => p.set_weight(domain, vcpu, weight))
    }

    pub fn set_wake_boost(&mut self, enabled: bool) {
        of_either!(self, p => p.set_wake_boost(enabled))
    }

    pub fn advance(&mut self, system: &mut System, now: u64) -> u32 {
        of_either!(self, p => p.advance(system, now))
    }

    /// What an advance does before its first decision.
    pub fn account(&mut self, system: &System, now: u64) {
        of_either!(self, p => p.account_alone(system, now))
    }

    pub fn copy(&self) -> Policy {
        match self {
            Policy::Covering(p) => Policy::Covering(p.copy()),
            Policy::Short(p) => Policy::Short(p.copy()),
        }
    }

    pub fn next(&self, system: &System, now: u64) -> Decision {
        match self {
            Policy::Covering(p) => p.next(system, now),
            Policy::Short(p) => match p.next(system, now) {
                outside_policy::Decision::Run { dom, vcpu, pcpu } => Decision::Run { dom, vcpu, pcpu },
                outside_policy::Decision::Preempt { dom, vcpu, pcpu } => Decision::Preempt { dom, vcpu, pcpu },
                outside_policy::Decision::Idle => Decision::Idle,
            },
        }
    }

    /// A policy that covers its host may be asked for ids outside its shape too: unchanged, upstream says 1 there.
    pub fn weight_of(&self, domain: u16, vcpu: u32) -> u32 {
        match self {
            Policy::Covering(p) if p.kept(domain, vcpu).is_none() => DEFAULT_WEIGHT,
            policy => of_either!(policy, p => p.weight_of(domain, vcpu)),
        }
    }

    pub fn quantum(&self) -> u64 {
        of_either!(self, p => p.quantum())
    }

    pub fn kept(&self, domain: u16, vcpu: u32) -> Option<Account> {
        of_either!(self, p => p.kept(domain, vcpu))
    }

    pub fn boosts(&self) -> bool {
        of_either!(self, p => p.boosts())
    }
}
