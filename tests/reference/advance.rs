//! An advance whose placements go back to the pCPU that a vCPU was last on. As long as no advance of a host has placed
//! elsewhere than on the lowest, upstream's own `advance`, unchanged, makes it: a copy of the host is led through it
//! first, decision by decision, and tells whether that is so. From the first that places elsewhere, and until the next
//! build, every advance is made by such steps: upstream's `next` on the very system names the vCPU, each Preempt and
//! each Idle, last.rs names the pCPU alone, and upstream's own calls lead the system on.
use crate::fields::ids;
use crate::last::Last;
use crate::placements::{placed, Placement, Placements};
use crate::policies::Policy;
use crate::policy::Decision;
use crate::sched::System;
use crate::script::{unless_overflow, Host};

/// How far upstream's own `advance` decided, and where advances placed.
#[derive(Default)]
pub struct Advances {
    /// Records up to the first placement elsewhere of their host, and from it on.
    before: u64,
    after: u64,
    /// Upstream's decisions, each last Idle too, in the advances that were made by steps.
    decisions: u64,
    placements: Placements,
}

impl Advances {
    /// A record that left this host.
    pub fn note(&mut self, host: Option<&Host>) {
        if host.is_some_and(|host| host.elsewhere) {
            self.after += 1;
        } else {
            self.before += 1;
        }
    }

    pub fn print(&self, records: &str, written: bool) {
        let Advances { before, after, decisions, placements } = self;
        println!("{before} {records} before their host's first placement elsewhere: upstream's own advance decides");
        println!("{after} {records} from it on, with {decisions} decisions of upstream's in advances made by steps");
        println!("{} placements by advances, {} of them elsewhere", placements.all, placements.elsewhere());
        placements.print(written);
    }

    /// `written` tells whether the records write fields with no test.
    pub fn unreached(&self, written: bool) -> Vec<String> {
        self.placements.unreached("an advance", written)
    }
}

/// The moves; `None` where upstream's own sum of a service overflows.
pub fn advance(host: &mut Host, now: u64, advances: &mut Advances) -> Option<u32> {
    let steps = unless_overflow(|| Steps::through(host, now))?;
    steps.placements.iter().for_each(|placement| advances.placements.note(placement));
    host.elsewhere |= steps.placements.iter().any(Placement::elsewhere);
    if host.elsewhere {
        advances.decisions += steps.decisions;
        (host.system, host.policy) = (steps.system, steps.policy);
    } else {
        let Host { system, policy, .. } = host;
        let moves = unless_overflow(|| policy.advance(system, now))?;
        assert!(moves == steps.moves && steps.end_as(host), "the steps are not upstream's own advance");
    }
    host.last = steps.last;
    Some(steps.moves)
}

/// A copy of a host on its way through an advance.
struct Steps {
    system: System,
    policy: Policy,
    last: Last,
    moves: u32,
    decisions: u64,
    placements: Vec<Placement>,
}

impl Steps {
    fn through(host: &Host, now: u64) -> Steps {
        let (system, policy, last) = (host.system.clone(), host.policy.copy(), host.last.clone());
        let mut steps = Steps { system, policy, last, moves: 0, decisions: 0, placements: Vec::new() };
        steps.policy.account(&steps.system, now);
        for _ in 0..limit(&steps.system) {
            if !steps.step(now) {
                break;
            }
            steps.moves += 1;
        }
        steps
    }

    /// One decision; whether it was a move. A refusal ends an advance, as upstream's own.
    fn step(&mut self, now: u64) -> bool {
        let (decision, placement) = placed(&self.last, &self.system, self.policy.next(&self.system, now));
        self.decisions += 1;
        self.placements.extend(placement);
        match decision {
            Decision::Run { dom, vcpu, pcpu } => {
                let ran = self.system.run(dom, vcpu, pcpu, now).is_ok();
                if ran {
                    self.last.placed(dom, vcpu, pcpu);
                }
                ran
            }
            Decision::Preempt { dom, vcpu, .. } => self.system.preempt(dom, vcpu, now).is_ok(),
            Decision::Idle => false,
        }
    }

    /// Whether the copy ends as this host is.
    fn end_as(&self, host: &Host) -> bool {
        let same_record = |d, v| self.system.record(d, v) == host.system.record(d, v);
        let same_account = |d, v| self.policy.kept(d, v) == host.policy.kept(d, v);
        ids().all(|(d, v)| same_record(d, v) && same_account(d, v))
    }
}

/// As in upstream's own `advance`: every vCPU once, and two moves a pCPU and one more.
fn limit(system: &System) -> usize {
    let vcpus: usize = (0..system.domain_count() as u16).map(|d| system.vcpu_count(d)).sum();
    vcpus + 2 * system.pcpu_count() + 1
}
