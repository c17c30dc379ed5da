//! Where placements go, and why: each is counted by what has become of the pCPU that its vCPU was last on.
use crate::last::{By, Kept, Last, NO_PCPU};
use crate::policy::Decision;
use crate::sched::System;

/// A Run as it is placed, on the system that it is decided for.
pub struct Placement {
    pub pcpu: u32,
    /// Where upstream puts it.
    lowest: u32,
    kept: Kept,
    /// Of the kept one: whether the host has it, whether nobody holds it, whether the mask has its bit.
    there: bool,
    idle: bool,
    admitted: bool,
    /// Whether the one that going Offline took away would do, and is not the lowest.
    missed: bool,
}

/// Upstream's decision with its Run placed.
pub fn placed(last: &Last, system: &System, decision: Decision) -> (Decision, Option<Placement>) {
    match decision {
        Decision::Run { dom, vcpu, pcpu: lowest } => {
            let placement = Placement::of(last, system, (dom, vcpu), lowest);
            (Decision::Run { dom, vcpu, pcpu: placement.pcpu }, Some(placement))
        }
        other => (other, None),
    }
}

impl Placement {
    fn of(last: &Last, system: &System, (dom, vcpu): (u16, u32), lowest: u32) -> Placement {
        let kept = last.of(dom, vcpu);
        let there = |p: u32| (p as usize) < system.pcpu_count();
        let idle = |p: u32| system.occupant(p).is_none();
        let admitted = |p: u32| system.affinity_permits(dom, vcpu, p);
        let missed = |p: u32| there(p) && idle(p) && admitted(p) && p != lowest;
        Placement {
            pcpu: last.placement(system, dom, vcpu, lowest),
            lowest,
            kept,
            there: there(kept.pcpu),
            idle: idle(kept.pcpu),
            admitted: admitted(kept.pcpu),
            missed: matches!(kept.by, By::Offline(old) if missed(old)),
        }
    }

    pub fn elsewhere(&self) -> bool {
        self.pcpu != self.lowest
    }

    fn elsewhere_by(&self, by: By) -> bool {
        self.elsewhere() && self.kept.by == by
    }
}

/// A name, whether only fields written with no test lead to it, and when a placement counts.
type Case = (&'static str, bool, fn(&Placement) -> bool);

const CASES: [Case; 12] = [
    ("elsewhere: back, though a lower one is free", false, Placement::elsewhere),
    ("of these, where an advance had put it", false, |p| p.elsewhere_by(By::Advance)),
    ("of these, where a run had put it", false, |p| p.elsewhere_by(By::Run)),
    ("of these, what was written", true, |p| p.elsewhere_by(By::Field)),
    ("back, and no lower one is free", false, |p| p.pcpu == p.kept.pcpu && !p.elsewhere()),
    ("the one it was last on is busy", false, |p| p.there && !p.idle),
    ("the one it was last on is idle but not admitted", false, |p| p.there && p.idle && !p.admitted),
    ("on none since the build", false, |p| p.kept.pcpu == NO_PCPU && p.kept.by == By::Build),
    ("on none since it was Offline, the old one free", false, |p| p.missed),
    ("the one kept is past the host, its bit set", true, |p| !p.there && p.admitted),
    ("the one kept is past the host, its bit not set", true, |p| !p.there && !p.admitted && p.kept.pcpu < NO_PCPU),
    ("the one kept is above 64", true, |p| p.kept.pcpu > NO_PCPU),
];

#[derive(Default)]
pub struct Placements {
    pub all: u64,
    counts: [u64; CASES.len()],
}

impl Placements {
    pub fn note(&mut self, placement: &Placement) {
        self.all += 1;
        for ((_, _, counts), n) in CASES.iter().zip(&mut self.counts) {
            *n += u64::from(counts(placement));
        }
    }

    pub fn elsewhere(&self) -> u64 {
        self.counts[0]
    }

    /// What can be reached; `written` tells whether records write fields with no test.
    fn cases(&self, written: bool) -> impl Iterator<Item = (&'static str, u64)> + '_ {
        let cases = CASES.iter().zip(&self.counts).filter(move |((_, only_written, _), _)| written || !only_written);
        cases.map(|((name, ..), n)| (*name, *n))
    }

    pub fn print(&self, written: bool) {
        for (name, n) in self.cases(written) {
            println!("{name:>52} {n:>9}");
        }
    }

    pub fn unreached(&self, whose: &str, written: bool) -> Vec<String> {
        let unseen = self.cases(written).filter(|(_, n)| *n == 0);
        unseen.map(|(name, _)| format!("{whose}: {name}")).collect()
    }
}
