//! Random records that write fields with no test: hosts are damaged, repaired violation by violation, called in
//! between, and looked at slot by slot. Part of the generator, whose host they are drawn for.
use super::{Generator, LARGE, LOOK};
use crate::examine::examine;
use crate::fields::{oversize, verdict, Verdict, DISPATCH, DOMAIN_COUNT, MASK, OCCUPANT, OFFSET_HIGH, OFFSET_LOW};
use crate::fields::{LAST, PCPU_COUNT, POLICY_DOMAINS, POLICY_VCPUS, RUN_TIME, SLICE, STATE, WEIGHT};
use crate::sched::{RunState, Violation};
use crate::script::{Host, Record, RECORD, SIZES};

// what harms is mostly a state or a holder
const HARMS: [u64; 25] = [
    13, 13, 13, 13, 13, 13, 13, 16, 16, 16, 17, 17, 17, 17, 17, 17, 17, 18, 19, 20, 14, 15, 21, 22, 29,
];
/// The values of a state: Offline, Runnable, Running, Blocked.
const RUNNABLE: u64 = 1;
const RUNNING: u64 = 2;
const BLOCKED: u64 = 3;

impl Generator {
    /// The next record for `examine` on hosts whose fields are written with no test.
    pub fn damaged(&mut self) -> [u8; RECORD] {
        let record = self.propose_damaged();
        self.settled(record, |replay, bytes| examine(replay, bytes).is_some())
    }

    fn propose_damaged(&mut self) -> Record {
        if let Some(record) = self.looks.pop() {
            if record.kind != LOOK {
                self.age = 0;
            }
            return record;
        }
        let Some(host) = &self.replay.host else { return self.rebuilt() };
        let found = verdict(host);
        match self.rng.below(32) {
            // the last of a host is all that it holds
            0 if self.rng.one_in(3) => {
                self.look_around();
                let next = self.rebuilt();
                self.looks.insert(0, next);
                self.propose_damaged()
            }
            1 => {
                self.look_around();
                self.propose_damaged()
            }
            3..=13 if self.rng.one_in(self.wear) => self.harm(),
            14..=20 if found != Verdict::Sound => self.repair(found),
            14..=16 => self.spare(),
            _ => self.propose_examined(),
        }
    }

    /// A build, or a call while there is no host, or a field that cannot be written then.
    fn rebuilt(&mut self) -> Record {
        self.wear = self.rng.pick(&[1, 1, 2, 8]);
        match self.rng.below(8) {
            0 if self.replay.host.is_none() => self.harm(),
            1 | 2 if self.replay.host.is_none() => self.propose_examined(),
            3..=5 => self.build_apart(),
            _ => self.build(),
        }
    }

    /// Looks at every slot and every pCPU of the host; now and then at those past its counts too.
    fn look_around(&mut self) {
        let Some(host) = &self.replay.host else { return };
        let s = &host.system;
        let [domains, vcpus, pcpus] = match self.rng.below(60) {
            0 => SIZES,
            _ => [s.domain_count(), s.vcpu_count(0), s.pcpu_count()].map(|n| n as u64),
        };
        let all = (domains * vcpus).max(pcpus);
        if all > 12 && !self.rng.one_in(all / 4) {
            return;
        }
        let (vcpus, value) = (vcpus.max(1), self.clock);
        let look = |i: u64| Record {
            kind: LOOK,
            domain: (i / vcpus) as u16,
            vcpu: (i % vcpus) as u32,
            third: i as u32,
            value,
        };
        self.looks.extend((0..all).map(look));
    }

    /// Any field, written anyhow.
    fn harm(&mut self) -> Record {
        let any = u64::from(STATE) + self.rng.below(u64::from(LAST - STATE) + 1);
        let kind = match self.rng.below(6) {
            0 => any,
            _ => self.rng.pick(&HARMS),
        } as u16;
        let (domain, vcpu) = if kind == OCCUPANT { self.holder() } else { self.slot() };
        let third = match kind {
            STATE | LAST => self.any_pcpu(),
            WEIGHT => self.stored_weight(),
            _ => self.pcpu(domain, vcpu),
        };
        let value = match kind {
            STATE => self.rng.pick(&[RUNNING, RUNNING, RUNNING, 0, RUNNABLE, BLOCKED, LARGE]),
            MASK => self.any_mask(domain, vcpu),
            OCCUPANT => self.rng.pick(&[0, 1, 1, 1, LARGE]),
            DOMAIN_COUNT..=PCPU_COUNT => self.count(usize::from(kind - DOMAIN_COUNT)),
            POLICY_DOMAINS..=POLICY_VCPUS => self.count(usize::from(kind - POLICY_DOMAINS)),
            _ => self.number(kind),
        };
        Record { kind, domain, vcpu, third, value }
    }

    /// A slot, mostly within the counts.
    fn slot(&mut self) -> (u16, u32) {
        match self.rng.below(12) {
            0 => (self.rng.below(SIZES[0]) as u16, self.rng.below(SIZES[1]) as u32),
            1 => (self.counted(0).saturating_sub(1) as u16, self.counted(1).saturating_sub(1) as u32),
            _ => self.target(7),
        }
    }

    /// Somebody who may hold a pCPU: ids in range, or just past it, or in range again if they are cut.
    fn holder(&mut self) -> (u16, u32) {
        let (domain, vcpu) = self.slot();
        match self.rng.below(10) {
            0 => (domain.wrapping_add(SIZES[0] as u16), vcpu),
            1 => (domain, vcpu.wrapping_add(SIZES[1] as u32)),
            2 => self.stray(self.counted(0), self.counted(1)),
            _ => (domain, vcpu),
        }
    }

    fn counted(&self, which: usize) -> u64 {
        self.replay.host.as_ref().map_or(0, |host| host.counts[which].min(SIZES[which]))
    }

    fn any_pcpu(&mut self) -> u32 {
        let count = self.counted(2);
        let here = self.rng.below(count);
        self.rng.pick(&[here, here, here, here, count, count + 1, 63, 64, here + 64, u64::from(u32::MAX)]) as u32
    }

    fn any_mask(&mut self, domain: u16, vcpu: u32) -> u64 {
        let held = match self.replay.host.as_ref().and_then(|host| host.system.state_of(domain, vcpu)) {
            Some(RunState::Running { pcpu }) => 1u64.checked_shl(pcpu).unwrap_or(0),
            _ => 0,
        };
        let (one, any) = (1 << self.rng.below(64), self.rng.draw());
        self.rng.pick(&[0, one, !held, any & !held, any, LARGE])
    }

    fn count(&mut self, which: usize) -> u64 {
        let (size, now) = (SIZES[which], self.counted(which));
        let (less, any) = (now.saturating_sub(1), self.rng.below(size + 1));
        self.rng.pick(&[0, less, less, now + 1, any, any, size, size + 1, size + 1, 1 << 32, (1 << 32) + 1, LARGE])
    }

    fn stored_weight(&mut self) -> u32 {
        let any = self.rng.draw() & u64::from(u32::MAX);
        self.rng.pick(&[0, 0, 0, 1, 2, 3, 7, any, u64::from(u32::MAX)]) as u32
    }

    /// For a field that any number fits.
    fn number(&mut self, kind: u16) -> u64 {
        let (any, shift, few) = (self.rng.draw(), self.rng.below(64), self.rng.below(40));
        // sums above 2^128 are not upstream's to say
        let highest = if few == 0 { LARGE } else { 1 };
        match kind {
            RUN_TIME => self.rng.pick(&[0, few, few, any >> shift, any >> shift, LARGE, LARGE - few]),
            DISPATCH => self.rng.pick(&[0, self.clock.saturating_sub(few), self.clock, any, LARGE]),
            SLICE => self.rng.pick(&[0, 1, 5, 10, 10, few, 1 << 40, LARGE]),
            OFFSET_LOW => self.rng.pick(&[0, few, few, any >> shift, any, LARGE]),
            OFFSET_HIGH => self.rng.pick(&[0, 0, 0, few, any >> shift, any >> 1, any, highest]),
            _ => self.rng.pick(&[0, 1, 1, LARGE]),
        }
    }

    /// A field whose value no test wants otherwise.
    fn spare(&mut self) -> Record {
        let (domain, vcpu) = self.slot();
        let runs = self.replay.host.as_ref().is_some_and(|host| host.system.is_running(domain, vcpu));
        let any = self.rng.pick(&[14, 14, 15, 15, 21, 22, 23, 24, 25, 25, 25, 26, 26, 27, 28, 28, 29, 29, 29]) as u16;
        let kind = if runs { any } else { self.rng.pick(&[u64::from(any), u64::from(any), 13, 16]) as u16 };
        let third = match kind {
            WEIGHT => self.stored_weight(),
            LAST => self.any_pcpu(),
            _ => self.pcpu(domain, vcpu),
        };
        let value = match kind {
            STATE => self.rng.pick(&[0, RUNNABLE, RUNNABLE, BLOCKED]),
            MASK => self.any_mask(domain, vcpu),
            POLICY_DOMAINS..=POLICY_VCPUS => self.count(usize::from(kind - POLICY_DOMAINS)),
            _ => self.number(kind),
        };
        Record { kind, domain, vcpu, third, value }
    }

    /// What does away with the first violation, so that the next one is found.
    fn repair(&mut self, found: Verdict) -> Record {
        let Some(host) = &self.replay.host else { return self.rebuilt() };
        match found {
            Verdict::Oversize => {
                let which = oversize(host).iter().position(|over| *over).unwrap_or(0);
                let value = 1 + self.rng.below(SIZES[which].min(4));
                Record { kind: DOMAIN_COUNT + which as u16, value, ..self.asked() }
            }
            Verdict::Breach(Violation::OccupantGhost { pcpu }) => vacate(pcpu as u32),
            Verdict::Breach(Violation::OccupantNotRunning { pcpu }) => match host.system.occupant(pcpu as u32) {
                Some((domain, vcpu)) if self.rng.one_in(2) => running(domain, vcpu, pcpu as u32),
                _ => vacate(pcpu as u32),
            },
            Verdict::Breach(Violation::RunningGhostPcpu { dom, vcpu } | Violation::OccupancyBroken { dom, vcpu }) => {
                self.off_or_named(dom as u16, vcpu as u32)
            }
            Verdict::Breach(Violation::RunningOffAffinity { dom, vcpu }) => {
                let (domain, vcpu) = (dom as u16, vcpu as u32);
                let third = onto(host, domain, vcpu).unwrap_or(0);
                let value = self.rng.draw() | 1u64.checked_shl(third).unwrap_or(0);
                Record { kind: MASK, domain, vcpu, third, value }
            }
            Verdict::Sound => self.spare(),
        }
    }

    /// A vCPU whose pCPU does not name it: it is taken off, or named, or put where it is named.
    fn off_or_named(&mut self, domain: u16, vcpu: u32) -> Record {
        let Some(host) = &self.replay.host else { return self.rebuilt() };
        let named = (0..host.system.pcpu_count() as u32).find(|p| host.system.occupant(*p) == Some((domain, vcpu)));
        let on = onto(host, domain, vcpu).unwrap_or(0);
        match (self.rng.below(3), named) {
            (0, Some(pcpu)) => running(domain, vcpu, pcpu),
            (1, _) => Record { kind: OCCUPANT, domain, vcpu, third: on, value: 1 },
            _ => Record { kind: STATE, domain, vcpu, third: on, value: self.rng.pick(&[0, RUNNABLE, BLOCKED]) },
        }
    }
}

fn onto(host: &Host, domain: u16, vcpu: u32) -> Option<u32> {
    match host.system.state_of(domain, vcpu) {
        Some(RunState::Running { pcpu }) => Some(pcpu),
        _ => None,
    }
}

fn vacate(pcpu: u32) -> Record {
    Record { kind: OCCUPANT, domain: 0, vcpu: 0, third: pcpu, value: 0 }
}

fn running(domain: u16, vcpu: u32, pcpu: u32) -> Record {
    Record { kind: STATE, domain, vcpu, third: pcpu, value: RUNNING }
}
