//! Upstream's reads after each record, as the program `examine` writes them. Kinds above a script's: 11 is
//! `offline_all` (domain, value the clock); 12 builds a host whose policy has a shape of its own: its domains are the
//! value's first byte, its vCPUs the second, the slice the other six; 13 to 29 write a field with no test. Answer 8 and
//! the verdict Oversize are added here; when it is told goes by upstream's own verdict. What `next` decides is
//! upstream's, but that last.rs names the pCPU of a Run.
use crate::fields::{self, names_field, verdict, Verdict};
use crate::lines::{answer, numbers};
use crate::placements::{placed, Placement};
use crate::policy::Decision;
use crate::sched::{RunState, System, Violation};
use crate::script::{told, unless_overflow, Host, Record, Replay, Scripted, Told};
use crate::script::{ADVANCE, BAD_SCRIPT, DONE, SIZES, TOO_LARGE, UNSOUND};

pub const SET_BOOST: u16 = 10;
pub const OFFLINE_ALL: u16 = 11;
pub const BUILD_APART: u16 = 12;

/// What is read at a record's ids, and what `next` decides at its value as a clock.
pub struct Reads {
    pub state: Option<RunState>,
    pub running: bool,
    pub ran: Option<u64>,
    pub since: Option<u64>,
    pub mask: Option<u64>,
    pub permits: bool,
    pub weight: u32,
    /// How many vCPUs the domain has.
    pub vcpus: usize,
    pub full_mask: u64,
    /// The sum of the domain's run times up to the record's value: upstream has no usage.
    pub used: u128,
    pub domains: usize,
    pub pcpus: usize,
    pub busy: usize,
    pub slice: u64,
    pub sound: bool,
    pub holder: Option<(u16, u32)>,
    pub verdict: Verdict,
    /// Not asked of a system that is not sound.
    pub next: Option<Decision>,
    /// Of a Run that it decides on.
    pub placement: Option<Placement>,
    /// What is kept at the slot of the ids, within the counts or not.
    pub kept: [u64; 9],
}

/// What a record is told, and what can then be read at its ids; no reads without a host.
pub struct Answered {
    pub told: Told,
    pub reads: Option<Reads>,
}

/// `None` where upstream's own sum of a service overflows. The host is then gone.
pub fn examine(replay: &mut Replay, bytes: &[u8]) -> Option<Answered> {
    let record = Record::read(bytes);
    let told = match record {
        Some(r) if r.kind == BUILD_APART => build_apart(replay, r),
        Some(r) if names_field(r.kind) => write_field(replay, r),
        Some(r) if wants_sound(r.kind) && replay.host.as_ref().is_some_and(unsound) => told(UNSOUND),
        Some(r) if r.kind == OFFLINE_ALL => offline_all(replay, r),
        Some(r) if r.kind == SET_BOOST => set_boost(replay, bytes)?,
        _ => replay.tell(bytes)?,
    };
    let Some(host) = &replay.host else { return Some(Answered { told, reads: None }) };
    // a record that was cut off is read at ids of 0
    let reads = reads(host, record.unwrap_or_default());
    if reads.is_none() {
        replay.host = None;
    }
    reads.map(|reads| Answered { told, reads: Some(reads) })
}

pub fn write(out: &mut Vec<u8>, count: u64, answered: &Answered) {
    answer(out, count, answered.told);
    if let Some(reads) = &answered.reads {
        for line in reads.lines() {
            out.push(b' ');
            numbers(out, &line);
        }
        out.push(b' ');
        numbers(out, &reads.kept);
    }
}

/// Transitions, `advance` and `offline_all`; a weight and boost are the policy's.
pub fn wants_sound(kind: u16) -> bool {
    matches!(kind, 1..=7 | ADVANCE | OFFLINE_ALL)
}

fn unsound(host: &Host) -> bool {
    verdict(host) != Verdict::Sound
}

fn write_field(replay: &mut Replay, r: Record) -> Told {
    let Some(host) = replay.host.as_mut() else { return told(BAD_SCRIPT) };
    fields::write(host, r);
    told(DONE)
}

fn set_boost(replay: &mut Replay, bytes: &[u8]) -> Option<Told> {
    replay.host.iter_mut().for_each(fields::clear_offsets);
    replay.tell(bytes)
}

fn offline_all(replay: &mut Replay, r: Record) -> Told {
    let Some(host) = replay.host.as_mut() else { return told(BAD_SCRIPT) };
    host.last.all_off(&host.system, r.domain);
    host.system.offline_all(r.domain, r.value);
    told(DONE)
}

/// The policy's domains, its vCPUs and the slice.
pub fn policy_shape(value: u64) -> [u64; 3] {
    [value >> 56, value >> 48 & 0xff, value & ((1 << 48) - 1)]
}

fn build_apart(replay: &mut Replay, r: Record) -> Told {
    let [policy_domains, policy_vcpus, slice] = policy_shape(r.value);
    let shape = [u64::from(r.domain), u64::from(r.vcpu), u64::from(r.third), policy_domains, policy_vcpus];
    let sizes = [SIZES[0], SIZES[1], SIZES[2], SIZES[0], SIZES[1]];
    if shape.iter().zip(sizes).any(|(n, size)| *n > size) {
        return told(TOO_LARGE);
    }
    replay.host = Some(Host::new([shape[0], shape[1], shape[2]], [policy_domains, policy_vcpus], slice));
    told(DONE)
}

fn reads(host: &Host, r: Record) -> Option<Reads> {
    let (s, d, v) = (&host.system, r.domain, r.vcpu);
    let verdict = verdict(host);
    let (next, placement) = match verdict {
        Verdict::Sound => {
            let (next, placement) = placed(&host.last, s, unless_overflow(|| host.policy.next(s, r.value))?);
            (Some(next), placement)
        }
        _ => (None, None),
    };
    Some(Reads {
        state: s.state_of(d, v),
        running: s.is_running(d, v),
        ran: s.runtime(d, v),
        since: s.on_cpu_since(d, v),
        mask: s.affinity_of(d, v),
        // a mask as written may have bits past the count, where upstream goes by the bit
        permits: s.affinity_permits(d, v, r.third) && (host.tables.is_none() || (r.third as usize) < s.pcpu_count()),
        weight: host.policy.weight_of(d, v),
        vcpus: s.vcpu_count(d),
        full_mask: s.full_affinity(),
        used: (0..s.vcpu_count(d) as u32).map(|v| until(s, d, v, r.value)).sum(),
        domains: s.domain_count(),
        pcpus: s.pcpu_count(),
        busy: s.busy_pcpus(),
        slice: host.policy.quantum(),
        sound: s.invariants_hold() && verdict != Verdict::Oversize,
        holder: s.occupant(r.third),
        verdict,
        next,
        placement,
        kept: fields::kept(host, r),
    })
}

/// A vCPU's run time up to a reading, by upstream's own reads: closed, and since its dispatch while Running.
fn until(s: &System, d: u16, v: u32, reading: u64) -> u128 {
    let in_flight = s.on_cpu_since(d, v).map_or(0, |since| reading.saturating_sub(since));
    u128::from(s.runtime(d, v).unwrap()) + u128::from(in_flight)
}

impl Reads {
    /// As the program writes them, but for what is kept.
    fn lines(&self) -> [[u64; 8]; 4] {
        [self.vcpu(), self.domain(), self.whole(), self.decided()]
    }

    fn vcpu(&self) -> [u64; 8] {
        let [ran, since, mask] = [self.ran, self.since, self.mask].map(maybe);
        [state(self.state), u64::from(self.running), ran[0], ran[1], since[0], since[1], mask[0], mask[1]]
    }

    fn domain(&self) -> [u64; 8] {
        // the program writes a usage as four limbs
        let limb = |i: u32| (self.used >> (32 * i)) as u64 & 0xffff_ffff;
        let (permits, weight) = (u64::from(self.permits), u64::from(self.weight));
        [permits, weight, self.vcpus as u64, self.full_mask, limb(0), limb(1), limb(2), limb(3)]
    }

    fn whole(&self) -> [u64; 8] {
        let holder = self.holder.map_or([0; 3], |(d, v)| [1, u64::from(d), u64::from(v)]);
        let [domains, pcpus, busy] = [self.domains, self.pcpus, self.busy].map(|n| n as u64);
        [domains, pcpus, busy, self.slice, u64::from(self.sound), holder[0], holder[1], holder[2]]
    }

    fn decided(&self) -> [u64; 8] {
        let (wrong, next) = (wrong(self.verdict), decision(self.next.unwrap_or(Decision::Idle)));
        let told = u64::from(if self.next.is_some() { DONE } else { UNSOUND });
        [wrong[0], wrong[1], wrong[2], told, next[0], next[1], next[2], next[3]]
    }
}

fn maybe(n: Option<u64>) -> [u64; 2] {
    n.map_or([0; 2], |n| [1, n])
}

fn state(state: Option<RunState>) -> u64 {
    match state {
        None => 0,
        Some(RunState::Offline) => 1,
        Some(RunState::Runnable) => 2,
        Some(RunState::Blocked) => 3,
        Some(RunState::Running { pcpu }) => 4 + u64::from(pcpu),
    }
}

fn wrong(verdict: Verdict) -> [u64; 3] {
    match verdict {
        Verdict::Sound => [0; 3],
        Verdict::Oversize => [1, 0, 0],
        Verdict::Breach(Violation::RunningGhostPcpu { dom, vcpu }) => [2, dom as u64, vcpu as u64],
        Verdict::Breach(Violation::OccupancyBroken { dom, vcpu }) => [3, dom as u64, vcpu as u64],
        Verdict::Breach(Violation::RunningOffAffinity { dom, vcpu }) => [4, dom as u64, vcpu as u64],
        Verdict::Breach(Violation::OccupantGhost { pcpu }) => [5, pcpu as u64, 0],
        Verdict::Breach(Violation::OccupantNotRunning { pcpu }) => [6, pcpu as u64, 0],
    }
}

fn decision(decision: Decision) -> [u64; 4] {
    let ids = |kind, dom, vcpu, pcpu| [kind, u64::from(dom), u64::from(vcpu), u64::from(pcpu)];
    match decision {
        Decision::Idle => [0; 4],
        Decision::Run { dom, vcpu, pcpu } => ids(1, dom, vcpu, pcpu),
        Decision::Preempt { dom, vcpu, pcpu } => ids(2, dom, vcpu, pcpu),
    }
}
