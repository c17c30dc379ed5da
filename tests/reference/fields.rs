//! The fields of a host as they stand in the port's tables, which are of one size whatever the counts: one of them
//! written with no test, by a record of kind 13 to 29, and what is kept at a slot. Upstream's tables end at its counts:
//! what stands past them is kept here, and a count above its size is held at it, as reads hold it.
use crate::policies::{Account, Policy, DEFAULT_WEIGHT};
use crate::sched::{RunState, System, Violation};
use crate::script::{Host, Record, SIZES};

pub const STATE: u16 = 13;
pub const RUN_TIME: u16 = 14;
pub const DISPATCH: u16 = 15;
pub const MASK: u16 = 16;
pub const OCCUPANT: u16 = 17;
pub const DOMAIN_COUNT: u16 = 18;
pub const PCPU_COUNT: u16 = 20;
pub const POLICY_DOMAINS: u16 = 21;
pub const POLICY_VCPUS: u16 = 22;
pub const SLICE: u16 = 23;
pub const BOOST: u16 = 24;
pub const WEIGHT: u16 = 25;
pub const OFFSET_LOW: u16 = 26;
pub const OFFSET_HIGH: u16 = 27;
pub const SNAPSHOT: u16 = 28;
pub const LAST: u16 = 29;

const DOMAINS: u16 = SIZES[0] as u16;
const VCPUS: u32 = SIZES[1] as u32;
const PCPUS: u32 = SIZES[2] as u32;
const SLOTS: usize = DOMAINS as usize * VCPUS as usize;

/// State, run time, clock of the dispatch, mask.
type VcpuRecord = (RunState, u64, u64, u64);
const PLAIN: Account = (DEFAULT_WEIGHT, 0, false);

/// What stands in a host's tables. What is within the counts changes with the host and is read there.
#[derive(Clone)]
pub struct Tables {
    vcpus: [VcpuRecord; SLOTS],
    pcpus: [Option<(u16, u32)>; PCPUS as usize],
    accounts: [Account; SLOTS],
}

pub fn names_field(kind: u16) -> bool {
    (STATE..=LAST).contains(&kind)
}

fn slot(domain: u16, vcpu: u32) -> usize {
    usize::from(domain) * VCPUS as usize + vcpu as usize
}

/// Of every slot.
pub fn ids() -> impl Iterator<Item = (u16, u32)> {
    (0..DOMAINS).flat_map(|d| (0..VCPUS).map(move |v| (d, v)))
}

impl Tables {
    /// Of a host into which nothing was written: as built past the counts.
    fn built(host: &Host) -> Tables {
        Tables {
            vcpus: [(RunState::Offline, 0, 0, host.system.full_affinity()); SLOTS],
            pcpus: [None; PCPUS as usize],
            accounts: [PLAIN; SLOTS],
        }
    }

    fn of(host: &Host) -> Tables {
        let mut tables = host.tables.as_deref().cloned().unwrap_or_else(|| Tables::built(host));
        for (d, v) in ids() {
            if let Some(record) = host.system.record(d, v) {
                tables.vcpus[slot(d, v)] = record;
            }
            if let Some(account) = host.policy.kept(d, v) {
                tables.accounts[slot(d, v)] = account;
            }
        }
        for p in 0..host.system.pcpu_count() {
            tables.pcpus[p] = host.system.occupant(p as u32);
        }
        tables
    }

    fn write(&mut self, r: Record) {
        let at = slot(r.domain % DOMAINS, r.vcpu % VCPUS);
        let (vcpu, account) = (&mut self.vcpus[at], &mut self.accounts[at]);
        match r.kind {
            STATE => vcpu.0 = state(r.value, r.third),
            RUN_TIME => vcpu.1 = r.value,
            DISPATCH => vcpu.2 = r.value,
            MASK => vcpu.3 = r.value,
            OCCUPANT => self.pcpus[(r.third % PCPUS) as usize] = (r.value != 0).then_some((r.domain, r.vcpu)),
            WEIGHT => account.0 = r.third,
            OFFSET_LOW => account.1 = account.1 >> 64 << 64 | u128::from(r.value),
            OFFSET_HIGH => account.1 = account.1 << 64 >> 64 | u128::from(r.value) << 64,
            SNAPSHOT => account.2 = r.value != 0,
            _ => {}
        }
    }
}

fn state(value: u64, pcpu: u32) -> RunState {
    match value {
        0 => RunState::Offline,
        1 => RunState::Runnable,
        2 => RunState::Running { pcpu },
        _ => RunState::Blocked,
    }
}

/// The records that upstream has: those within the counts, each of which is held at its size.
fn rows<T: Copy>(counts: &[u64], table: &[T; SLOTS]) -> Vec<Vec<T>> {
    let [domains, vcpus] = [0, 1].map(|i| counts[i].min(SIZES[i]));
    (0..domains as u16).map(|d| (0..vcpus as u32).map(|v| table[slot(d, v)]).collect()).collect()
}

/// Writes the field that the record's kind names.
pub fn write(host: &mut Host, r: Record) {
    let mut tables = Tables::of(host);
    let mut last = host.last.clone();
    let (mut counts, mut policy_counts) = (host.counts, host.policy_counts);
    let (mut slice, mut boost) = (host.policy.quantum(), host.policy.boosts());
    match r.kind {
        DOMAIN_COUNT..=PCPU_COUNT => counts[usize::from(r.kind - DOMAIN_COUNT)] = r.value,
        POLICY_DOMAINS..=POLICY_VCPUS => policy_counts[usize::from(r.kind - POLICY_DOMAINS)] = r.value,
        SLICE => slice = r.value,
        BOOST => boost = r.value != 0,
        LAST => last.write(r),
        _ => tables.write(r),
    }
    let system = System::of(&rows(&counts, &tables.vcpus), &tables.pcpus[..counts[2].min(SIZES[2]) as usize]);
    let policy = Policy::of(counts, policy_counts, &rows(&policy_counts, &tables.accounts), slice, boost);
    // what was placed elsewhere may still stand
    let elsewhere = host.elsewhere;
    *host = Host { system, policy, counts, policy_counts, tables: Some(Box::new(tables)), last, elsewhere };
}

/// Boost clears all offsets, those past the policy's counts too.
pub fn clear_offsets(host: &mut Host) {
    for account in host.tables.iter_mut().flat_map(|tables| &mut tables.accounts) {
        account.1 = 0;
    }
}

/// The weight as stored, the offset by limbs, the snapshot, the boost, the clock and the pCPU of the last dispatch.
pub fn kept(host: &Host, r: Record) -> [u64; 9] {
    let (d, v) = (r.domain % DOMAINS, r.vcpu % VCPUS);
    let past = |tables: &Tables| (tables.vcpus[slot(d, v)].2, tables.accounts[slot(d, v)]);
    let (dispatch, account) = host.tables.as_deref().map_or((0, PLAIN), past);
    let dispatch = host.system.record(d, v).map_or(dispatch, |record| record.2);
    let (weight, offset, snapshot) = host.policy.kept(d, v).unwrap_or(account);
    let limb = |i: u32| (offset >> (32 * i)) as u64 & 0xffff_ffff;
    let [snapshot, boost] = [snapshot, host.policy.boosts()].map(u64::from);
    let last = u64::from(host.last.of(d, v).pcpu);
    [u64::from(weight), limb(0), limb(1), limb(2), limb(3), snapshot, boost, dispatch, last]
}

/// Which counts of the system are above their sizes.
pub fn oversize(host: &Host) -> [bool; 3] {
    [0, 1, 2].map(|i| host.counts[i] > SIZES[i])
}

/// What is wrong first: upstream's verdict, but that it knows no count above its size.
#[derive(Clone, Copy, PartialEq)]
pub enum Verdict {
    Sound,
    Oversize,
    Breach(Violation),
}

pub fn verdict(host: &Host) -> Verdict {
    if oversize(host).contains(&true) {
        return Verdict::Oversize;
    }
    host.system.first_violation().map_or(Verdict::Sound, Verdict::Breach)
}
