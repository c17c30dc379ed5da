//! What a read, or a kind that only `examine` has, can answer, and how often each was seen.
use crate::fields::Verdict;
use crate::examine::{Reads, BUILD_APART, OFFLINE_ALL};
use crate::policies::DEFAULT_WEIGHT;
use crate::policy::Decision;
use crate::sched::RunState;
use crate::script::{Host, Record, Told, BAD_SCRIPT, DONE, TOO_LARGE};
use std::cmp::Ordering::{self, Equal, Greater, Less};
use When::{NoHost, Read};

/// The policy's domains and vCPUs, where they are not the system's.
pub type Apart = Option<[u64; 2]>;

/// A record, what it was told, and what was read after it.
pub struct Seen<'a> {
    pub record: Record,
    pub told: Told,
    /// Whether a vCPU of the record's domain ran before it.
    pub ran: bool,
    pub apart: Apart,
    /// The verdict on the host that the record found.
    pub before: Option<Verdict>,
    pub host: Option<&'a Host>,
    pub reads: Option<&'a Reads>,
}

/// When an outcome is seen: in the reads, or in a record that finds no host.
pub enum When {
    Read(fn(&Reads, &Seen) -> bool),
    NoHost(fn(&Seen) -> bool),
}

/// An outcome's name, and when it is seen.
pub type Outcome = (&'static str, When);

/// Of the reads of hosts that calls made.
pub const READS: &[Outcome] = &[
    ("vCPU out of range", Read(|read, _| read.state.is_none())),
    ("Offline", Read(|read, _| read.state == Some(RunState::Offline))),
    ("Runnable", Read(|read, _| read.state == Some(RunState::Runnable))),
    ("Blocked", Read(|read, _| read.state == Some(RunState::Blocked))),
    ("Running", Read(|read, _| runs(read))),
    ("run time above 0", Read(|read, _| read.ran > Some(0))),
    ("run time at its limit", Read(|read, _| read.ran == Some(u64::MAX))),
    ("on a pCPU since", Read(|read, _| read.since.is_some())),
    ("mask admits the pCPU", Read(|read, _| read.permits)),
    ("mask does not", Read(|read, seen| barred(read) && seen.pcpu() < 64)),
    ("mask does not, pCPU id of 64 or more", Read(|read, seen| barred(read) && seen.pcpu() >= 64)),
    ("weight above the default", Read(|read, _| read.weight > DEFAULT_WEIGHT)),
    ("weight below the default", Read(|read, _| read.weight < DEFAULT_WEIGHT)),
    ("weight outside the policy's shape", Read(|read, seen| !seen.has_account() && read.weight == DEFAULT_WEIGHT)),
    ("no vCPUs in a bad domain", Read(|read, seen| seen.bad_domain(read) && read.vcpus == 0)),
    ("full mask of 64 pCPUs", Read(|read, _| read.full_mask == u64::MAX)),
    ("full mask of none", Read(|read, _| read.full_mask == 0)),
    ("usage above 2^64", Read(|read, _| read.used >> 64 > 0)),
    ("usage with nobody Running", Read(|read, seen| read.used > 0 && seen.dispatches().is_empty())),
    ("usage before a dispatch", Read(|_, seen| seen.reads(Less))),
    ("usage at a dispatch", Read(|_, seen| seen.reads(Equal))),
    ("usage after a dispatch", Read(|_, seen| seen.reads(Greater))),
    ("usage after one dispatch, before another", Read(|_, seen| seen.reads(Greater) && seen.reads(Less))),
    ("usage at 0 while one is Running", Read(|_, seen| seen.reads_at(0))),
    ("usage at 2^64 - 1 while one is Running", Read(|_, seen| seen.reads_at(u64::MAX))),
    ("busy pCPUs", Read(|read, _| read.busy > 0)),
    ("all pCPUs busy", Read(|read, _| read.busy > 0 && read.busy == read.pcpus)),
    ("pCPU held", Read(|read, _| read.holder.is_some())),
    ("pCPU idle", Read(|read, seen| read.holder.is_none() && seen.pcpu() < read.pcpus)),
    ("pCPU out of range", Read(|read, seen| seen.pcpu() >= read.pcpus)),
    ("next is Run", Read(|read, _| matches!(read.next, Some(Decision::Run { .. })))),
    ("next is Preempt", Read(|read, _| matches!(read.next, Some(Decision::Preempt { .. })))),
    ("next is Idle", Read(|read, _| read.next == Some(Decision::Idle))),
    (
        "next is Idle while some wait",
        Read(|read, seen| read.next == Some(Decision::Idle) && seen.host.is_some_and(waits)),
    ),
    ("offline_all frees a pCPU", Read(|_, seen| seen.all_off() && seen.ran)),
    ("offline_all of a bad domain", Read(|read, seen| seen.all_off() && seen.bad_domain(read))),
    ("offline_all without a host", NoHost(|seen| seen.is(OFFLINE_ALL, BAD_SCRIPT))),
    ("policy of another shape", Read(|_, seen| seen.apart.is_some())),
    ("advance moves under one", Read(|_, seen| seen.apart.is_some() && seen.told.moves > 0)),
    ("vCPU outside its policy's shape runs", Read(|read, seen| seen.outside() && runs(read))),
    ("policy that does not cover its host", Read(|_, seen| seen.short())),
    ("next is Run under one", Read(|read, seen| seen.short() && matches!(read.next, Some(Decision::Run { .. })))),
    ("next is Preempt under one", Read(|read, seen| seen.short() && matches!(read.next, Some(Decision::Preempt { .. })))),
    ("policy's shape too large", Read(|_, seen| seen.is(BUILD_APART, TOO_LARGE))),
];

impl When {
    fn holds(&self, seen: &Seen) -> bool {
        match (self, seen.reads) {
            (Read(holds), Some(read)) => holds(read, seen),
            (NoHost(holds), None) => holds(seen),
            _ => false,
        }
    }
}

impl Seen<'_> {
    pub fn is(&self, kind: u16, answer: u8) -> bool {
        self.record.kind == kind && self.told.answer == answer
    }

    fn all_off(&self) -> bool {
        self.is(OFFLINE_ALL, DONE)
    }

    /// Whether the policy has an account of the record's vCPU.
    pub fn has_account(&self) -> bool {
        let Record { domain, vcpu, .. } = self.record;
        self.host.is_some_and(|host| host.policy.kept(domain, vcpu).is_some())
    }

    /// Whether some vCPU of the host is outside its policy's shape.
    pub fn short(&self) -> bool {
        self.host.is_some_and(|host| !host.policy.covers_host())
    }

    pub fn pcpu(&self) -> usize {
        self.record.third as usize
    }

    fn bad_domain(&self, read: &Reads) -> bool {
        usize::from(self.record.domain) >= read.domains
    }

    /// When each Running vCPU of the domain was dispatched.
    fn dispatches(&self) -> Vec<u64> {
        self.host.map_or(Vec::new(), |host| host.dispatches(self.record.domain))
    }

    /// Whether the reading is before, at or after one of these, by what it is to it.
    pub fn reads(&self, order: Ordering) -> bool {
        self.dispatches().iter().any(|since| self.record.value.cmp(since) == order)
    }

    fn reads_at(&self, reading: u64) -> bool {
        self.record.value == reading && !self.dispatches().is_empty()
    }

    fn outside(&self) -> bool {
        let (domain, vcpu) = (u64::from(self.record.domain), u64::from(self.record.vcpu));
        self.apart.is_some_and(|[domains, vcpus]| domain >= domains || vcpu >= vcpus)
    }
}

fn runs(read: &Reads) -> bool {
    matches!(read.state, Some(RunState::Running { .. }))
}

fn barred(read: &Reads) -> bool {
    read.state.is_some() && !read.permits
}

fn waits(host: &Host) -> bool {
    let s = &host.system;
    let mut ids = (0..s.domain_count() as u16).flat_map(|d| (0..s.vcpu_count(d) as u32).map(move |v| (d, v)));
    ids.any(|(d, v)| s.state_of(d, v) == Some(RunState::Runnable))
}

pub struct Outcomes {
    list: &'static [Outcome],
    counts: Vec<u64>,
}

impl Outcomes {
    pub fn new(list: &'static [Outcome]) -> Outcomes {
        Outcomes { list, counts: vec![0; list.len()] }
    }

    pub fn note(&mut self, seen: &Seen) {
        for ((_, when), n) in self.list.iter().zip(&mut self.counts) {
            *n += u64::from(when.holds(seen));
        }
    }

    pub fn print(&self) {
        for ((name, _), n) in self.list.iter().zip(&self.counts) {
            println!("{name:>52} {n:>9}");
        }
    }

    pub fn unreached(&self) -> Vec<String> {
        let unseen = self.list.iter().zip(&self.counts).filter(|(_, n)| **n == 0);
        unseen.map(|((name, _), _)| name.to_string()).collect()
    }
}
