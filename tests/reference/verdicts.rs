//! Random records for `examine` that write fields with no test: every verdict, every answer, every read.
use crate::comparison::{length, Comparison, BUDGET};
use crate::examine::{wants_sound, Reads, BUILD_APART, OFFLINE_ALL};
use crate::fields::{names_field, oversize, Verdict, LAST, STATE};
use crate::generate::{damaged, Rng};
use crate::last::NO_PCPU;
use crate::outcomes::{Outcome, Seen, When::Read};
use crate::policies::DEFAULT_WEIGHT;
use crate::reads::{Records, Sort};
use crate::sched::{RunState, Violation};
use crate::script::{Host, BAD_SCRIPT, DONE, SIZES, TOO_LARGE, UNSOUND};
use crate::tally::{kinds, Of::*, Row};
use std::cmp::Ordering::Greater;
use std::process::ExitCode;

pub fn compare(comparison: &Comparison) -> ExitCode {
    let mut rng = Rng::new(comparison.seed);
    comparison.run::<Records<Damaged>>(|| {
        let seed = rng.draw();
        damaged(seed, length(&mut rng), false, BUDGET)
    })
}

/// On hosts whose fields are written with no test.
pub struct Damaged;

impl Sort for Damaged {
    const OUTCOMES: &'static [Outcome] = OUTCOMES;
    const WRITES: bool = true;

    fn answers() -> Vec<Row> {
        let more = [
            ("all off", Kind(OFFLINE_ALL), vec![DONE, BAD_SCRIPT]),
            ("apart", Kind(BUILD_APART), vec![DONE, TOO_LARGE]),
            ("a field", Kinds(STATE, LAST), vec![DONE, BAD_SCRIPT]),
            ("above 29", KindAbove(LAST), vec![BAD_SCRIPT]),
            ("cut off", CutOff, vec![BAD_SCRIPT]),
        ];
        kinds().into_iter().chain(more).map(or_unsound).collect()
    }
}

/// A call that wants a sound system can be told 8 too.
fn or_unsound((name, of, mut told): Row) -> Row {
    if matches!(of, Kind(kind) if wants_sound(kind)) {
        told.push(UNSOUND);
    }
    (name, of, told)
}

const OUTCOMES: &[Outcome] = &[
    // what is made
    ("a field written: sound after it", Read(|read, seen| wrote(seen) && read.sound)),
    ("a field written: damaged after it", Read(|read, seen| wrote(seen) && !read.sound)),
    ("a field written: sound again", Read(|read, seen| wrote(seen) && read.sound && was_damaged(seen))),
    ("sound, a field written before", Read(|read, seen| read.sound && written(seen))),
    // the verdicts, and what makes each
    ("Oversize", Read(|read, _| read.verdict == Verdict::Oversize)),
    ("Oversize by domains alone", Read(|_, seen| over(seen) == [true, false, false])),
    ("Oversize by vCPUs alone", Read(|_, seen| over(seen) == [false, true, false])),
    ("Oversize by pCPUs alone", Read(|_, seen| over(seen) == [false, false, true])),
    ("Oversize by 1", Read(|_, seen| seen.host.is_some_and(|h| (0..3).any(|i| h.counts[i] == SIZES[i] + 1)))),
    ("Oversize by 2^32 and more", Read(|_, seen| seen.host.is_some_and(|h| h.counts.iter().any(|n| n >> 32 > 0)))),
    ("Oversize before a violation", Read(|read, seen| read.verdict == Verdict::Oversize && breaches(seen) > 0)),
    ("RunningGhostPcpu", Read(|read, _| ghost_pcpu(read))),
    ("RunningGhostPcpu at the count", Read(|read, seen| ghost_pcpu(read) && on(read, seen) == Some(read.pcpus as u64))),
    ("RunningGhostPcpu of 64 or more", Read(|read, seen| ghost_pcpu(read) && on(read, seen) >= Some(64))),
    ("RunningGhostPcpu, named back 64 below", Read(|read, seen| ghost_pcpu(read) && named_back(read, seen, 64))),
    ("OccupancyBroken", Read(|read, _| broken(read))),
    ("OccupancyBroken, the pCPU idle", Read(|read, seen| broken(read) && there(read, seen).is_none())),
    ("OccupancyBroken, its domain holds it", Read(|read, seen| broken(read) && same(read, seen) == [true, false])),
    (
        "OccupancyBroken, its vCPU id of another domain",
        Read(|read, seen| broken(read) && same(read, seen) == [false, true]),
    ),
    ("OccupancyBroken, and off its mask", Read(|read, seen| broken(read) && off_mask(read, seen))),
    ("RunningOffAffinity", Read(|read, _| off_affinity(read))),
    ("OccupantGhost", Read(|read, _| ghost_holder(read))),
    ("OccupantGhost by its domain", Read(|read, seen| ghost_holder(read) && beyond(read, seen) == [true, false])),
    ("OccupantGhost by its vCPU", Read(|read, seen| ghost_holder(read) && beyond(read, seen) == [false, true])),
    ("OccupantGhost, in range if its ids are cut", Read(|read, seen| ghost_holder(read) && runs_if_cut(read, seen))),
    ("OccupantNotRunning", Read(|read, _| idler(read))),
    ("OccupantNotRunning, Offline", Read(|read, seen| idler(read) && holds(read, seen) == Some(RunState::Offline))),
    ("OccupantNotRunning, Runnable", Read(|read, seen| idler(read) && holds(read, seen) == Some(RunState::Runnable))),
    ("OccupantNotRunning, Blocked", Read(|read, seen| idler(read) && holds(read, seen) == Some(RunState::Blocked))),
    ("OccupantNotRunning, Running elsewhere", Read(|read, seen| idler(read) && runs(holds(read, seen)))),
    // where, and how many
    ("wrong first: 0/0", Read(|read, _| vcpu(read) == Some([0, 0]))),
    ("wrong first: another vCPU of domain 0", Read(|read, _| vcpu(read).is_some_and(|[d, v]| d == 0 && v > 0))),
    ("wrong first: a vCPU of another domain", Read(|read, _| vcpu(read).is_some_and(|[d, _]| d > 0))),
    ("wrong first: 15/7", Read(|read, _| vcpu(read) == Some([15, 7]))),
    ("wrong first: pCPU 0", Read(|read, _| pcpu(read) == Some(0))),
    ("wrong first: another pCPU", Read(|read, _| pcpu(read) > Some(0))),
    ("wrong first: pCPU 63", Read(|read, _| pcpu(read) == Some(63))),
    ("two violations", Read(|_, seen| breaches(seen) == 2)),
    ("five or more", Read(|_, seen| breaches(seen) >= 5)),
    ("a vCPU's and a pCPU's", Read(|read, seen| vcpu(read).is_some() && wrong_pcpus(seen) > 0)),
    // calls
    ("a call told 8", Read(|_, seen| seen.told.answer == UNSOUND)),
    ("next told 8", Read(|read, _| read.next.is_none())),
    ("a weight set on a damaged system", Read(|read, seen| seen.is(8, DONE) && !read.sound)),
    ("boost set on a damaged system", Read(|read, seen| seen.is(10, DONE) && !read.sound)),
    ("moves on a host into which a field was written", Read(|_, seen| written(seen) && seen.told.moves > 0)),
    // reads
    ("domains held at 16", Read(|read, seen| over(seen)[0] && read.domains == 16)),
    ("vCPUs held at 8", Read(|read, seen| over(seen)[1] && read.vcpus == 8)),
    ("pCPUs held at 64", Read(|read, seen| over(seen)[2] && read.pcpus == 64)),
    (
        "a vCPU read though its system is Oversize",
        Read(|read, seen| over(seen).contains(&true) && read.state.is_some()),
    ),
    ("a mask's bit past the count admits nothing", Read(|read, seen| !read.permits && bit_past(read, seen))),
    ("run times written: usage above 2^64", Read(|read, seen| written(seen) && read.used >> 64 > 0)),
    ("usage after a dispatch, on a damaged system", Read(|read, seen| !read.sound && seen.reads(Greater))),
    // the policy
    ("a stored weight of 0 reads as 1", Read(|read, seen| seen.has_account() && read.kept[0] == 0 && read.weight == 1)),
    ("a weight under a policy of more than 16 domains", Read(|read, seen| policy_over(seen)[0] && set(read))),
    ("a weight under a policy of more than 8 vCPUs", Read(|read, seen| policy_over(seen)[1] && set(read))),
    (
        "a weight past the policy's counts reads as 256",
        Read(|read, seen| !seen.has_account() && read.kept[0] != u64::from(DEFAULT_WEIGHT) && !set(read)),
    ),
    ("sound under a policy that does not cover it", Read(|read, seen| read.sound && seen.short())),
    ("an offset above 2^64", Read(|read, _| read.kept[3] + read.kept[4] > 0)),
    ("an offset above 2^127", Read(|read, _| read.kept[4] >> 31 > 0)),
    ("an offset though boost is off", Read(|read, _| read.kept[6] == 0 && read.kept[1..5] != [0; 4])),
    (
        "in the snapshot though not in the pool",
        Read(|read, _| read.kept[5] == 1 && read.state == Some(RunState::Blocked)),
    ),
    ("kept at a slot past the counts", Read(|read, seen| read.state.is_none() && read.kept[7] > 0 && written(seen))),
    // the pCPU that a vCPU was last on
    ("a pCPU kept at a slot past the counts", Read(|read, seen| slot_past(seen) && keeps(read))),
    ("a pCPU kept though Offline", Read(|read, _| read.state == Some(RunState::Offline) && keeps(read))),
    (
        "a pCPU kept over offline_all by one that was Offline",
        Read(|read, seen| seen.is(OFFLINE_ALL, DONE) && read.state.is_some() && keeps(read)),
    ),
    ("sound, and Running on another than the one kept", Read(|read, _| read.sound && read.running && runs_off(read))),
];

fn slot_past(seen: &Seen) -> bool {
    let (d, v) = (seen.record.domain % SIZES[0] as u16, seen.record.vcpu % SIZES[1] as u32);
    seen.host.is_some_and(|host| host.system.record(d, v).is_none())
}

fn keeps(read: &Reads) -> bool {
    read.kept[8] != u64::from(NO_PCPU)
}

fn runs_off(read: &Reads) -> bool {
    !matches!(read.state, Some(RunState::Running { pcpu }) if u64::from(pcpu) == read.kept[8])
}

fn wrote(seen: &Seen) -> bool {
    names_field(seen.record.kind) && seen.told.answer == DONE
}

fn written(seen: &Seen) -> bool {
    seen.host.is_some_and(|host| host.tables.is_some())
}

fn was_damaged(seen: &Seen) -> bool {
    seen.before.is_some_and(|verdict| verdict != Verdict::Sound)
}

fn over(seen: &Seen) -> [bool; 3] {
    seen.host.map_or([false; 3], oversize)
}

fn set(read: &Reads) -> bool {
    read.weight != DEFAULT_WEIGHT
}

fn policy_over(seen: &Seen) -> [bool; 2] {
    seen.host.map_or([false; 2], |host| [0, 1].map(|i| host.policy_counts[i] > SIZES[i]))
}

fn ghost_pcpu(read: &Reads) -> bool {
    matches!(read.verdict, Verdict::Breach(Violation::RunningGhostPcpu { .. }))
}

fn broken(read: &Reads) -> bool {
    matches!(read.verdict, Verdict::Breach(Violation::OccupancyBroken { .. }))
}

fn off_affinity(read: &Reads) -> bool {
    matches!(read.verdict, Verdict::Breach(Violation::RunningOffAffinity { .. }))
}

fn ghost_holder(read: &Reads) -> bool {
    matches!(read.verdict, Verdict::Breach(Violation::OccupantGhost { .. }))
}

fn idler(read: &Reads) -> bool {
    matches!(read.verdict, Verdict::Breach(Violation::OccupantNotRunning { .. }))
}

/// The vCPU that is wrong first.
fn vcpu(read: &Reads) -> Option<[usize; 2]> {
    match read.verdict {
        Verdict::Breach(
            Violation::RunningGhostPcpu { dom, vcpu }
            | Violation::OccupancyBroken { dom, vcpu }
            | Violation::RunningOffAffinity { dom, vcpu },
        ) => Some([dom, vcpu]),
        _ => None,
    }
}

/// The pCPU that is wrong first.
fn pcpu(read: &Reads) -> Option<usize> {
    match read.verdict {
        Verdict::Breach(Violation::OccupantGhost { pcpu } | Violation::OccupantNotRunning { pcpu }) => Some(pcpu),
        _ => None,
    }
}

/// The pCPU that the vCPU which is wrong first names.
fn on(read: &Reads, seen: &Seen) -> Option<u64> {
    let [d, v] = vcpu(read)?;
    match seen.host?.system.state_of(d as u16, v as u32) {
        Some(RunState::Running { pcpu }) => Some(u64::from(pcpu)),
        _ => None,
    }
}

/// Who holds it.
fn there(read: &Reads, seen: &Seen) -> Option<(u16, u32)> {
    seen.host?.system.occupant(on(read, seen)? as u32)
}

/// Whether its holder's domain is that vCPU's, and its vCPU id.
fn same(read: &Reads, seen: &Seen) -> [bool; 2] {
    match (vcpu(read), there(read, seen)) {
        (Some([d, v]), Some((e, u))) => [d == usize::from(e), v == u as usize],
        _ => [false; 2],
    }
}

/// Whether the pCPU so much below the one that it names has it as its holder.
fn named_back(read: &Reads, seen: &Seen, below: u64) -> bool {
    let holder = |p: u64| seen.host.and_then(|host| host.system.occupant(p.checked_sub(below)? as u32));
    let names = |(d, v): (u16, u32)| vcpu(read) == Some([usize::from(d), v as usize]);
    on(read, seen).and_then(holder).is_some_and(names)
}

fn off_mask(read: &Reads, seen: &Seen) -> bool {
    let permits = |[d, v]: [usize; 2]| {
        let host = seen.host?;
        Some(host.system.affinity_permits(d as u16, v as u32, on(read, seen)? as u32))
    };
    vcpu(read).and_then(permits) == Some(false)
}

/// Who holds the pCPU that is wrong first.
fn holder(read: &Reads, seen: &Seen) -> Option<(u16, u32)> {
    seen.host?.system.occupant(pcpu(read)? as u32)
}

/// Whether its holder's domain is out of range, and its vCPU.
fn beyond(read: &Reads, seen: &Seen) -> [bool; 2] {
    let (Some((d, v)), Some(host)) = (holder(read, seen), seen.host) else { return [false; 2] };
    [u64::from(d) >= host.counts[0], u64::from(v) >= host.counts[1]]
}

fn runs_if_cut(read: &Reads, seen: &Seen) -> bool {
    let (Some((d, v)), Some(host)) = (holder(read, seen), seen.host) else { return false };
    host.system.is_running(d % SIZES[0] as u16, v % SIZES[1] as u32)
}

fn holds(read: &Reads, seen: &Seen) -> Option<RunState> {
    let (d, v) = holder(read, seen)?;
    seen.host?.system.state_of(d, v)
}

fn runs(state: Option<RunState>) -> bool {
    matches!(state, Some(RunState::Running { .. }))
}

fn bit_past(read: &Reads, seen: &Seen) -> bool {
    let bit = 1u64.checked_shl(seen.record.third).unwrap_or(0);
    seen.pcpu() >= read.pcpus && read.mask.is_some_and(|mask| mask & bit != 0)
}

/// How many vCPUs and pCPUs are wrong, by reads alone.
fn breaches(seen: &Seen) -> usize {
    seen.host.map_or(0, wrong_vcpus) + wrong_pcpus(seen)
}

fn wrong_vcpus(host: &Host) -> usize {
    let s = &host.system;
    let ids = (0..s.domain_count() as u16).flat_map(|d| (0..s.vcpu_count(d) as u32).map(move |v| (d, v)));
    let wrong = |(d, v): &(u16, u32)| match s.state_of(*d, *v) {
        Some(RunState::Running { pcpu }) => s.occupant(pcpu) != Some((*d, *v)) || !s.affinity_permits(*d, *v, pcpu),
        _ => false,
    };
    ids.filter(wrong).count()
}

fn wrong_pcpus(seen: &Seen) -> usize {
    let Some(host) = seen.host else { return 0 };
    let s = &host.system;
    let runs_there = |p: u32, (d, v)| s.state_of(d, v) == Some(RunState::Running { pcpu: p });
    (0..s.pcpu_count() as u32).filter(|p| s.occupant(*p).is_some_and(|who| !runs_there(*p, who))).count()
}
