//! Random scripts. The generator keeps upstream's host beside it, so that most calls fit the state they meet.
use crate::examine::{examine, BUILD_APART, OFFLINE_ALL};
use crate::sched::RunState;
use crate::script::{Host, Record, Replay, RECORD, SIZES};

// a part of this generator, in a file of its own
#[path = "damage.rs"]
mod damage;

pub struct Rng(u64);

impl Rng {
    pub fn new(seed: u64) -> Rng {
        Rng(seed)
    }

    // splitmix64
    pub fn draw(&mut self) -> u64 {
        self.0 = self.0.wrapping_add(0x9e37_79b9_7f4a_7c15);
        let z = (self.0 ^ (self.0 >> 30)).wrapping_mul(0xbf58_476d_1ce4_e5b9);
        let z = (z ^ (z >> 27)).wrapping_mul(0x94d0_49bb_1331_11eb);
        z ^ (z >> 31)
    }

    pub fn below(&mut self, n: u64) -> u64 {
        if n == 0 {
            0
        } else {
            self.draw() % n
        }
    }

    fn one_in(&mut self, n: u64) -> bool {
        self.below(n) == 0
    }

    fn pick(&mut self, from: &[u64]) -> u64 {
        from[self.below(from.len() as u64) as usize]
    }
}

/// Kinds with their odds out of 100.
type Mix = [(u16, u64); 10];
// the timer at work, with a few changes between its ticks
const TICKS: Mix = [(9, 62), (5, 9), (4, 8), (1, 9), (6, 2), (8, 4), (7, 2), (2, 2), (3, 1), (10, 1)];
// vCPUs placed by hand
const HANDS: Mix = [(2, 26), (3, 18), (4, 12), (5, 13), (1, 12), (6, 6), (7, 7), (9, 4), (8, 1), (10, 1)];
// much sleep and waking
const CHURN: Mix = [(9, 30), (4, 22), (5, 24), (1, 7), (6, 5), (8, 5), (7, 4), (10, 1), (2, 1), (3, 1)];
// what stands between the rungs of a climb
const CLIMB: Mix = [(9, 44), (8, 10), (4, 12), (5, 18), (1, 8), (6, 1), (7, 3), (2, 2), (3, 2), (10, 0)];

const LARGE: u64 = u64::MAX;
/// A record that is no call: it is told 9, and read after as any other.
const LOOK: u16 = u16::MAX;

/// What one host's part of a script is like.
struct Style {
    mix: &'static Mix,
    /// Whether services are driven up to 2^128.
    climbs: bool,
    /// Clocks go on by up to twice this; 0 leaps by 2^60 and more, or stands.
    pace: u64,
    /// One clock in so many is not where the last one leads.
    jumps: u64,
    /// One call in so many has an id out of range.
    strays: u64,
    /// One call in so many is made whatever state its vCPU is in.
    misfits: u64,
    noise: bool,
}

pub struct Generator {
    rng: Rng,
    small: bool,
    replay: Replay,
    style: Style,
    clock: u64,
    /// Calls since the build: a host is mostly admitted first.
    age: u64,
    /// Calls already decided on, the last first.
    ahead: Vec<Record>,
    /// How often upstream's sum overflowed.
    overflows: u64,
    /// Of hosts whose fields are written with no test: one harm in so many is done, and looks that stand out, the
    /// last first.
    wear: u64,
    looks: Vec<Record>,
}

impl Generator {
    pub fn new(seed: u64, small: bool) -> Generator {
        let mut rng = Rng::new(seed);
        let style = style(&mut rng);
        let (replay, ahead, looks) = (Replay::default(), Vec::new(), Vec::new());
        Generator { rng, small, replay, style, clock: 0, age: 0, ahead, overflows: 0, wear: 1, looks }
    }

    /// The next record.
    pub fn record(&mut self) -> [u8; RECORD] {
        let record = self.propose();
        self.settled(record, |replay, bytes| replay.tell(bytes).is_some())
    }

    /// The next record for `examine`, whose ids are read whatever its kind.
    pub fn examined(&mut self) -> [u8; RECORD] {
        let record = self.propose_examined();
        self.settled(record, |replay, bytes| examine(replay, bytes).is_some())
    }

    /// A record at which upstream's own sum overflows is left out: a build takes its place.
    fn settled(&mut self, record: Record, tell: fn(&mut Replay, &[u8]) -> bool) -> [u8; RECORD] {
        let bytes = record.bytes();
        if tell(&mut self.replay, &bytes) {
            self.age += 1;
            return bytes;
        }
        self.overflows += 1;
        self.ahead.clear();
        self.looks.clear();
        let bytes = Record { kind: 0, domain: 1, vcpu: 2, third: 1, value: 10 }.bytes();
        tell(&mut self.replay, &bytes);
        bytes
    }

    /// What the host now shown costs to write out and compare, in small hosts.
    pub fn cost(&self) -> u64 {
        1 + self.replay.host.as_ref().map_or(0, |h| vcpus(h) / 2)
    }

    fn propose(&mut self) -> Record {
        let record = self.draw();
        let other = if self.style.noise { self.noise() } else { Record::default() };
        record.filled(other)
    }

    fn propose_examined(&mut self) -> Record {
        let built = self.replay.host.is_some();
        if self.rng.one_in(if built { 300 } else { 3 }) {
            return self.build_apart();
        }
        let asked = self.asked();
        if self.rng.one_in(12) {
            return Record { kind: LOOK, ..asked };
        }
        if self.rng.one_in(40) {
            return Record { kind: OFFLINE_ALL, value: self.tick(), ..asked };
        }
        // what is no kind of a script can be one here
        match self.draw() {
            record if record.kind == BUILD_APART => self.build_apart(),
            record => record.filled(asked),
        }
    }

    fn draw(&mut self) -> Record {
        match &self.replay.host {
            None if !self.rng.one_in(4) => self.build(),
            Some(_) if self.rng.one_in(300) => self.build(),
            _ if self.rng.one_in(150) => self.bad_kind(),
            _ => self.call(),
        }
    }

    /// Ids to read at, and a clock at hand: in range for the most part.
    fn asked(&mut self) -> Record {
        if self.style.noise && self.rng.one_in(3) {
            return self.noise();
        }
        let (domain, vcpu) = self.target(7);
        let third = self.pcpu(domain, vcpu);
        let (later, jump) = (self.clock.saturating_add(self.rng.below(40)), self.jump());
        let dispatch = self.dispatch(domain);
        let near = self.rng.pick(&[dispatch.saturating_sub(1), dispatch, dispatch.saturating_add(1)]);
        let value = self.rng.pick(&[self.clock, later, later, later, jump, near]);
        Record { kind: 0, domain, vcpu, third, value }
    }

    /// When a Running vCPU of the domain was dispatched; the clock at hand if there is none.
    fn dispatch(&mut self, domain: u16) -> u64 {
        match self.replay.host.as_ref().map(|host| host.dispatches(domain)) {
            Some(since) if !since.is_empty() => self.rng.pick(&since),
            _ => self.clock,
        }
    }

    /// A host whose policy has a shape of its own, now and then one that is too large.
    fn build_apart(&mut self) -> Record {
        let build = self.build();
        let of = [u64::from(build.domain), u64::from(build.vcpu)];
        let [domains, vcpus] = [0, 1].map(|i| {
            let (any, size) = (self.rng.below(SIZES[i] + 1), SIZES[i]);
            let one_less = of[i].saturating_sub(1);
            self.rng.pick(&[0, 1, one_less, one_less, of[i], of[i] + 1, any, any, size, size]).min(size)
        });
        // a refused build keeps the host, and no climb is made on any host
        let (domains, vcpus) = match self.rng.below(16) {
            0 if !self.style.climbs => (self.rng.pick(&[17, 255]), vcpus),
            1 if !self.style.climbs => (domains, self.rng.pick(&[9, 255])),
            _ => (domains, vcpus),
        };
        Record { kind: BUILD_APART, value: domains << 56 | vcpus << 48 | build.value & ((1 << 48) - 1), ..build }
    }

    fn build(&mut self) -> Record {
        self.style = style(&mut self.rng);
        self.age = 0;
        self.ahead.clear();
        self.clock = self.rng.pick(&[0, 0, 0, 100, 1 << 40, LARGE - 50]);
        let [domains, vcpus, pcpus] = self.shape();
        let some = self.rng.below(40);
        let value = self.rng.pick(&[0, 1, 5, 10, 10, 10, some, some, some, 1 << 40, LARGE]);
        Record { kind: 0, domain: domains as u16, vcpu: vcpus as u32, third: pcpus as u32, value }
    }

    fn shape(&mut self) -> [u64; 3] {
        if self.style.climbs {
            return [1, 2 + self.rng.below(2), 1 + self.rng.below(2)];
        }
        match self.rng.below(if self.small { 10 } else { 20 }) {
            0 => [3, 3, 3].map(|n| self.rng.below(n)),
            1..=9 => [3, 3, 3].map(|n| 1 + self.rng.below(n)),
            10..=13 => [4, 4, 6].map(|n| 1 + self.rng.below(n)),
            14..=15 => SIZES.map(|n| self.rng.below(n + 1)),
            16 => SIZES,
            _ => self.shape_at_sizes(),
        }
    }

    fn shape_at_sizes(&mut self) -> [u64; 3] {
        let huge = [65_535, u64::from(u32::MAX), 65_536];
        let mut shape = SIZES.map(|n| self.rng.pick(&[0, 1, n - 1, n, n]));
        if self.rng.one_in(2) {
            let which = self.rng.below(3) as usize;
            shape[which] = self.rng.pick(&[SIZES[which] + 1, SIZES[which] + 1, huge[which], SIZES[which] + 240]);
        }
        shape
    }

    fn bad_kind(&mut self) -> Record {
        let any = 11 + self.rng.below(65_525);
        let kind = self.rng.pick(&[11, 12, 256, 265, 65_535, any]) as u16;
        Record { kind, ..self.noise() }
    }

    fn noise(&mut self) -> Record {
        let (a, value) = (self.rng.draw(), self.rng.draw());
        Record { kind: 0, domain: a as u16, vcpu: (a >> 16) as u32, third: (a >> 32) as u32, value }
    }

    fn call(&mut self) -> Record {
        if self.ahead.is_empty() && self.style.climbs && self.replay.host.is_some() && self.rng.one_in(4) {
            self.rung();
        }
        if !self.rng.one_in(8) {
            if let Some(record) = self.ahead.pop() {
                return record;
            }
        }
        self.any_call()
    }

    /// One vCPU sleeps through an advance and wakes with the largest weight among small ones: its offset is
    /// then some 2^32 times the floor. Three rungs lead from 2^64 to where products and offsets are held.
    fn rung(&mut self) {
        let vcpus = self.replay.host.as_ref().map_or(1, |h| h.system.vcpu_count(0).max(1)) as u32;
        let sleeper = self.age as u32 % vcpus;
        let call = |kind, vcpu, third, value| Record { kind, domain: 0, vcpu, third, value };
        let weight = |vcpu| call(8, vcpu, if vcpu == sleeper { u32::MAX } else { 1 }, 0);
        let (blocked, asleep) = (self.tick(), self.tick());
        let mut rung = vec![call(4, sleeper, 0, blocked), call(9, 0, 0, asleep)];
        rung.extend((0..vcpus).map(weight));
        rung.extend([call(5, sleeper, 0, 0), call(9, 0, 0, self.clock)]);
        rung.reverse();
        self.ahead = rung;
    }

    fn any_call(&mut self) -> Record {
        let kind = self.kind();
        let (domain, vcpu) = self.target(kind);
        let third = if kind == 2 { self.pcpu(domain, vcpu) } else { self.weight() };
        let value = match kind {
            7 => self.mask(domain, vcpu),
            10 => self.rng.pick(&[0, 1, 1, 1 << 32, 1 << 63]),
            _ => self.tick(),
        };
        Record { kind, domain, vcpu, third, value }
    }

    fn kind(&mut self) -> u16 {
        if self.replay.host.is_none() {
            return 1 + self.rng.below(10) as u16;
        }
        if self.age < 2 * self.cost() && !self.rng.one_in(4) {
            return 1;
        }
        let mut left = self.rng.below(100);
        for (kind, odds) in self.style.mix {
            if left < *odds {
                return *kind;
            }
            left -= odds;
        }
        9
    }

    fn target(&mut self, kind: u16) -> (u16, u32) {
        let Some(host) = &self.replay.host else { return (0, 0) };
        let (domains, per) = (host.system.domain_count() as u64, host.system.vcpu_count(0) as u64);
        if self.rng.one_in(self.style.strays) {
            return self.stray(domains, per);
        }
        let any_state = self.rng.one_in(self.style.misfits);
        let mut target = (0, 0);
        for _ in 0..8 {
            target = (self.rng.below(domains) as u16, self.rng.below(per) as u32);
            if any_state || fits(kind, host.system.state_of(target.0, target.1)) {
                break;
            }
        }
        target
    }

    fn stray(&mut self, domains: u64, per: u64) -> (u16, u32) {
        let domain = self.rng.pick(&[domains, 16, 255, 256, 65_535]) as u16;
        // the first of the next domain, were ids not tested
        let vcpu = self.rng.pick(&[per, 8, 9, 256, 65_536, u64::from(u32::MAX)]) as u32;
        match self.rng.below(5) {
            0 => (domain, vcpu),
            1 | 2 => (domain, self.rng.below(per) as u32),
            _ => (self.rng.below(domains) as u16, vcpu),
        }
    }

    fn pcpu(&mut self, domain: u16, vcpu: u32) -> u32 {
        let Some(host) = &self.replay.host else { return 0 };
        let count = host.system.pcpu_count() as u64;
        if self.rng.one_in(self.style.strays) {
            return self.rng.pick(&[count, count, 63, 64, 65, 128, u64::from(u32::MAX)]) as u32;
        }
        let mut pcpu = 0;
        let any = self.rng.one_in(4);
        for _ in 0..8 {
            pcpu = self.rng.below(count) as u32;
            if any || host.system.occupant(pcpu).is_none() && host.system.affinity_permits(domain, vcpu, pcpu) {
                break;
            }
        }
        pcpu
    }

    fn mask(&mut self, domain: u16, vcpu: u32) -> u64 {
        let Some(host) = &self.replay.host else { return 0 };
        let count = host.system.pcpu_count() as u64;
        let beyond = 1 << (count + self.rng.below(64 - count.min(63))).min(63);
        let (one, any) = (1 << self.rng.below(count.clamp(1, 64)), self.rng.draw());
        let held = match host.system.state_of(domain, vcpu) {
            // a state as written may name any pCPU
            Some(RunState::Running { pcpu }) => 1u64.checked_shl(pcpu).unwrap_or(0),
            _ => one,
        };
        self.rng.pick(&[0, one, one, held, any, any | held, any & !held, beyond, beyond | one, LARGE, LARGE])
    }

    fn weight(&mut self) -> u32 {
        let top = u64::from(u32::MAX);
        if self.style.climbs {
            return self.rng.pick(&[1, 1, top, top, top - 1, 3]) as u32;
        }
        let (small, any) = (1 + self.rng.below(9), self.rng.draw() & top);
        self.rng.pick(&[0, 1, small, small, small, 256, any, top]) as u32
    }

    fn tick(&mut self) -> u64 {
        if self.rng.one_in(self.style.jumps) {
            return self.jump();
        }
        let step = match self.style.pace {
            0 if self.rng.one_in(3) => (1u64 << 60).saturating_add(self.rng.draw() >> self.rng.below(4)),
            0 => 0,
            pace => self.rng.below(2 * pace + 1),
        };
        self.clock = self.clock.saturating_add(step);
        self.clock
    }

    fn jump(&mut self) -> u64 {
        let (back, near, any) = (self.rng.below(100), LARGE - self.rng.below(20), self.rng.draw());
        let now = self.rng.pick(&[0, self.clock / 2, self.clock.saturating_sub(back), LARGE, near, any]);
        // now and then the clock stays there
        if self.rng.one_in(3) {
            self.clock = now;
        }
        now
    }
}

fn style(rng: &mut Rng) -> Style {
    let which = rng.below(8) as usize;
    let climbs = which == 7;
    let leaps = climbs || rng.one_in(8);
    Style {
        mix: [&TICKS, &TICKS, &TICKS, &HANDS, &HANDS, &CHURN, &CHURN, &CLIMB][which],
        climbs,
        pace: if leaps { 0 } else { rng.pick(&[1, 3, 7, 10, 10, 25, 1 << 36]) },
        jumps: rng.pick(&[10, 50, 200, 1 << 20]),
        strays: rng.pick(&[10, 30, 100, 1 << 20]),
        misfits: rng.pick(&[3, 10, 30]),
        noise: rng.one_in(3),
    }
}

fn fits(kind: u16, state: Option<RunState>) -> bool {
    use RunState::*;
    match (kind, state) {
        (1, s) => s == Some(Offline),
        (2, s) => s == Some(Runnable),
        (3, s) => matches!(s, Some(Running { .. })),
        (4, s) => matches!(s, Some(Runnable | Running { .. })),
        (5, s) => s == Some(Blocked),
        (6, s) => s != Some(Offline),
        _ => true,
    }
}

fn vcpus(host: &Host) -> u64 {
    (host.system.domain_count() * host.system.vcpu_count(0)) as u64
}

/// `calls` records, the last of them cut off in one script of four.
pub fn script(seed: u64, calls: usize, small: bool) -> Vec<u8> {
    bounded(seed, calls, small, u64::MAX).0
}

/// The same, but ended once its hosts have cost so much; with the number of overflows that it steps around.
pub fn bounded(seed: u64, calls: usize, small: bool, budget: u64) -> (Vec<u8>, u64) {
    drawn(seed, calls, small, budget, Generator::record)
}

/// Records for `examine`, in the same way.
pub fn examined(seed: u64, calls: usize, small: bool, budget: u64) -> (Vec<u8>, u64) {
    drawn(seed, calls, small, budget, Generator::examined)
}

/// Records for `examine` that write fields with no test, in the same way.
pub fn damaged(seed: u64, calls: usize, small: bool, budget: u64) -> (Vec<u8>, u64) {
    drawn(seed, calls, small, budget, Generator::damaged)
}

type Next = fn(&mut Generator) -> [u8; RECORD];

fn drawn(seed: u64, calls: usize, small: bool, budget: u64, next: Next) -> (Vec<u8>, u64) {
    let mut generator = Generator::new(seed, small);
    let (mut script, mut spent) = (Vec::new(), 0);
    while script.len() < calls * RECORD && spent < budget {
        script.extend_from_slice(&next(&mut generator));
        spent += generator.cost();
    }
    if generator.rng.one_in(4) {
        let cut = 1 + generator.rng.below(19) as usize;
        script.truncate(script.len().saturating_sub(cut));
    }
    (script, generator.overflows)
}
