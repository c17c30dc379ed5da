//! The same load as the program `load`, in plain Rust.
use std::io::Write;

const STRETCH: usize = 60_000;

struct Generator(u64);

impl Generator {
    fn draw(&mut self) -> u64 {
        self.0 ^= self.0 << 13;
        self.0 ^= self.0 >> 7;
        self.0 ^= self.0 << 17;
        self.0
    }

    fn id(&mut self, count: u64) -> u64 {
        if count == 0 { 0 } else { self.draw() % count }
    }
}

fn put(out: &mut Vec<u8>, kind: u16, dom: u16, vcpu: u32, third: u32, value: u64) {
    out.extend_from_slice(&kind.to_be_bytes());
    out.extend_from_slice(&dom.to_be_bytes());
    out.extend_from_slice(&vcpu.to_be_bytes());
    out.extend_from_slice(&third.to_be_bytes());
    out.extend_from_slice(&value.to_be_bytes());
}

fn main() {
    let numbers: Vec<u64> = std::env::args().skip(1).map(|word| word.parse().unwrap()).collect();
    let [seed, domains, vcpus, pcpus, slice, count] = numbers[..] else { panic!("six numbers") };
    let mut stdout = std::io::stdout().lock();
    let mut out = Vec::with_capacity(STRETCH);
    let mut generator = Generator(seed);
    let mut clock = 0;
    put(&mut out, 0, domains as u16, vcpus as u32, pcpus as u32, slice);
    for _ in 0..count {
        if out.len() == STRETCH {
            stdout.write_all(&out).unwrap();
            out.clear();
        }
        let kind = generator.draw() % 5;
        let (dom, vcpu) = if kind == 4 { (0, 0) } else { (generator.id(domains), generator.id(vcpus)) };
        let value = match kind {
            3 => generator.draw(),
            1 | 4 => {
                clock += generator.draw() % 100;
                clock
            }
            _ => 0,
        };
        put(&mut out, [1, 4, 5, 7, 9][kind as usize], dom as u16, vcpu as u32, 0, value);
    }
    stdout.write_all(&out).unwrap();
}
