#!/usr/bin/env python3
"""Times the port's programs beside upstream's, in turns, reading and writing included: the least of five runs.

  bench/times.py PORT UPSTREAM     two folders

PORT has bench, load and replay; UPSTREAM has calls, advances, reference, and usage and load, which upstream has not: they
are written here in plain Rust. bench/run makes them all.
What the port writes is compared with what upstream gives. A script is timed on upstream alone, `reference plain`, whose
placements are always on the lowest pCPU; `reference replay`, which is not timed, says what the port has to write.
"""
import pathlib
import random
import struct
import subprocess
import sys
import tempfile
import time

BUILD, ADMIT, RUN, PREEMPT, BLOCK, WAKE, OFFLINE, MASK, WEIGHT, ADVANCE = range(10)
FULL, SMALL = (16, 8, 64), (4, 2, 4)
ALL = 2**64 - 1
# an advance is timed on these shapes, so many times
ADVANCES = [(20_000, FULL), (20_000, (16, 8, 8)), (100_000, (2, 8, 4)), (200_000, (1, 2, 1))]
USAGE_FILES = 300_000
LOAD_CALLS = 1_000_000
ROUNDS = 5


def record(kind, domain=0, vcpu=0, third=0, value=0):
    return struct.pack(">HHIIQ", kind, domain, vcpu, third, value)


def admitted(shape):
    domains, vcpus, pcpus = shape
    ids = [(d, v) for d in range(domains) for v in range(vcpus)]
    return [record(BUILD, domains, vcpus, pcpus, 10), *(record(ADMIT, d, v) for d, v in ids)]


def busy(shape):
    """Half of the pCPUs held, so that there is a host to look after."""
    return admitted(shape) + [record(RUN, i // shape[1], i % shape[1], i, 0) for i in range(shape[2] // 2)]


def steady(shape, calls, gap):
    """Random calls with an advance every `gap` of them."""
    draw = random.Random(1)
    calls_made = admitted(shape)
    for now in range(calls - len(calls_made)):
        d, v = draw.randrange(shape[0]), draw.randrange(shape[1])
        if now % gap == 0:
            calls_made.append(record(ADVANCE, value=now))
        else:
            kind = draw.choice([ADMIT, RUN, PREEMPT, BLOCK, WAKE, WAKE, OFFLINE, MASK, WEIGHT])
            third = draw.randrange(shape[2]) if kind == RUN else draw.randrange(1, 9)
            calls_made.append(record(kind, d, v, third, ALL if kind == MASK else now))
    return b"".join(calls_made)


def repeated(*calls, times=150_000):
    return b"".join(busy(FULL)) + b"".join(calls) * times


def load(shape):
    """The numbers of a load, as words."""
    return [str(n) for n in (1, *shape, 10, LOAD_CALLS)]


def scripts(port):
    """Scripts that are timed: name and records."""
    last = (15, 7)
    for shape in (FULL, SMALL):
        made = subprocess.run([port / "load", *load(shape)], stdout=subprocess.PIPE, check=True).stdout
        yield f"load, {shape[0] * shape[1]} vCPUs on {shape[2]} pCPUs", made
    yield "script, 128 vCPUs on 64 pCPUs, an advance in 100 calls", steady(FULL, 1_000_000, 100)
    yield "script, 8 vCPUs on 4 pCPUs, an advance in 10 calls", steady(SMALL, 1_000_000, 10)
    waiting = b"".join([*admitted(FULL), record(ADVANCE, value=5)])
    yield "advance with nothing due, 128 vCPUs on 64 pCPUs", waiting + record(ADVANCE, value=6) * 50_000
    yield "admit (a build every 129)", b"".join(admitted(FULL)) * 2000
    yield "run, preempt", repeated(record(RUN, *last, 63, 5), record(PREEMPT, *last, value=9))
    yield "block, wake", repeated(record(BLOCK, *last, value=5), record(WAKE, *last))
    yield "offline, admit", repeated(record(OFFLINE, *last, value=5), record(ADMIT, *last))
    yield "mask", repeated(record(MASK, *last, value=3), record(MASK, *last, value=ALL))
    yield "weight", repeated(record(WEIGHT, *last, 3), record(WEIGHT, *last, 4))
    yield "refused run", repeated(record(RUN, *last, 0, 5), record(RUN, *last, 64, 5))


def order(kind, rounds, shape=(0, 0, 0)):
    """What `bench` reads."""
    return struct.pack(">BI3B", kind, rounds, *shape)


def timed(port, upstream):
    """All that is timed: name, the two commands and the one that gives the answers, what they read, how many calls that
    makes."""

    def benched(program):
        return [port / "bench"], [upstream / program], [upstream / program]

    rounds = 200_000
    yield "transition, 128 vCPUs on 64 pCPUs", benched("calls"), order(0, rounds), 4 * rounds
    for times, shape in ADVANCES:
        name = f"advance, {shape[0] * shape[1]} vCPUs on {shape[2]} pCPU{'s' * (shape[2] > 1)}"
        yield name, benched("advances"), order(1, times, shape), times
    for kind, name in [(2, "usage file written"), (3, "usage file opened")]:
        yield f"{name}, 128 vCPUs", benched("usage"), order(kind, USAGE_FILES), USAGE_FILES
    loads = [[folder / "load", *load(FULL)] for folder in (port, upstream, upstream)]
    yield "load made, 128 vCPUs on 64 pCPUs", loads, b"", LOAD_CALLS
    reference = upstream / "reference"
    replays = [port / "replay"], [reference, "plain"], [reference, "replay"]
    for name, data in scripts(port):
        yield name, replays, data, len(data) // 20


def once(command, path):
    with open(path, "rb") as data:
        start = time.perf_counter()
        out = subprocess.run(command, stdin=data, stdout=subprocess.PIPE, check=True).stdout
        return time.perf_counter() - start, out


def compare(name, commands, path, calls):
    *pair, answering = commands
    answers = once(answering, path)[1]
    rounds = [[once(command, path) for command in pair] for _ in range(ROUNDS)]
    if not answers or any(port[1] != answers for port, _ in rounds):
        sys.exit(f"bench/times.py: {name}: the answers differ")
    port, upstream = (min(runs[i][0] for runs in rounds) / calls * 1e9 for i in (0, 1))
    print(f"{name}: port {port:.0f} ns a call, upstream {upstream:.0f} ns, ratio {port / upstream:.2f}", flush=True)


def main(args):
    if len(args) != 2:
        print(__doc__.strip(), file=sys.stderr)
        return 2
    with tempfile.TemporaryDirectory() as work:
        path = pathlib.Path(work) / "data"
        for name, commands, data, calls in timed(*map(pathlib.Path, args)):
            path.write_bytes(data)
            compare(name, commands, path, calls)
    return 0


sys.exit(main(sys.argv[1:]))
