"""The stored sample: the texts that it is made of, with a random part before the last of them, and its files."""
import pathlib
import subprocess

ROOT = pathlib.Path(__file__).resolve().parent.parent.parent
# the first opens with a call before any build, the last closes with a record that is cut off
EXAMPLES = ["refusals", "first", "payment-run", "small-plan", "warm-pcpu", "month-end"]
BEFORE = [f"examples/{name}.txt" for name in EXAMPLES] + ["tests/sample/situations.txt"]
LAST = "tests/sample/edges.txt"
# not stored: upstream's sum overflows in it
HELD = "tests/sample/held.txt"
PROGRAMS = ["replay", "trace"]


def output(command, data=b""):
    return subprocess.run(command, input=data, stdout=subprocess.PIPE, check=True).stdout


def encoded(part):
    return output([ROOT / "tools" / "script", "encode", ROOT / part])


def before():
    return b"".join(encoded(part) for part in BEFORE)


def stored(program, name):
    return ROOT / "crates" / program / name


def stale(who, files):
    """Names the stored files that do not hold this; whether there are any."""
    paths = [path for path, data in files.items() if not path.is_file() or path.read_bytes() != data]
    for path in paths:
        print(f"{who}: {path.relative_to(ROOT)} is not what upstream gives")
    return bool(paths)


def store(files):
    for path, data in files.items():
        path.parent.mkdir(parents=True, exist_ok=True)
        path.write_bytes(data)
        print(f"{path.relative_to(ROOT)}: {len(data)} bytes")
