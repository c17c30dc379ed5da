"""What the scripts share that hold the programs to upstream: arguments, programs, the reference, failing."""
import argparse
import contextlib
import pathlib
import subprocess
import tempfile

ROOT = pathlib.Path(__file__).resolve().parent.parent
REFERENCE = ROOT / "tests" / "reference"
BUILT = ROOT / "target" / "bin"
SEED = 20261115


class Failed(Exception):
    """Why a script fails, as its last line tells it."""


def status(who, main):
    """What a script ends with."""
    try:
        return main()
    except Failed as failed:
        print(f"{who}: {failed}")
        return 1


def parser(doc):
    made = argparse.ArgumentParser(description=doc, formatter_class=argparse.RawDescriptionHelpFormatter)
    made.add_argument("folder", nargs="?")
    return made


def bounded_parser(doc, records, limit):
    """For a comparison that counts `records` and by default ends after `limit` of them."""
    made = parser(doc)
    made.add_argument(f"--{records}", dest="limit", metavar=records.upper(), type=int, default=limit)
    made.add_argument("--seed", type=int, default=SEED)
    made.add_argument("--seconds", type=int, default=10**6)
    made.add_argument("--programs", default=BUILT, type=pathlib.Path)
    return made


def absent(names, folder):
    """The programs that are not in a folder, in words."""
    return " and ".join(f"no {name}" for name in names if not (folder / name).is_file())


def programs(names, folder, remedy):
    """The paths of programs."""
    if lack := absent(names, folder):
        raise Failed(f"{lack} in {folder}: {remedy}")
    return [folder.resolve() / name for name in names]


def named(folder):
    """Upstream's folder as words of a command."""
    return [folder] if folder else []


@contextlib.contextmanager
def built_reference(folder):
    """The reference, and a folder to work in, both gone afterwards."""
    with tempfile.TemporaryDirectory() as name:
        work = pathlib.Path(name)
        reference = work / "reference"
        if subprocess.run([REFERENCE / "build", reference, *named(folder)]).returncode != 0:
            raise Failed("FAILED: there is nothing to compare with")
        yield reference, work


def comparing(reference, mode, numbers, paths, work):
    """The command that compares; its numbers are a seed, a limit of records and one of seconds."""
    return [reference, mode, *map(str, numbers), *paths, work]


def agree(reference, mode, args, paths, work):
    """Whether programs write what upstream gives, and everything was reached that has to be."""
    numbers = [args.seed, args.limit, args.seconds]
    return subprocess.run(comparing(reference, mode, numbers, paths, work)).returncode == 0
