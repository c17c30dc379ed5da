"""What the tools share: how a tool begins and ends, its streams, the proved programs as their sources are now, and what an
answer means."""
import signal


def caught(number):
    """Whether a signal is not ignored, as one is that a shell sends to nobody in the background."""
    return signal.getsignal(number) != signal.SIG_IGN


# until a tool is under way, an interrupt ends it with no word
if caught(signal.SIGINT):
    signal.signal(signal.SIGINT, signal.SIG_DFL)

import contextlib
import ctypes
import errno
import fcntl
import hashlib
import os
import pathlib
import select
import shutil
import subprocess
import threading

ROOT = pathlib.Path(__file__).resolve().parent.parent

ANSWERS = [
    ("Done", ""),
    ("BadDomain", "there is no such domain"),
    ("BadVcpu", "the domain has no such vCPU"),
    ("BadPcpu", "there is no such pCPU"),
    ("FoundRunnable", "the call does not accept a vCPU that is Runnable"),
    ("PcpuBusy", "another vCPU holds that pCPU"),
    ("NotAffine", "the mask does not admit that pCPU"),
    ("TooLarge", "a host has at most 16 domains, 8 vCPUs in each, 64 pCPUs"),
    ("Unsound", "the host's records contradict each other"),
    ("BadScript", "no call of this kind, no host built yet, or a record cut off"),
    ("FoundOffline", "the call does not accept a vCPU that is Offline"),
    ("FoundRunning", "the call does not accept a vCPU that is Running"),
    ("FoundBlocked", "the call does not accept a vCPU that is Blocked"),
    ("BadFile", "not a usage file"),
    ("NotInFile", "the usage file has no such domain"),
    ("BadSeed", "a load's seed is zero"),
]


def meaning(answer):
    name, why = ANSWERS[answer] if 0 <= answer < len(ANSWERS) else ("?", "")
    return f"{name}: {why}" if why else name


# ---- how a tool begins and ends


class Bad(Exception):
    """What is wrong with what a tool was given: status 1."""


class Misused(Exception):
    """What is wrong with its arguments: status 2."""


class Killed(BaseException):
    """A signal that asks the tool to end."""


def interrupted(number, _):
    signal.signal(number, signal.SIG_IGN)  # once is enough
    raise KeyboardInterrupt if number == signal.SIGINT else Killed(number)


def forms(doc):
    """The part of a tool's text that has its forms."""
    return next(part for part in doc.split("\n\n") if part.startswith("  tools/"))


def ended(name, doc, main, args):
    """What a tool ends with: 0, 1 where something is refused or fails, 2 for bad arguments, 130 where it is interrupted. Nobody
    reading its output any more is no failure to speak of: there is no word, and 1."""
    try:
        opened()
        for number in (signal.SIGINT, signal.SIGTERM, signal.SIGHUP):
            if caught(number):
                signal.signal(number, interrupted)
        if args[:1] in (["--help"], ["-h"], ["help"]):
            put(doc.strip() + "\n")
            return 0
        return main(args)
    except Misused as wrong:
        say(f"usage:\n{forms(doc)}\n{name}: {wrong}")
        return 2
    except Bad as bad:
        say(str(bad))
    except BrokenPipeError:
        pass
    except OSError as error:
        say(f"{name}: {error.filename or 'the system'}: {error.strerror}")
    except MemoryError:
        say(f"{name}: there is not enough memory")
    except KeyboardInterrupt:
        return 130
    except Killed as killed:
        signal.signal(killed.args[0], signal.SIG_DFL)
        os.kill(os.getpid(), killed.args[0])
    return 1


# ---- streams. Nothing is left to Python's own, which trace back where they are closed, full, or read by nobody


def opened():
    """In place of a stream that is closed, one that cannot be used: the number is then nobody else's."""
    for number, flags in ((0, os.O_WRONLY), (1, os.O_RDONLY), (2, os.O_WRONLY)):
        try:
            os.fstat(number)
        except OSError:
            os.open(os.devnull, flags)


def why(error):
    """A stream that was closed, or was a folder and was closed for it, has a number that cannot be used."""
    return "it is closed, or a folder" if error.errno == errno.EBADF else error.strerror


def chunks():
    """Standard input, bit by bit."""
    try:
        while data := os.read(0, 1 << 20):
            yield data
    except OSError as error:
        raise Bad(f"standard input cannot be read: {why(error)}") from None


def contents(name):
    """The bytes of a file; - is standard input."""
    return b"".join(chunks()) if name == "-" else pathlib.Path(name).read_bytes()


def put(text):
    """Text or bytes, all of it, on standard output."""
    data = memoryview(text if isinstance(text, bytes) else text.encode())
    while data:
        try:
            data = data[os.write(1, data) :]
        except BlockingIOError:
            select.select([], [1], [])
        except BrokenPipeError:
            raise
        except OSError as error:
            raise Bad(f"standard output takes no more: {why(error)}") from None


def show(lines):
    put("".join(f"{line}\n" for line in lines))
    return 0


def say(line):
    """On standard error, if that can be: there is nowhere else to say it."""
    with contextlib.suppress(OSError):
        os.write(2, f"{line}\n".encode(errors="backslashreplace"))


# ---- arguments


def number(word, bits, name):
    """A number, decimal or hexadecimal after 0x, of so many bits."""
    digits, base = (word[2:], 16) if word[:2] in ("0x", "0X") else (word, 10)
    try:
        if not digits.isascii() or not digits.isalnum():
            raise ValueError
        value = int(digits, base)
    except ValueError:
        raise Bad(f"{name} '{word}' is not a number") from None
    if value >= 2**bits:
        raise Bad(f"{name} {word} is out of range: 0 to {2**bits - 1}")
    return value


def argument(word, bits, name):
    """The same, of an argument."""
    try:
        return number(word, bits, name)
    except Bad as bad:
        raise Misused(bad) from None


def chosen(commands, args):
    """Runs the command that the arguments name; each stands with the least and the most arguments that it takes."""
    if not args or args[0] not in commands:
        wanted = f"no command '{args[0]}'" if args else "a command is wanted"
        raise Misused(f"{wanted}: {', '.join(commands)}")
    command, least, most = commands[args[0]]
    given = len(args) - 1
    if given > most:
        raise Misused(f"{args[0]} has no argument for '{args[most + 1]}'")
    if given < least:
        raise Misused(f"{args[0]} wants {least} argument{'' if least == 1 else 's'}, not {given}")
    return command(*args[1:])


# ---- the programs


def ends_with_the_tool():
    """A program does not outlive the tool that started it, however that ends."""
    with contextlib.suppress(OSError, AttributeError):
        ctypes.CDLL(None).prctl(1, signal.SIGKILL)


@contextlib.contextmanager
def started(command, **words):
    child = subprocess.Popen(command, preexec_fn=ends_with_the_tool, **words)
    try:
        yield child
    finally:
        if child.poll() is None:
            child.kill()
        child.wait()


def program(name):
    """The program as its sources are now; without rt, as it was built."""
    path = ROOT / "target" / "bin" / name
    if shutil.which("rt"):
        # one at a time: two checks of one repository, as of tools in one pipe, would spoil each other's
        with open(ROOT / "crates.txt") as held:
            fcntl.flock(held, fcntl.LOCK_EX)
            now = sources()
            if kept(path) != standing(path, now):
                build(name)
                keep(path, standing(path, now))
    if not path.is_file():
        raise Bad(f"there is no {path.relative_to(ROOT)}: `tools/build {name}` builds it, with the toolchain in TOOLCHAIN")
    return path


def build(name):
    """Proves and builds what has changed, and runs the program on no input; of what rt says nothing is shown but where it fails."""
    note = threading.Timer(5, say, [f"{name} is proved and built first, which can take some minutes"])
    note.daemon = True
    note.start()
    words = {"stdin": subprocess.DEVNULL, "stdout": subprocess.DEVNULL, "stderr": subprocess.PIPE}
    try:
        with started(["rt", "run"], cwd=ROOT / "crates" / name, text=True, errors="replace", **words) as run:
            lines = [line for line in run.stderr if not line.startswith(("library ", "statements "))]
    finally:
        note.cancel()
    if run.returncode != 0:
        raise Bad("".join(lines[-40:]) + f"{name} is not proved as its sources are now")
    put_built(name)


def put_built(name):
    """The program that stands in its crate's folder, where the tools take it."""
    (ROOT / "target" / "bin").mkdir(parents=True, exist_ok=True)
    shutil.copy(ROOT / "crates" / name / "out" / name, ROOT / "target" / "bin" / name)


def built_now(name):
    """The program as `rt ci` has just built it of these sources."""
    path = ROOT / "target" / "bin" / name
    put_built(name)
    keep(path, standing(path, sources()))
    return path


# ---- what a program was built from, kept beside it: where nothing has changed, nothing has to be proved


def digest(files):
    made = hashlib.sha256()
    for path in files:
        data = path.read_bytes()
        made.update(f"{path.relative_to(ROOT)} {len(data)}\n".encode())
        made.update(data)
    return made.hexdigest()


def sources():
    """Of every source and the toolchain."""
    version = subprocess.run(["rt", "version"], stdin=subprocess.DEVNULL, stdout=subprocess.PIPE).stdout.decode().strip()
    parts = [part for part in (ROOT / "crates").glob("*/*") if part.name != "out"]
    files = sorted(path for part in parts for path in (part, *part.rglob("*")) if path.is_file())
    return f"{digest([ROOT / 'crates.txt', *files])} {version}"


def standing(path, now):
    """The program, and those sources."""
    return f"{digest([path]) if path.is_file() else 'none'} {now}\n"


def note_of(path):
    return ROOT / "target" / "tools" / f"{path.name}.built"


def kept(path):
    with contextlib.suppress(OSError):
        return note_of(path).read_text()
    return None


def keep(path, text):
    with contextlib.suppress(OSError):  # in a tree that cannot be written it is asked each time
        note_of(path).parent.mkdir(exist_ok=True)
        note_of(path).write_text(text)


# ---- a program run


def read_by_nobody():
    """Whether standard output is a pipe whose reader is gone."""
    poll = select.poll()
    poll.register(1, 0)
    return any(what & select.POLLERR for _, what in poll.poll(0))


def feed(child, data):
    """Hands a program its input; it may end before it has read all of it."""
    with contextlib.suppress(BrokenPipeError):
        for part in data:
            rest = memoryview(part)
            while rest:
                rest = rest[os.write(child.stdin.fileno(), rest) :]
    child.stdin.close()
    child.stdin = None


def run(name, args, data=None, output=None):
    """A program's status, which it cannot set itself: by what it says on standard error. And what it wrote. Its input is that
    of the tool, or data, bit by bit; its output that of the tool, or handed back where that is a pipe."""
    words = {"stdout": output, "stderr": subprocess.PIPE}
    with started([program(name), *args], stdin=None if data is None else subprocess.PIPE, **words) as child:
        if data is not None:
            feed(child, data)
        wrote, said = child.communicate()
    if said.endswith(b": standard output takes no more\n") and read_by_nobody():
        return 1, wrote  # as where the tool itself writes into it: without a word
    if said:
        say(said.decode(errors="replace").rstrip("\n"))
    elif child.returncode != 0 and child.returncode != -signal.SIGPIPE:
        raise Bad(f"{name} ended with status {child.returncode}")
    return (2 if said.startswith(b"usage:") else 1) if said else int(child.returncode != 0), wrote


def output(name, data):
    """What a program writes of some bytes."""
    with started([program(name)], stdin=subprocess.PIPE, stdout=subprocess.PIPE, stderr=subprocess.PIPE) as child:
        wrote, said = child.communicate(data)
    if said or child.returncode != 0:
        raise Bad(said.decode(errors="replace").rstrip("\n") or f"{name} ended with status {child.returncode}")
    return wrote.decode()
