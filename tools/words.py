"""Scripts in words and in records of 20 bytes: one made of the other. `tools/script --help` has the words."""
import struct

from programs import Bad, contents, number

RECORD = struct.Struct(">HHIIQ")

FORMS = [
    "build DOMAINS domains VCPUS vcpus PCPUS pcpus slice SLICE",
    "admit DOMAIN/VCPU",
    "run DOMAIN/VCPU on PCPU at CLOCK",
    "preempt DOMAIN/VCPU at CLOCK",
    "block DOMAIN/VCPU at CLOCK",
    "wake DOMAIN/VCPU",
    "offline DOMAIN/VCPU at CLOCK",
    "mask DOMAIN/VCPU MASK",
    "weight DOMAIN/VCPU WEIGHT",
    "advance CLOCK",
    "boost SWITCH",
]
KINDS = {form.split()[0]: kind for kind, form in enumerate(FORMS)}

# where a field stands in the record, its bits, what a message calls it
FIELDS = {
    "DOMAINS": (1, 16, "domain count"),
    "DOMAIN": (1, 16, "domain"),
    "VCPUS": (2, 32, "vCPU count"),
    "VCPU": (2, 32, "vCPU"),
    "PCPUS": (3, 32, "pCPU count"),
    "PCPU": (3, 32, "pCPU"),
    "WEIGHT": (3, 32, "weight"),
    "SLICE": (4, 64, "slice"),
    "CLOCK": (4, 64, "clock"),
    "READING": (4, 64, "reading"),
    "MASK": (4, 64, "mask"),
    "SWITCH": (4, 64, "boost"),
}
ALL = 2**64 - 1
# the kinds whose value is a clock
CLOCKED = {kind for kind, form in enumerate(FORMS) if "CLOCK" in form.split()}


# ---- words to records


def value(word, field):
    _, bits, name = FIELDS[field]
    return number(word, bits, name)


def pcpu_range(part):
    first, dash, last = part.partition("-")
    ends = [value(first, "PCPU"), value(last if dash else first, "PCPU")]
    if max(ends) > 63:
        raise Bad(f"pCPU {part} is out of range in a mask: 0 to 63")
    if ends[0] > ends[1]:
        raise Bad(f"pCPUs {part} run backwards")
    return range(ends[0], ends[1] + 1)


def mask(words):
    if words == ["all"]:
        return ALL
    if words == ["none"]:
        return 0
    if len(words) == 2 and words[0] == "cpus":
        return sum(1 << p for p in {p for part in words[1].split(",") for p in pcpu_range(part)})
    if len(words) != 1:
        raise Bad("a mask is a number, all, none, or cpus 0,2,5-7")
    return value(words[0], "MASK")


def switch(word):
    if word not in ("on", "off"):
        raise Bad(f"boost is on or off, not '{word}'")
    return int(word == "on")


def fits(wanted, word):
    """A word of a form; counts may be singular."""
    return word == wanted or (wanted in ("domains", "vcpus", "pcpus") and word + "s" == wanted)


def call(words):
    """One call as a record."""
    if words[0] not in KINDS:
        raise Bad(f"no call '{words[0]}'; calls are {', '.join(KINDS)}, raw")
    kind = KINDS[words[0]]
    form = FORMS[kind].split()
    record = [kind, 0, 0, 0, 0]
    if form[-1] == "MASK" and len(words) > 2:
        record[4] = mask(words[2:])
        form, words = form[:2], words[:2]
    if len(words) != len(form) or any(f.islower() and not fits(f, w) for f, w in zip(form, words)):
        raise Bad(f"written as: {written(kind)}")
    for part, word in zip(form, words):
        if part == "DOMAIN/VCPU":
            domain, slash, vcpu = word.partition("/")
            if not slash:
                raise Bad(f"'{word}' is not D/V, a domain and a vCPU")
            record[1:3] = value(domain, "DOMAIN"), value(vcpu, "VCPU")
        elif part == "SWITCH":
            record[4] = switch(word)
        elif part in FIELDS:
            record[FIELDS[part][0]] = value(word, part)
    return RECORD.pack(*record)


def written(kind):
    """The form of a call as help shows it."""
    words = FORMS[kind].replace("DOMAIN/VCPU", "D/V").replace("SWITCH", "on|off").replace("SLICE", "TICKS")
    return " ".join("N" if w in ("DOMAINS", "VCPUS", "PCPUS") else w for w in words.split())


def raw(words):
    digits = "".join(words[1:])
    try:
        record = bytes.fromhex(digits)
    except ValueError:
        raise Bad("raw takes bytes as pairs of hexadecimal digits") from None
    if not 1 <= len(record) <= RECORD.size:
        raise Bad(f"raw takes 1 to {RECORD.size} bytes, not {len(record)}")
    return record


def lines(data):
    """The bytes of each line before a comment. A line ends at a newline and nowhere else; a byte order mark is skipped."""
    mark = b"\xef\xbb\xbf"
    return [line.split(b"#")[0] for line in data[len(mark) * data.startswith(mark) :].split(b"\n")]


def encode(data, name):
    """The records of a text and the messages for its bad lines."""
    records, messages, cut = [], [], None
    for line, text in enumerate(lines(data), 1):
        try:
            words = text.decode().split()
        except UnicodeDecodeError:
            messages.append(f"{name}:{line}: what is not a comment has to be UTF-8")
            continue
        if not words:
            continue
        if cut:
            messages.append(f"{name}:{cut}: a record of fewer than {RECORD.size} bytes has to be the last")
            cut = None
        try:
            record = raw(words) if words[0] == "raw" else call(words)
            records.append(record)
            cut = line if len(record) < RECORD.size else None
        except Bad as bad:
            messages.append(f"{name}:{line}: {bad}")
    return records, messages


def read_words(name):
    """The records of a file of words, or of standard input for -; its bad lines are told, all of them."""
    records, messages = encode(contents(name), "<stdin>" if name == "-" else name)
    if messages:
        raise Bad("\n".join(messages))
    return records


# ---- records to words


def split(data):
    return [data[i : i + RECORD.size] for i in range(0, len(data), RECORD.size)]


def field(name, fields):
    n = fields[FIELDS[name][0]]
    if name == "SWITCH":
        return "on" if n else "off"
    if name == "MASK":
        return {0: "none", ALL: "all"}.get(n, hex(n))
    return str(n)


def phrase(fields):
    """The words of a record, as if it held nothing that its kind does not use."""
    words = []
    for part in FORMS[fields[0]].split():
        if part == "DOMAIN/VCPU":
            words.append(f"{fields[1]}/{fields[2]}")
        elif part in FIELDS:
            words.append(field(part, fields))
        else:
            words.append(part.rstrip("s") if words and words[-1] == "1" else part)
    return words


def decode(record):
    """The words of a record; raw where the words would not give the same bytes back."""
    if len(record) == RECORD.size:
        fields = RECORD.unpack(record)
        if fields[0] < len(FORMS):
            words = phrase(fields)
            if call(words) == record:
                return " ".join(words)
    return "raw " + record.hex()


def is_call(record):
    return len(record) == RECORD.size and RECORD.unpack(record)[0] < len(FORMS)


# ---- clocks


def latest(records):
    """The latest clock of some records, 0 where they have none."""
    whole = (RECORD.unpack(record) for record in records if is_call(record))
    return max((fields[4] for fields in whole if fields[0] in CLOCKED), default=0)


def past(clock, reading):
    """What has to be said of a script whose latest clock is after a reading, if it is."""
    if clock <= reading:
        return ""
    return (
        f"warning: the script has clocks up to {clock}, after the reading {reading}: intervals that it has closed count whole, "
        f"so that this can be more than had been used at {reading}"
    )
