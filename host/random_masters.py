"""Random masters, and what the tools share that hold Counter to a rule on them: clusters and runs.

Header, file table, program and places of the files are made here, from YAGCD's layouts and without
Counter."""

import argparse
import collections
import json
import random
import struct
import subprocess
import sys
import tempfile
from pathlib import Path

HEADER = 0x440
# A program is as long as its sections say, and at least as its header.
DOL = 0xE4
# From so many masters on every kind has to be met.
ENOUGH = 500


class Differs(Exception):
    """An answer is not what it has to be."""


def expect(same, words):
    if not same:
        raise Differs(words)


# The masters -----------------------------------------------------------------------------


class Master:
    """An image that is zero but for the headers of disc and program and the file table; and what is
    free on it."""

    def __init__(self, rng, start, end, files, more=0, program=None):
        """The table ends at `start`, the disc at `end`, the image `more` bytes behind it. `program` is
        the place of one behind the table; without it there may be one before the table."""
        self.start, self.end, self.length = start, end, end + more
        self.free, at = [], start
        taken = files + ([program] if program else [])
        for offset, size in sorted(taken) + [(end, 0)]:
            if at < offset:
                self.free.append((at, offset - at))
            at = offset + size
        # Empty files take no place, wherever they stand.
        places = (0, start, rng.randrange(end), rng.randint(start, end))
        empty = [(rng.choice(places), 0) for _ in range(rng.randrange(3))]
        self.files = rng.sample(files + empty, len(files + empty))
        table = file_table(self.files)
        fst = start - len(table)
        self.behind, self.program = bool(program), program or before(rng, fst)
        self.parts = [(0, header(rng, fst, len(table), end, self.program)), (fst, table)]
        if self.program:
            self.parts.append((self.program[0], sections(rng, self.program[1])))

    @property
    def used(self):
        return self.end - sum(size for _, size in self.free)

    def sides(self):
        """Every place that the rules tell apart of a program, and whether it lies there on this one."""
        at, length = self.program or (0, 0)
        beside = sum(at in (offset + size, offset - length) for offset, size in self.free)
        yield "no program", not self.program
        yield "a program before the table", bool(self.program) and not self.behind
        yield "a program behind the table, nothing free beside it", self.behind and beside == 0
        yield "a program behind the table, free space on one side", self.behind and beside == 1
        yield "a program behind the table, free space on both sides", self.behind and beside == 2
        yield "a program as long as its header", length == DOL


def before(rng, fst):
    """A place between header and table, now and then: from its first byte on, up to its last, or
    anywhere."""
    if rng.random() < 0.7:
        return None
    start = rng.choice((HEADER, rng.randint(HEADER, fst - DOL)))
    end = rng.choice((fst, start + DOL, rng.randint(start + DOL, fst)))
    return start, end - start


def sections(rng, size):
    """A program's header, with up to four of its 18 sections. The last one to end does so where the
    program does, or within the header where that is all."""
    dol = bytearray(DOL)
    ends = [size if size > DOL else rng.randint(0, DOL)]
    ends += [rng.randint(0, ends[0]) for _ in range(rng.randrange(4))]
    for k, end in zip(rng.sample(range(18), len(ends)), ends):
        offset = rng.randint(0, end)
        struct.pack_into(">I", dol, 4 * k, offset)
        struct.pack_into(">I", dol, 0x90 + 4 * k, end - offset)
    return bytes(dol)


def file_table(files):
    """The root, and these files in it, each with a name of its own."""
    entries, names = [struct.pack(">III", 1 << 24, 0, len(files) + 1)], b""
    for k, (offset, size) in enumerate(files):
        entries.append(struct.pack(">III", len(names), offset, size))
        names += b"%d\0" % k
    return b"".join(entries) + names


def header(rng, fst, table, end, program):
    """boot.bin. The sum of the words at 0x434 and 0x438 is the end of the disc."""
    user = rng.choice((0, end, rng.randrange(end)))
    boot = bytearray(HEADER)
    boot[0:6] = b"GCLE01"
    struct.pack_into(">I", boot, 0x1C, 0xC2339F3D)
    dol = program[0] if program else 0
    struct.pack_into(">7I", boot, 0x420, dol, fst, table, table, 0x81700000, user, end - user)
    return bytes(boot)


def between(rng, edges, more):
    """A master whose table ends at the first of these edges, its disc at the last. What lies between two
    of them is a file, or free; one of the wide spans may be the program."""
    edges = sorted(set(edges))
    spans = [(at, to - at) for at, to in zip(edges, edges[1:])]
    files = [span for span in spans if rng.random() < 0.5]
    wide = [span for span in spans if span[1] >= DOL]
    program = rng.choice(wide) if wide and rng.random() < 0.5 else None
    if program:
        files = [span for span in files if span != program]
        # All between two edges, or its start.
        program = program[0], rng.choice((program[1], DOL, rng.randint(DOL, program[1])))
    return Master(rng, edges[0], edges[-1], files, more, program)


# The programs ----------------------------------------------------------------------------


def ask(probe, questions):
    """The probe's answers to commands on a master, for each pair of a master and commands."""
    feeds = []
    for master, commands in questions:
        patches = [f"patch {at} {data.hex()}" for at, data in master.parts]
        feeds.append((["size 0", f"size {master.length}", *patches, *commands], len(commands)))
    text = "".join(line + "\n" for feed, _ in feeds for line in feed)
    done = subprocess.run([probe], input=text, stdout=subprocess.PIPE, text=True)
    if done.returncode:
        sys.exit(f"the probe ends with {done.returncode}")
    lines = iter(done.stdout.splitlines())
    return [[next(lines, "nothing") for _ in feed][-asked:] for feed, asked in feeds]


def call(program, master, image, command, *words):
    """The exit status of `counter` for the master in a file, and its answer as JSON."""
    with open(image, "wb") as out:
        for at, data in master.parts:
            out.seek(at)
            out.write(data)
        out.truncate(master.length)
    line = [program, command, image, *words, "--json"]
    done = subprocess.run(line, capture_output=True, text=True)
    image.unlink()
    expect(done.stdout.startswith("{"), f"counter ends with {done.returncode}: {done.stderr}")
    return done.returncode, json.loads(done.stdout)


# The run ---------------------------------------------------------------------------------


def read_options(doc, images):
    """By the text at the head of the tool, which ends with its usage; `images` where no number is given."""
    parser = argparse.ArgumentParser(usage=doc[doc.index("usage: ") + 7 :].strip(), add_help=False)
    parser.add_argument("-h", "--help", action="store_true")
    for name, default in (("images", images), ("seed", 1)):
        parser.add_argument("--" + name, type=lambda text: int(text, 0), default=default)
    release = Path(__file__).resolve().parent / "target/release"
    for name in ("probe", "counter"):
        parser.add_argument("--" + name, default=release / name, type=Path)
    options = parser.parse_args()
    if options.help:
        print(doc.strip())
        sys.exit(0)
    if options.images < 1:
        parser.error("--images: at least 1")
    options.probe, options.counter = options.probe.resolve(), options.counter.resolve()
    missing = [str(program) for program in (options.probe, options.counter) if not program.exists()]
    if missing:
        print(f"{parser.prog}: missing: {', '.join(missing)} (host/build makes it)", file=sys.stderr)
        sys.exit(2)
    return options


def hold(options, random_master, checks, kinds):
    """Makes the masters by their seeds, and every check of them: whose it is, what is called, and with
    what. Prints how often each kind was met, which come as its name and whether it was, and ends the
    program."""
    seeds = range(options.seed, options.seed + options.images)
    masters = {seed: random_master(random.Random(seed)) for seed in seeds}
    tally, differ = collections.Counter(), 0
    with tempfile.TemporaryDirectory(prefix="counter-masters-") as folder:
        for name, check, *arguments in checks(options, masters, Path(folder) / "disc.iso"):
            tally[check.__name__.replace("_", " ")] += 1
            try:
                check(*arguments)
            except (Differs, ValueError) as what:  # the second: no number, no JSON
                differ += 1
                print(f"{name}: DIFFERS: {what}", flush=True)
    met = collections.Counter()
    for kind, is_so in kinds(masters):
        met[kind] += is_so
    for kind, times in met.items():
        print(f"{times:7}  {kind}")
    idle = [kind for kind, times in met.items() if options.images >= ENOUGH and not times]
    if idle:
        print("never met: " + ", ".join(idle))
    parts = [f"{times} {what}" for what, times in tally.items()]
    print(f"{len(masters)} masters, {', '.join(parts)}: {f'{differ} differ' if differ else 'all agree'}")
    sys.exit(1 if differ or idle else 0)
