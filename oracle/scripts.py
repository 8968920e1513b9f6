#!/usr/bin/env python3
"""Makes the scripts of host/replay (host/replay/scripts, format: host/replay/SOURCES.md), but for the sampled ones.

    oracle/scripts.py ORACLE    ORACLE: the program that oracle/build makes

The calls stand below. An answer comes from the unchanged Rust, which carries out the same call, with the checksum of its image.
Where the rules (docs/RULES.md) say something else than the Rust, or have a limit that the Rust has not, the answer is written here by hand,
with the reason; the script then insists that the Rust says something else (but for a listing, which the Rust has not, and a window that it
cannot make). A call that the Rust has not or means otherwise, and one with a name that its codec does not turn back, is answered by hand too,
and so is what a record holds; the script insists that the Rust's used total and its largest free region have moved as the record has.
Where a program lies behind the table, the Rust's free list is taken with the program out of it, and nothing else of its space. Each call ends
with a comment that says where its answer comes from. Nothing here comes from the program `replay` or from what it tests."""
import os
import subprocess
import sys

HERE = os.path.dirname(os.path.abspath(__file__))
SCRIPTS = os.path.join(HERE, "..", "host", "replay", "scripts")

NUMBERS = {
    "Io:UnexpectedEof": 1, "Text:Other:Io:UnexpectedEof": 1, "WiiNotSupported": 2, "InvalidMagic": 3, "Fst:Io:UnexpectedEof": 5,
    "Fst:UnrecognizedKind": 6, "Fst:RootIsNotDirectory": 7, "Fst:StringTable:MissingNullTerminator": 8, "Fst:InvalidNextIndex": 10,
    "Fst:StringTable:InvalidOffset": 11, "Fst:Decode": 12, "Fst:Encode": 12, "Fst:UnsafeName": 13, "Oracle:NoSuchEntry": 15, "Fst:ExpectedFile": 16,
    "Fst:ExpectedDirectory": 17, "Fst:NotFound": 18, "Fst:AlreadyExists": 19, "OverlappingMove": 20, "NotEnoughSpace": 21,
}



class Oracle:
    def __init__(self, path):
        self.process = subprocess.Popen([path], stdin=subprocess.PIPE, stdout=subprocess.PIPE, stderr=subprocess.DEVNULL, text=True)

    def __call__(self, line):
        self.process.stdin.write(line + "\n")
        self.process.stdin.flush()
        return self.process.stdout.readline().rstrip("\n")

    def setting(self, line):
        answer = self(line)
        assert answer.startswith("ok"), (line, answer)
        return answer[3:]

    def checksum(self):
        return self.setting("hash").split()[0]


class Script:
    """Writes the lines, and drives the oracle."""

    def __init__(self, oracle):
        self.oracle = oracle
        self.lines = []
        self.rust = self.rules = self.images = 0
        self.held = None  # the record in use: used bytes, the largest free region, and of team 0 taken bytes and edits; its limit is MOST

    def heading(self, text):
        self.lines.append("# " + text)

    def lend(self, words, bytes_, list_=0x400):
        self.lines.append(f"lend {n(words)} {n(bytes_)} {n(list_)}")

    def size(self, length):
        self.lines.append(f"size {n(length)}")
        self.oracle.setting(f"size {length}")

    def patch(self, at, bytes_):
        self.lines.append(f"patch {n(at)} :{bytes_.hex()}")
        self.oracle.setting(f"patch {at} {bytes_.hex()}")

    def fill(self, at, times, bytes_):
        self.lines.append(f"fill {n(at)} {n(times * len(bytes_))} :{bytes_.hex()}")
        self.oracle.setting(f"patch {at} {(bytes_ * times).hex()}")

    def save(self):
        self.lines.append("save")
        self.oracle.setting("save kept")

    def load(self):
        self.lines.append("load")
        self.oracle.setting("load kept")

    def bytes_at(self, at, length):
        return bytes.fromhex(self.oracle.setting(f"peek {at} {length}"))

    def peek(self, at, length):
        """The image's bytes, by a window on them."""
        self.window(at, length, 0)
        self.read(length, f"r:{length}", note="the bytes there")

    def call(self, line, answer, source):
        """A line with its answer: numbers, and at the end a text."""
        shown = [str(answer[0])] + [n(a) if isinstance(a, int) else a if isinstance(a, str) else text(a) for a in answer[1:]]
        self.lines.append(f"{line} = {' '.join(shown)}  # {source}")
        if source.startswith("Rust"):
            self.rust += 1
        else:
            self.rules += 1

    # ---- edits

    def edit(self, name, *arguments, note="", rules=None, why="", image=None, differs=True, record=None):
        """An edit. `rules`: the answer by the rules, `ok`, `ok NUMBER` or the number of a refusal, and `why` the Rust's is not it.
        `image`: where they accept what the Rust refuses or is not asked, a function that has the oracle make the image that they
        describe. `differs`: whether the Rust has to say something else. `record`: used bytes, the largest free region and the edits that
        an accepted edit makes of the record in use."""
        before = self.oracle("used") if self.held else ""
        line = " ".join([CALLS.get(name, name)] + [shown(a) for a in arguments])
        command = " ".join([COMMANDS.get(name, name)] + [str(a) if isinstance(a, int) else a.hex() or "-" for a in arguments])
        if rules is None:
            answer, source = as_answer(self.oracle(command), line), "Rust" + (f"; {note}" if note else "")
        else:
            answer, source = self.by_hand(command, line, rules, image, differs), f"rules: {why}"
        if self.held and answer[0] == 0:
            self.moved_to(before, record, line)
        self.call(line, [answer[0], int(self.oracle.checksum(), 16)] + answer[1:] + self.record_held(), source)

    def by_hand(self, command, line, rules, image, differs):
        answer = [rules] if isinstance(rules, int) else [0] + [int(word) for word in rules.split()[1:]]
        self.oracle.setting("save before")
        said = self.oracle(command)
        image_said = self.oracle.checksum()
        self.oracle.setting("load before")
        if image:
            image()
        agrees = is_answer(said) and as_answer(said, line) == answer and image_said == self.oracle.checksum()
        assert not differs or not agrees, (line, "the Rust agrees", said)
        return answer

    # ---- records

    def record(self, *numbers):
        """From here on edits take this record, in which team 0 may take anything; without numbers none."""
        self.held = None
        if numbers:
            used, largest, edits = numbers
            self.held = [used, largest, 0, edits]
        self.lines.append(" ".join(["record"] + [n(a) if isinstance(a, int) else a for a in self.record_held()]))

    def record_held(self):
        """The words of the record in use, if there is one; the other teams are all 0."""
        if not self.held:
            return []
        used, largest, taken, edits = self.held
        return [used, largest, f"{n(MOST)}:0:{n(taken)}:{n(edits)}"]

    def make_record(self, used, largest, why):
        """`make_record`, which the Rust has not: used bytes and the largest free region. What is not free is used."""
        sizes = [size for _, size in self.free_said()]
        assert [used, largest] == [int(self.oracle.setting("total")) - sum(sizes), max(sizes, default=0)], (why, sizes)
        self.held = [used, largest, 0, 0]
        self.call(f"make_record {n(MOST)}", [0] + self.record_held(), f"rules: {why}")

    def moved_to(self, before, record, line):
        """The record after an accepted edit: the Rust's used total has moved by as much, and its largest free region is this."""
        moved = int(self.oracle.setting("used")) - int(before.split()[1])
        largest = max((size for _, size in self.free_said()), default=0)
        used, _, taken, edits = self.held
        assert list(record) == [used + moved, largest, edits + 1], (line, record, moved, largest)
        self.held = [used + moved, largest, max(0, taken + moved), edits + 1]

    # ---- calls that read

    def look(self, name, *arguments, note="", rules=None, why="", differs=True):
        """A call that reads. `rules`: the answer by the rules, a number, or 0 and the words of the answer; `differs` as for an edit."""
        line = " ".join([name] + [n(a) if isinstance(a, int) else text(a) for a in arguments])
        said = self.said(name, arguments)
        if rules is None:
            assert said, (line, "no answer by the Rust")
            return self.call(line, said, "Rust" + (f"; {note}" if note else ""))
        answer = [rules] if isinstance(rules, int) else list(rules)
        assert not differs or said != answer, (line, "the Rust agrees", said)
        return self.call(line, answer, f"rules: {why}")

    def said(self, name, arguments):
        """What the Rust says, in the form of a line; None where it says nothing that has a number."""
        commands = {"open": "open", "entry": "entry", "lookup": "lookup", "max_file_size": "maxfile", "max_region_size": "maxregion",
                    "allocate": "alloc", "free_regions": "free", "totals": "total", "header": "header", "open_dol": "dol", "open_file": "maxfile"}
        if name not in commands:
            return None
        command = " ".join([commands[name]] + [str(a) if isinstance(a, int) else a.hex() or "-" for a in arguments])
        said = self.oracle(command)
        words = said.split()
        if words[0] != "ok":
            number = {"Dol:Io:UnexpectedEof": 24}.get(words[-1], NUMBERS.get(words[-1]))
            return [number] if words[0] == "err" and number else None
        if name in ("entry", "lookup"):
            return self.entry_said(int(words[1]) if name == "lookup" else arguments[0])
        if name in ("open", "totals"):
            opened = self.opened_said()
            return [0] + (opened if name == "open" else [opened[2], opened[4]])
        if name == "header":
            assert words[-1] == "written=same", said
            return [0, fnv(self.bytes_at(0, 0x440))]
        if name == "open_dol":
            at = int.from_bytes(self.bytes_at(0x420, 4), "big")
            header = self.bytes_at(at, 0xE4)
            return [0, at, int(words[2]), 0] + [int.from_bytes(header[k:k + 4], "big") for k in range(0, 0xE4, 4)]
        if name == "open_file":
            return [0] + self.entry_said(arguments[0])[3:] + [0]
        numbers = [int(number) for word in words[1:] for number in word.split(":")]
        return [0] + ([len(numbers) // 2] + numbers if name == "free_regions" else numbers)

    def entry_said(self, number):
        kind, *numbers = self.oracle.setting(f"entry {number}").split(":")
        return [0, int(numbers[0]), int(kind == "d"), int(numbers[1]), int(numbers[2])]

    def opened_said(self):
        fst = self.bytes_at(0x424, 8)
        entries = len(self.oracle.setting("list").split())
        return [int.from_bytes(fst[:4], "big"), int.from_bytes(fst[4:], "big"), int(self.oracle.setting("total")), entries,
                int(self.oracle.setting("used"))]

    def clusters(self, answer, why):
        """`free_clusters`, which the Rust has not. `answer`: the number of a refusal, or before, clusters and rest of each region;
        together they have to be the sizes of the Rust's free regions."""
        if isinstance(answer, int):
            return self.call("free_clusters", [answer], f"rules: {why}")
        sizes = [before + 0x8000 * clusters + rest for before, clusters, rest in answer]
        assert sizes == [size for _, size in self.free_said()], (why, sizes)
        return self.call("free_clusters", [0, len(answer)] + [number for region in answer for number in region], f"rules: {why}")

    def free_said(self):
        """The Rust's free regions, without a program that lies behind the table."""
        numbers = self.said("free_regions", ())[2:]
        regions = list(zip(numbers[::2], numbers[1::2]))
        at, length = self.program_said()
        if at < int.from_bytes(self.bytes_at(0x424, 4), "big"):
            return regions
        parts = [part for offset, size in regions for part in
                 ((offset, min(offset + size, at) - offset), (max(offset, at + length), offset + size - max(offset, at + length)))]
        return [part for part in parts if part[1] > 0]

    def program_said(self):
        """DOL offset, and the larger of the Rust's file size and 0xE4; 0 and 0 where it names no program."""
        at = int.from_bytes(self.bytes_at(0x420, 4), "big")
        return (at, max(self.said("open_dol", ())[2], 0xE4)) if at else (0, 0)

    def program(self, offset, size, why):
        """`program`, which the Rust has not; its header is read by the Rust."""
        assert (offset, size) == self.program_said(), (why, self.program_said())
        return self.call("program", [0, offset, size], f"rules: {why}")

    def free_regions(self):
        """The Rust's free list after the program is taken out of it."""
        regions = self.free_said()
        return self.call("free_regions", [0, len(regions)] + [number for region in regions for number in region], "Rust; the program taken out")

    def text(self, name, room, note="", rules=None, why=""):
        """`list` or `report` into a buffer of so many bytes; what a call does not write there are dots. `rules`: the number of a refusal, or
        the text, by the rules."""
        line = f"{name} {n(room)}"
        if rules is None:
            listing = self.listing_said()
            source = "Rust" + (f"; {note}" if note else "")
        else:
            listing, source = rules, f"rules: {why}"
        if isinstance(listing, int):
            return self.call(line, [listing], source)
        assert len(listing) <= room <= 4096, (line, len(listing))
        return self.call(line, [0, len(listing), listing], source)

    def listing_said(self):
        said = self.oracle("listing").split()
        assert said[0] == "ok", said
        return bytes.fromhex(said[1])

    # ---- windows: one is kept, and all that was asked of it, since the oracle makes a window anew for each command

    def window(self, start, length, position):
        self.lines.append(f"window {n(start)} {n(length)} {n(position)}")
        self.ops, self.opener = [f"s:{position}"] if position else [], f"window {start} {length}"

    def file_window(self, number, note=""):
        self.look("open_file", number, note=note)
        self.ops, self.opener = [], f"filewindow {number}"

    def dol_window(self, note=""):
        self.look("open_dol", note=note)
        self.ops, self.opener = [], "dolwindow"

    def ask_window(self, op):
        self.ops.append(op)
        return self.oracle.setting(" ".join([self.opener] + self.ops)).split()[-1].split("=")[1]

    def seek(self, whence, distance, note="", rules=None, why=""):
        line = f"seek_{whence} {n(distance % 2 ** 64)}"
        shown = f"{distance}, " if distance < 0 else ""
        if rules is not None:
            return self.call(line, [rules] if isinstance(rules, int) else rules, f"rules: {shown}{why}")
        said = self.ask_window(f"{whence[0]}:{distance}")
        answer = [23] if said == "err:Io:InvalidInput" else [0, int(said)]
        return self.call(line, answer, "Rust" + (f"; {distance}" if distance < 0 else "") + (f"; {note}" if note else ""))

    def read(self, length, op=None, note="", rules=None, why=""):
        if rules is not None:
            return self.call(f"read {n(length)}", rules, f"rules: {why}")
        count, shown = self.ask_window(op or f"r:{length}").split(":")
        count = int(count)
        bytes_ = bytes.fromhex(shown)[:count] + b"." * (length - count)
        return self.call(f"read {n(length)}", [0, count, int(self.position()), bytes_], "Rust" + (f"; {note}" if note else ""))

    def position(self):
        return self.oracle.setting(" ".join([self.opener] + self.ops + ["c:0"])).split()[-1].split("=")[1]


CALLS = {"move": "move_file", "resize": "resize_file", "replace": "fill_file", "replace_zeros": "fill_zeros"}
COMMANDS = {"insert_directory": "insert_dir", "make_directories": "mkdirs"}


def n(number):
    return str(number) if number < 10 else hex(number)


def text(bytes_):
    """A text as it is, or in base 16."""
    if b'"' not in bytes_ and all(0x20 <= b <= 0x7E or b == 10 for b in bytes_):
        return '"' + bytes_.decode("ascii") + '"'
    return ":" + bytes_.hex()


class Clip:
    """So many bytes: a text time and again, each time larger by `step`."""

    def __init__(self, count, text=b"\xC1\x11", step=7):
        self.count, self.text, self.step = count, text, step

    def bytes(self):
        return bytes((self.text[k % len(self.text)] + k // len(self.text) * self.step) % 256 for k in range(self.count))

    def hex(self):
        return self.bytes().hex()


def shown(argument):
    """A number, a text or a clip as a line has it."""
    if isinstance(argument, Clip):
        return f"{n(argument.count)} {n(argument.step)} {text(argument.text)}"
    return n(argument) if isinstance(argument, int) else text(argument)


def fnv(bytes_):
    """FNV-1a of 64 bits."""
    sum_ = 0xCBF29CE484222325
    for b in bytes_:
        sum_ = (sum_ ^ b) * 0x100000001B3 % 2 ** 64
    return sum_


def is_answer(said):
    """Whether the Rust's answer is one that has a number, and a refusal left the image as it was."""
    words = said.split()
    return words[0] == "ok" or (words[0] == "err" and words[1] in NUMBERS and words[2] == "same")


def as_answer(said, line):
    assert is_answer(said), (line, said)
    words = said.split()
    return [0] + [int(word) for word in words[1:]] if words[0] == "ok" else [NUMBERS[words[1]]]


def word(value):
    return value.to_bytes(4, "big")


def file(name, offset, size):
    return word(name) + word(offset) + word(size)


def directory(name, parent, following):
    return word(0x01000000 | name) + word(parent) + word(following)


def nested_table(b, ab):
    """`d` with the empty file `ab`, past the disc end, and `d/d` with the file `b` in it; the file `ab`; `ab` again, empty and in the table.
    Texts are shared, `b` is the end of `ab`, the root has a name, and no stored parent is right."""
    table = directory(9, 7, 7) + directory(0, 6, 5) + file(2, 0xFFFFFFFF, 0) + directory(0, 0, 5) + file(3, b, 0x10)
    return table + file(2, ab, 0x100) + file(2, 0x441, 0) + b"d\0ab\0unused text\0"


def new_image(s, text, length, table, fst=0x440, user=None, disc=0, files=(), free=True):
    """A new image under a heading. The header has the GameCube magic, FST offset and size, user size and disc size; with `free` every byte
    behind the header is first not zero; each file of `files` (offset, size) gets bytes of its own. A table may come in parts (bytes, times)."""
    parts = [(table, 1)] if isinstance(table, bytes) else table
    s.heading(text)
    s.images += 1
    s.size(0)
    s.size(length)
    s.patch(0x1C, word(0xC2339F3D))
    s.patch(0x424, word(fst) + word(sum(len(part) * times for part, times in parts)))
    s.patch(0x434, word(length if user is None else user) + word(disc))
    if free:
        s.fill(0x440, (length - 0x440) // 4, b"free")
    for k, (offset, size) in enumerate(files):
        s.fill(offset, size // 2, bytes([0xA1 + k, 0x5A]))
    for part, times in parts:
        s.fill(fst, times, part) if times > 1 else s.patch(fst, part)
        fst += len(part) * times
    s.save()


# ---- the images

A_AT_500 = directory(0, 0, 2) + file(0, 0x500, 0x100) + b"a\0"
BYTES = "a byte that no name has"
SHARED = "a table grown over a file moved in: the Rust panics after it wrote, or accepts it without overflow checks"
GROWN = "a table grown over a file grown in place"
HALF = "half-done refusal: the Rust leaves its copy in the image"


def small_master(s):
    s.lend(0x1000, 0x1000)
    new_image(s, "the small master", 0x2000, A_AT_500, free=False)
    s.edit("move", 1, 0x580, note="P4")
    s.edit("move", 1, 0x600, note="P5")
    s.load()
    s.edit("move", 1, 0x400, note="P6")
    s.edit("resize", 1, 0x1B00, note="P7")
    s.load()
    s.edit("resize", 1, 0x1B01, note="P8")
    s.edit("rewrite")


def memory(s):
    new_image(s, "the same with bytes that are not zero: how much memory an edit needs", 0x2000, A_AT_500, files=[(0x500, 0x100)])
    short, few = "one working word too few", "one working byte too few"
    s.lend(0x10, 0x1A)
    s.edit("move", 1, 0x600, note="words and bytes exactly enough")
    s.load()
    s.edit("rewrite")
    s.lend(0xF, 0x1A)
    s.edit("move", 1, 0x600, rules=9, why=short)
    s.edit("rewrite", rules=9, why=short)
    s.edit("move", 7, 0x600, rules=9, why=short + ", before 15")
    s.lend(0x10, 0x19)
    s.edit("move", 1, 0x600, rules=9, why=few)
    s.edit("resize", 1, 0x80, rules=9, why=few)
    s.edit("rewrite", rules=9, why=few)
    s.edit("resize", 1, 0x100, note="the present size: no working bytes")
    s.lend(0x10, 0)
    s.edit("resize", 1, 0x100, note="the present size: no working bytes")
    s.edit("move", 1, 0x580, note="the edit's own numbers before memory")
    s.edit("move", 1, 0x400)
    s.edit("move", 2, 0x400)
    s.edit("move", 0, 0x400)
    s.edit("resize", 1, 0x1B01)
    s.edit("resize", 2, 0)
    s.edit("resize", 0, 0)
    s.edit("move", 1, 0x600, rules=9, why="no working byte")
    s.lend(0, 0)
    s.edit("resize", 1, 0x100, rules=9, why="no working word, not even for the present size")
    s.lend(0x1000, 0x1000)


def places(s):
    new_image(s, "file a at 0x500: each edge of its old place, of the free regions and of the disc", 0x2000, A_AT_500,
              files=[(0x500, 0x100)])
    s.edit("move", 1, 0x500, note="its own place")
    s.edit("move", 1, 0x5FF)
    s.edit("move", 1, 0x401)
    s.edit("move", 1, 0x400)
    s.edit("move", 1, 0x45A)
    s.edit("move", 1, 0)
    s.edit("move", 1, 0x1F00, note="exactly fits")
    s.edit("move", 1, 0x600)
    s.edit("move", 1, 0x501, note="one byte of overlap")
    s.edit("move", 1, 0x500, note="touches its old place")
    s.edit("move", 1, 0x1F01, note="one byte too many")
    s.edit("move", 1, 0x2000)
    s.edit("move", 1, 0xFFFFFFFF)
    s.edit("move", 1, 0xFFFFFF00)
    s.edit("move", 2, 0x600)
    s.edit("move", 0xFFFFFFFF, 0x600)
    s.edit("move", 0, 0x600)
    s.edit("resize", 1, 0x180, note="what it gains is as the free space held it")
    s.edit("resize", 1, 0xFF, note="zeros over the lost end")
    s.edit("resize", 1, 0xA6)
    s.edit("move", 1, 0x45B)
    s.edit("move", 1, 0x45A, note="exactly fits, right behind the table")
    s.edit("rewrite", note="the table fits exactly")
    s.edit("resize", 1, 0x1BA6, note="up to the disc end")
    s.edit("resize", 1, 0x1BA7)
    s.edit("resize", 1, 0xFFFFFFFF)
    s.edit("resize", 1, 0)
    s.edit("resize", 1, 0x1BA6, note="empty, at the free region's start")
    s.edit("resize", 1, 0)
    s.edit("move", 1, 0x1FFF)
    s.edit("resize", 1, 2)
    s.edit("resize", 1, 1)


def spoiled_master(s):
    """The story of README.md."""
    s.heading("two files share the name text `a`; the second is moved in right behind the table, which grows by 2 bytes when it is written")
    s.images += 1
    s.size(0)
    s.size(0x2000)
    s.patch(0x1C, word(0xC2339F3D))
    s.patch(0x424, word(0x440) + word(0x26))
    s.patch(0x434, word(0x2000))
    s.patch(0x440, directory(0, 0, 3) + file(0, 0x500, 0x100) + file(0, 0x700, 0x10) + b"a\0")
    s.patch(0x700, b"the only copy!!!")
    s.save()
    s.peek(0x700, 0x10)
    s.edit("move", 2, 0x466, rules=21, why=SHARED)
    s.edit("move", 2, 0x467, rules=21, why=SHARED)
    s.peek(0x440, 0x28)
    s.peek(0x700, 0x10)
    s.edit("move", 2, 0x468, note="right behind the grown table")
    s.peek(0x440, 0x28)
    s.peek(0x468, 0x10)
    s.load()
    s.edit("move", 1, 0x466, note="overlaps itself, before the table's place")
    s.edit("rewrite", note="from here on no text is shared")
    s.edit("move", 2, 0x467)
    s.edit("move", 2, 0x468)
    s.load()
    s.lend(0x14, 0x27)
    s.edit("move", 2, 0x466, rules=9, why="one working byte too few, before the table's place")
    s.lend(0x14, 0x28)
    s.edit("move", 2, 0x466, rules=21, why=SHARED)
    s.edit("move", 2, 0x468)
    s.lend(0x1000, 0x1000)


def grown_over(s):
    table = directory(0, 0, 4) + file(0, 0x500, 0x10) + file(0, 0x472, 0) + file(0, 0x474, 0) + b"a\0"
    new_image(s, "three files share a text, two of them empty and near the table's end: growth in place and the growing table", 0x2000,
              table, files=[(0x500, 0x10)])
    s.edit("resize", 2, 1, rules=21, why=GROWN)
    s.edit("resize", 3, 1, rules=21, why=GROWN)
    s.edit("move", 1, 0x475, rules=21, why=SHARED)
    s.edit("move", 2, 0x475)
    s.edit("move", 3, 0x475, note="empty files bar no table")
    s.load()
    s.edit("move", 1, 0x476)
    s.load()
    s.edit("rewrite")
    s.edit("resize", 2, 1, note="in the table now: no place but another")
    s.load()
    s.edit("move", 2, 0x476)
    s.edit("resize", 2, 0x8A)
    s.edit("resize", 2, 0x8B)


def half_done(s):
    table = directory(0, 0, 3) + file(0, 0x466, 0x10) + file(0, 0x700, 0x10) + b"a\0"
    new_image(s, "two files share a text and one lies right behind the table: no table can be written", 0x2000, table,
              files=[(0x466, 0x10), (0x700, 0x10)])
    s.edit("rewrite")
    s.edit("move", 2, 0x900, rules=21, why=HALF)
    s.edit("move", 1, 0x900, rules=21, why=HALF)
    s.edit("resize", 2, 8)
    s.edit("resize", 1, 8)
    s.edit("resize", 1, 0)
    s.edit("resize", 2, 0x100)
    s.edit("resize", 2, 0x10, note="the present size writes no table")
    s.edit("move", 2, 0x701)
    s.edit("move", 2, 0x466)
    table = directory(0, 0, 4) + file(0, 0x500, 0x100) + file(0, 0x474, 2) + file(0, 0x600, 2) + b"a\0"
    new_image(s, "the same where growth must find another place", 0x9000, table, files=[(0x500, 0x100), (0x474, 2), (0x600, 2)])
    s.edit("resize", 1, 0x101, rules=21, why=HALF)
    s.edit("resize", 1, 0xFF)
    s.edit("resize", 2, 3)


def empty_files(s):
    offsets = [0x900, 0x1000, 0x800, 0x2000, 0xFFFFFFFF, 0xC000, 0x441, 0x850, 0x8001, 0x8000, 0xBFFF]
    names = b"".join(bytes([ord("e") + k, 0]) for k in range(11))
    table = directory(0, 0, 14) + b"".join(file(2 * k, offset, 0) for k, offset in enumerate(offsets))
    table += file(22, 0x800, 0x100) + file(24, 0x2000, 0x5000) + names + b"y\0z\0"
    assert 0x440 + len(table) == 0x502
    new_image(s, "empty files e at a free region's start, f inside it, h at its end, g at another's end, i at 0xffffffff, j at the disc end, "
              "k in the table, l in a file, m and n at multiples of 0x8000 and o at the last byte", 0xC000, table,
              files=[(0x800, 0x100), (0x2000, 0x5000)])
    s.edit("resize", 1, 0x1700, note="the whole region")
    s.load()
    s.edit("resize", 1, 0x1701, note="one more: another place")
    s.load()
    s.edit("resize", 1, 0x4000, note="exactly fits there")
    s.load()
    s.edit("resize", 1, 0x4001)
    s.edit("resize", 2, 0x1000, note="up to the region's end")
    s.load()
    s.edit("resize", 2, 0x1001)
    for k in (3, 4, 5, 6, 7, 8):
        s.load()
        s.edit("resize", k, 1, note="no room where it is")
    s.load()
    s.edit("resize", 9, 0x3FFF)
    s.load()
    s.edit("resize", 9, 0x4000, note="the place found holds the file itself")
    s.edit("resize", 9, 0x4001)
    s.edit("resize", 10, 0x4000, note="at the place itself")
    s.load()
    s.edit("resize", 10, 0x4001)
    s.edit("resize", 11, 1)
    s.edit("resize", 11, 2)
    s.load()
    s.edit("resize", 11, 2, note="one more than is left: another place")
    s.load()
    for offset in (0x900, 0, 0x441, 0x2001, 0xC000, 0xFFFFFFFF, 0xFFFFFFFE):
        s.edit("move", 1, offset, note="an empty file goes anywhere")
    s.edit("move", 12, 0x800)
    s.edit("move", 13, 0x6FFF)
    s.edit("move", 13, 0x7001)
    s.edit("move", 13, 0x7000, note="right behind itself, exactly fits")
    s.edit("move", 12, 0x502)
    s.edit("move", 12, 0x501)


def equal_rests(s):
    table = directory(0, 0, 4) + file(0, 0x600, 0x20) + file(2, 0x620, 0x79E0) + file(4, 0xA000, 0x6000) + b"a\0b\0c\0"
    new_image(s, "two free multiples of 0x8000 with equal rests: the last; then the larger; file a can't grow where it is", 0x12000, table,
              files=[(0x600, 0x20), (0x620, 0x79E0), (0xA000, 0x6000)])
    s.edit("resize", 1, 0x2001)
    s.edit("resize", 1, 0x2000)
    s.edit("resize", 1, 0x1FFF)
    s.edit("resize", 1, 0x2000, note="where it is")
    s.edit("resize", 1, 0x2001)
    s.edit("resize", 2, 0x79E1)
    s.edit("resize", 3, 0x6001)
    s.load()
    s.edit("resize", 3, 0x1000)
    s.edit("move", 3, 0xB000)
    s.edit("resize", 1, 0x21, note="the larger rest, though the smaller is enough")
    s.edit("resize", 1, 0x3000)
    s.edit("resize", 1, 0x3001)
    s.edit("move", 1, 0x10000)
    s.edit("move", 1, 0xF001)
    s.edit("move", 1, 0xD001)
    s.edit("move", 1, 0xC000)
    s.edit("resize", 3, 0x1001)


def nested(s):
    new_image(s, "nested directories with shared texts, a name inside another, wrong stored parents, a root's name, unused texts", 0x2000,
              nested_table(0x600, 0x500), files=[(0x600, 0x10), (0x500, 0x100)])
    s.edit("rewrite", note="zeros over the lost tail")
    s.edit("rewrite", note="once more: nothing changes")
    s.load()
    s.edit("move", 4, 0x700)
    s.edit("move", 3, 0x700)
    s.edit("move", 1, 0x700)
    s.edit("resize", 3, 0)
    s.edit("resize", 2, 4, note="past the disc end: only another place, and there is none")
    s.edit("move", 2, 0x700)
    s.edit("move", 2, 0x720)
    s.edit("resize", 2, 0x18E0)
    s.edit("resize", 2, 0x18E1)
    s.edit("resize", 6, 1)
    s.edit("move", 6, 0x600)
    s.edit("resize", 6, 0x10)
    s.edit("resize", 6, 0x100)
    s.edit("resize", 6, 0x101)
    s.edit("move", 5, 0x49F)
    s.edit("move", 7, 0x49F)


def disc_ends(s):
    table = directory(0, 0, 3) + file(0, 0x500, 0x100) + file(2, 0x1F00, 0x100) + b"a\0b\0"
    new_image(s, "the last file ends at the disc end (user size + disc size), and the image goes on behind it", 0x2400, table, user=0x1800,
              disc=0x800, files=[(0x500, 0x100), (0x1F00, 0x100)])
    s.edit("resize", 2, 0x101)
    s.edit("move", 2, 0x2000)
    s.edit("move", 1, 0x1E00, note="exactly fits in front of it")
    s.edit("move", 1, 0x1E01)
    s.edit("resize", 1, 0x101)
    s.edit("resize", 2, 0xFF)
    s.edit("resize", 2, 0x100)
    s.edit("resize", 2, 0)
    s.edit("resize", 1, 0x200)
    s.edit("resize", 1, 0x201)
    table = directory(0, 0, 3) + file(0, 0x468, 0x398) + file(2, 0x800, 0x1800) + b"a\0b\0"
    new_image(s, "a full disc: table, file and file abut, and the last ends at the disc end", 0x2000, table,
              files=[(0x468, 0x398), (0x800, 0x1800)])
    s.edit("rewrite")
    s.edit("move", 1, 0x800)
    s.edit("move", 2, 0x7FF)
    s.edit("resize", 1, 0x399)
    s.edit("resize", 2, 0x1801)
    s.edit("resize", 1, 0x397)
    s.edit("resize", 1, 0x398)
    s.edit("resize", 1, 0x399)


def far_table(s):
    table = directory(0, 0, 3) + file(0, 0x1900, 0x10) + file(2, 0x1028, 0x10) + b"a\0b\0"
    new_image(s, "table at 0x1000, nothing free in front of it, the first file right behind it", 0x2000, table, fst=0x1000,
              files=[(0x1900, 0x10), (0x1028, 0x10)])
    s.edit("move", 1, 0x500)
    s.edit("move", 1, 0x1018)
    s.edit("move", 1, 0x1038)
    s.edit("resize", 2, 0x11)
    s.edit("rewrite")
    s.edit("move", 2, 0x1FF0)
    s.edit("move", 1, 0x1028)
    s.edit("resize", 1, 0xFC8)
    s.edit("resize", 1, 0xFC9)


def game_names(s):
    new_image(s, "a game name without a zero byte", 0x2000, A_AT_500, files=[(0x500, 0x100)])
    opaque = "the game name is opaque: the Rust on the same image with an empty game name, and the name put back"

    def renamed(name, command):
        """The image by the rules: the Rust's, with the game name that it does not take put back."""
        def make():
            s.oracle.setting("patch 0x20 " + "00" * 0x3E0)
            assert s.oracle(command) == "ok"
            s.oracle.setting("patch 0x20 " + name.hex())
        return make
    name = b"Counter!" * 0x7C
    s.fill(0x20, 0x7C, b"Counter!")
    s.edit("move", 1, 0x600, rules="ok", why=opaque, image=renamed(name, "move 1 0x600"))
    s.edit("resize", 1, 0x80, rules="ok", why=opaque, image=renamed(name, "resize 1 0x80"))
    s.edit("rewrite", rules="ok", why=opaque, image=renamed(name, "rewrite"))
    s.edit("move", 1, 0x640, rules=20, why="the game name is opaque; P4's case")
    new_image(s, "a game name with bytes behind its first zero byte; a text that no entry uses, so that the header is written", 0x2000,
              A_AT_500 + b"unused\0", files=[(0x500, 0x100)])
    s.patch(0x20, b"a\0b")
    s.peek(0x20, 4)
    name = b"a\0b" + bytes(0x3DD)
    s.edit("resize", 1, 0x80, rules="ok", why=opaque, image=renamed(name, "resize 1 0x80"))
    s.peek(0x20, 4)


def unopened(s):
    """One image for each refusal of opening, and an edit of it."""
    new_image(s, "images that do not open: the small master with another word or byte", 0x2000, A_AT_500, files=[(0x500, 0x100)])
    bounds = "bounds that the Rust does not test"
    for text, change, number, why in [
            ("of 0x43f bytes", lambda: s.size(0x43F), None, ""),
            ("Wii magic", lambda: s.patch(0x18, word(0x5D1C9EA3)), None, ""),
            ("no GameCube magic", lambda: s.patch(0x1C, word(0)), None, ""),
            ("of 0x1fff bytes", lambda: s.size(0x1FFF), 4, bounds),
            ("disc end above 2^32 - 1", lambda: s.patch(0x438, word(0xFFFFE000)), 4, "a sum that wraps"),
            ("FST size 23", lambda: s.patch(0x428, word(23)), None, ""),
            ("entry 1 of kind 2", lambda: s.patch(0x44C, b"\2"), None, ""),
            ("root a file", lambda: s.patch(0x440, b"\0"), None, ""),
            ("text unended", lambda: s.patch(0x428, word(25)), None, ""),
            ("count 16385", lambda: s.patch(0x448, word(16385)), 9, "limit; the Rust reads on past the table"),
            ("count 0", lambda: s.patch(0x448, word(0)), None, ""),
            ("name offset 2", lambda: s.patch(0x44C, word(2)), None, ""),
            ("name byte 0x1f", lambda: s.patch(0x458, b"\x1F"), 12, BYTES),
            ("name `.`", lambda: s.patch(0x458, b"."), None, ""),
            ("file in the table", lambda: s.patch(0x450, word(0x459)), 14, "the Rust panics"),
            ("file past the disc end", lambda: s.patch(0x450, word(0x1F01)), 14, "the Rust panics")]:
        s.load()
        s.heading(text)
        change()
        s.edit("move", 1, 0x600, rules=number, why=why)
        s.edit("resize", 1, 0x80, rules=number, why=why)
        s.edit("rewrite", rules=number, why=why)


def limits(s):
    s.lend(0x1014, 0x10300C)
    table = [(directory(0, 0, 1025), 1), (file(0, 0, 0), 1024), (b"x", 1023), (b"\0", 1)]
    new_image(s, "1,024 names share a text of 1,024 bytes: texts of 1,048,576 bytes are within the limit, and have no room", 0x8000, table)
    s.edit("rewrite")
    s.edit("move", 1, 7)
    s.edit("resize", 1, 0)
    s.edit("resize", 1, 1)
    s.lend(0x1014, 0x10300B)
    s.edit("rewrite", rules=9, why="one working byte too few, before the table's place")
    s.edit("resize", 1, 0, note="the present size")
    s.edit("resize", 1, 0x7000)
    table = [(directory(0, 0, 1026), 1), (file(0, 0, 0), 1024), (file(1022, 0, 0), 1), (b"x", 1023), (b"\0", 1)]
    new_image(s, "a name more: 2 bytes of text over the limit", 0x8000, table)
    s.lend(0x1018, 0x110000)
    s.edit("rewrite", rules=9, why="texts over 1,048,576 bytes")
    s.edit("move", 1, 7, rules=9, why="texts over 1,048,576 bytes")
    s.edit("resize", 1, 0, note="the present size")
    s.lend(0x10008, 0x38000)
    table = [(directory(0, 0, 0x4000), 1), (file(0, 0, 0), 0x3FFF), (b"a\0", 1)]
    new_image(s, "16,384 entries", 0x40000, table)
    s.edit("rewrite")
    s.edit("resize", 0x3FFF, 1)
    s.edit("move", 0x3FFF, 0x3F000)
    s.edit("resize", 0x3FFF, 0x1000)
    s.edit("resize", 0x4000, 1)
    s.lend(0x10007, 0x38000)
    s.edit("rewrite", rules=9, why="one working word too few")
    s.lend(0x1000, 0x1000)


def limits_of_inserts(s):
    s.lend(0x10010, 0x3A000)
    table = [(directory(0, 0, 0x3FFF), 1), (file(0, 0x40000, 0), 0x3FFE), (b"a\0", 1)]
    new_image(s, "16,383 entries: one more, and no more", 0x40000, table)
    over = "entries over 16,384"
    s.edit("make_directories", 0, b"b/c", rules=9, why=over)
    s.edit("make_directories", 0, b"b/c/..:", note="13 before 9")
    s.edit("insert_file", 0, b"a")
    s.edit("insert_directory", 0, b"b")
    s.edit("insert_file", 0x3FFF, b"c", rules=9, why=over)
    s.edit("insert_file", 0, b"b")
    s.edit("insert_directory", 0, b"c", rules=9, why=over)
    s.edit("make_directories", 0, b"b/c", rules=9, why=over)
    s.edit("make_directories", 0, b"b/")
    s.load()
    s.lend(0x10007, 0x3A000)
    s.edit("insert_file", 0, b"b", rules=9, why="one working word too few for the new tree")
    s.lend(0x1018, 0x110000)
    table = [(directory(0, 0, 1025), 1), (file(0, 0, 0), 1023), (file(2, 0, 0), 1), (b"x", 1023), (b"\0", 1)]
    new_image(s, "texts of 1,048,574 bytes: a name of one byte is within the limit, and has no room", 0x8000, table)
    s.edit("insert_file", 0, b"a")
    s.edit("insert_file", 0, b"ab", rules=9, why="texts over 1,048,576 bytes")
    s.edit("make_directories", 0, b"a")
    s.edit("make_directories", 0, b"ab/..", rules=9, why="texts over 1,048,576 bytes")
    s.lend(0x1000, 0x2000)


def inserts(s):
    new_image(s, "a gap behind the table for one entry with a name of one byte: inserts", 0x2000,
              directory(0, 0, 2) + file(0, 0x468, 0x100) + b"a\0", files=[(0x468, 0x100)])
    s.edit("insert_file", 0, b"bb")
    s.edit("insert_directory", 0, b"bb")
    s.edit("insert_file", 0, b"b", note="exactly fits")
    s.edit("insert_file", 0, b"c")
    s.edit("resize", 2, 1, note="offset 0: no room there, and no multiple of 0x8000")
    s.edit("move", 2, 0x568)
    s.edit("resize", 2, 0x100)
    s.load()
    s.edit("insert_directory", 0, b"b", note="exactly fits")
    s.edit("insert_file", 2, b"c")
    s.edit("move", 1, 0x800)
    s.edit("insert_file", 2, b"c")
    s.edit("insert_file", 2, b"c")
    s.edit("insert_directory", 2, b"d")
    s.edit("insert_file", 0, b"d", note="the same name in another directory")
    s.edit("insert_file", 4, b"~" * 300)
    s.edit("move", 5, 0x600)
    s.edit("resize", 5, 0x200)
    s.edit("resize", 5, 0x201)
    s.edit("resize", 6, 1)
    s.edit("insert_file", 0, b"x" * 1500, note="a name is no path: it has no limit of its own; here it has no room")
    s.edit("move", 5, 0x1F00)
    s.edit("resize", 5, 0x100)
    s.edit("move", 5, 0x1F00)
    s.edit("move", 1, 0x1E00)
    s.edit("insert_file", 0, b"x" * 1500)
    s.load()
    s.lend(0x14, 0x28)
    s.edit("insert_file", 0, b"b", note="words and bytes exactly enough")
    s.load()
    s.edit("insert_directory", 0, b"b")
    s.load()
    s.lend(0x13, 0x28)
    s.edit("insert_file", 0, b"b", rules=9, why="one working word too few for the new tree")
    s.edit("insert_directory", 0, b"b", rules=9, why="one working word too few for the new tree")
    s.edit("insert_file", 0, b"a", note="its own numbers before memory")
    s.edit("insert_file", 0, b"bb", rules=9, why="one working word too few, before the table's place")
    s.lend(0x14, 0x27)
    s.edit("insert_file", 0, b"b", rules=9, why="one working byte too few")
    s.edit("insert_file", 0, b"a")
    s.edit("insert_file", 1, b"b")
    s.edit("insert_file", 2, b"b")
    s.lend(0x10, 0)
    s.edit("insert_file", 0, b".")
    s.edit("insert_directory", 0, b"a")
    s.edit("insert_directory", 0, b"b", rules=9, why="no memory for the new tree")
    s.lend(0xF, 0x1000)
    s.edit("insert_file", 0, b".", rules=9, why="one working word too few to open the image, before 13")
    s.lend(0x1000, 0x2000)


def names(s):
    new_image(s, "d with the file ab and the directory d, in it b; the file ab twice: names to insert", 0x2000,
              nested_table(0x900, 0x800), files=[(0x900, 0x10), (0x800, 0x100)])
    s.edit("insert_file", 7, b".", note="15 before 13")
    s.edit("insert_file", 0xFFFFFFFF, b"x")
    s.edit("insert_file", 2, b"..", note="13 before 17")
    s.edit("insert_file", 2, b"x")
    s.edit("insert_directory", 4, b"x")
    s.edit("insert_file", 0, b"ab")
    s.edit("insert_directory", 0, b"ab")
    s.edit("insert_file", 0, b"d")
    s.edit("insert_file", 1, b"d")
    s.edit("insert_directory", 3, b"b")
    for name in (b"", b".", b"..", b"a/b", b"a\\b", b"a:", b"/", b"d/"):
        s.edit("insert_file", 0, name)
    s.edit("insert_directory", 0, b"")
    for name in (b"\x01", b"x\x1F", b"\x7F", b"x\0", b"\0", b"\x80", b"\xFFab"):
        s.edit("insert_file", 0, name, rules=12, why=BYTES)
    s.edit("insert_directory", 3, b"\x09", rules=12, why=BYTES)
    s.edit("insert_file", 0, b"\x01/", note="13 before 12")
    s.edit("insert_file", 2, b"\x01", note="17 before 12")
    s.edit("insert_file", 9, b"\x01")
    s.edit("insert_file", 0, b"...")
    s.edit("insert_file", 0, b" ", note="a space")
    s.edit("insert_file", 0, b"~")
    s.edit("insert_file", 0, b"AB", note="another name than ab")
    s.edit("insert_file", 3, b"#%", note="in the inner directory: every number behind it grows")
    s.edit("insert_directory", 3, b"e")
    s.edit("insert_file", 6, b"f")
    s.edit("insert_directory", 1, b"g")
    s.edit("insert_file", 8, b"h")
    s.edit("insert_file", 9, b"i")
    s.edit("insert_directory", 0, b"j")
    s.edit("insert_file", 0, b"j")
    s.edit("move", 7, 0x700)
    s.edit("resize", 7, 0x40)
    s.edit("move", 4, 0x740)
    s.edit("move", 10, 0x750)
    s.edit("resize", 10, 0xB0)
    s.edit("resize", 10, 0xB1)
    s.edit("insert_directory", 8, b"x" * 0x80)
    s.edit("rewrite")


def made(s):
    new_image(s, "the same: directories to make", 0x2000, nested_table(0x900, 0x800), files=[(0x900, 0x10), (0x800, 0x100)])
    for start, path in [(0, b"d"), (0, b""), (0, b"."), (0, b"/"), (0, b"d/d/"), (0, b"\\d\\d"), (3, b""), (1, b"d"), (0, b"d/../d/./d/..")]:
        s.edit("make_directories", start, path, note="all exist: the table is written all the same")
        s.load()
    for start, path in [(7, b""), (0xFFFFFFFF, b"x"), (5, b""), (5, b"x"), (0, b"ab"), (0, b"ab/x"), (0, b"ab/.."), (0, b".."), (0, b"d/../.."), (3, b".."),
                        (0, b"x/../.."), (0, b"x/y/../../.."), (0, b"x:"), (0, b"x/y:/z"), (0, b"d/ab/x"), (0, b"x/../ab"), (0, b"x/y/../../d/d/b")]:
        s.edit("make_directories", start, path)
    for path in (b"\x01", b"x/\x7F", b"\x01/..", b"\0", b"x/y\0z/..", b"\x80", b"d/\xFF"):
        s.edit("make_directories", 0, path, rules=12, why=BYTES)
    s.edit("make_directories", 0, b"\x01/../..", note="12 last")
    s.edit("make_directories", 0, b"\x01/x:")
    s.edit("make_directories", 0, b"\x01/../ab")
    for start, path in [(0, b"n"), (0, b"n/../n"), (0, b"n/.."), (0, b"n/m/../m/../.."), (0, b"n//m/."), (0, b"n\\m\\"), (1, b"n"), (3, b"n/m/o"),
                        (0, b"d/d/n"), (0, b"d/n/../../n/d"), (0, b"n/../m/../o"), (0, b"ab "), (0, b"..."), (0, b"d/../n/../d/d")]:
        s.edit("make_directories", start, path)
        s.load()
    s.edit("make_directories", 0, b"/" * 1024)
    s.edit("make_directories", 0, b"/" * 1025, rules=9, why="a path over 1,024 bytes")
    s.edit("make_directories", 7, b"/" * 1025, rules=9, why="a path over 1,024 bytes, before 15")
    s.edit("make_directories", 0, b"y" * 1024)
    s.edit("make_directories", 0, b"y" * 1025, rules=9, why="a path over 1,024 bytes")
    table = directory(0, 0, 5) + directory(0, 0, 3) + file(2, 0x800, 0x10) + directory(4, 0, 5) + file(2, 0x900, 0x10) + b"d\0a\0z\0"
    new_image(s, "d and z with a file each: what is made in d shifts the numbers in z", 0x2000, table, files=[(0x800, 0x10), (0x900, 0x10)])
    for path in (b"d/n/../../z", b"d/n/../../z/y", b"z/y/../../d/n/../../z/y", b"d/n/o/../../../z/../d/n/o", b"z/d/../../d/z/../../z/d"):
        s.edit("make_directories", 0, path)
        s.load()
    s.edit("insert_directory", 1, b"z")
    s.edit("insert_directory", 4, b"z")
    s.edit("make_directories", 4, b"z/./y/../../x")
    s.edit("make_directories", 1, b"z/y")
    s.edit("move", 2, 0xA00)
    s.edit("move", 6, 0xB00)
    new_image(s, "a gap behind the table for two directories with names of one byte", 0x2000,
              directory(0, 0, 2) + file(0, 0x476, 0x100) + b"a\0", files=[(0x476, 0x100)])
    s.edit("make_directories", 0, b"b/c/d")
    s.edit("make_directories", 0, b"b/cc")
    s.edit("make_directories", 0, b"b/../c/..", note="exactly fits")
    s.edit("make_directories", 2, b"e")
    s.edit("make_directories", 0, b"b/../c", note="all exist")
    s.load()
    s.lend(0x18, 0x36)
    s.edit("make_directories", 0, b"b/c", note="words and bytes exactly enough")
    s.edit("make_directories", 0, b"b/c")
    s.load()
    s.lend(0x17, 0x36)
    s.edit("make_directories", 0, b"b/c", rules=9, why="one working word too few")
    s.lend(0x18, 0x35)
    s.edit("make_directories", 0, b"b/c", rules=9, why="one working byte too few")
    s.lend(0x10, 0x1A)
    s.edit("make_directories", 0, b".", note="words and bytes for the present tree")
    s.edit("make_directories", 0, b"b", rules=9, why="no memory for the new tree")
    s.edit("make_directories", 0, b"b/c/d/../../../..", note="its own numbers before memory")
    s.edit("make_directories", 0, b"b/c/:")
    s.edit("make_directories", 0, b"b/c/../../a")
    s.edit("make_directories", 0, b"b/\x02", rules=12, why=BYTES + "; before memory")
    s.edit("make_directories", 0, b"b/c/../../a/b")
    s.lend(0x10, 0x19)
    s.edit("make_directories", 0, b"", rules=9, why="one working byte too few for the present tree")
    s.edit("make_directories", 0, b"..")
    s.lend(0x1000, 0x2000)


def deep(s):
    parts = [(directory(0, 0, 66), 1), (directory(0, 0, 65), 64), (file(0, 0x1000, 0x10), 1), (b"d\0", 1)]
    new_image(s, "64 directories one in the other, and a file", 0x2000, parts, files=[(0x1000, 0x10)])
    too_deep = "a directory deeper than 64"
    s.edit("rewrite")
    s.load()
    s.edit("insert_directory", 64, b"e", rules=9, why=too_deep)
    s.edit("insert_directory", 64, b"d", rules=9, why=too_deep)
    s.edit("insert_file", 64, b"e", note="a file may be deeper")
    s.edit("insert_directory", 63, b"e")
    s.edit("insert_directory", 66, b"e", rules=9, why=too_deep)
    s.edit("insert_directory", 64, b"e")
    s.load()
    s.edit("make_directories", 0, b"d/" * 64)
    s.edit("make_directories", 0, b"d/" * 65, rules=9, why=too_deep)
    s.edit("make_directories", 0, b"d/" * 64 + b"e/..", rules=9, why=too_deep)
    s.edit("make_directories", 0, b"d/" * 64 + b"e/.:", note="13 before 9")
    s.edit("make_directories", 64, b"../d")
    s.edit("make_directories", 60, b"e/f/g/h")
    s.edit("make_directories", 60, b"e/f/g/h/i", rules=9, why=too_deep)
    s.edit("move", 69, 0x900)
    s.edit("move", 65, 0x900)


def chain(s):
    table = directory(0, 0, 5) + file(0, 0x2000, 0x800) + file(2, 0x1000, 0x300) + directory(4, 0, 5) + file(6, 0x3000, 0x40)
    table += b"a\0b\0d\0c\0"
    new_image(s, "one edit after the other", 0xA000, table, files=[(0x2000, 0x800), (0x1000, 0x300), (0x3000, 0x40)])
    s.edit("move", 1, 0x4000)
    s.edit("resize", 2, 0x1000)
    s.edit("move", 4, 0x484)
    s.edit("move", 4, 0x483)
    s.edit("resize", 4, 0xB7C)
    s.edit("resize", 4, 0xB7D)
    s.edit("move", 1, 0x9800)
    s.edit("move", 1, 0x9000)
    s.edit("move", 1, 0x8801)
    s.edit("resize", 2, 0)
    s.edit("resize", 4, 0x1000)
    s.edit("move", 2, 0x1000)
    s.edit("resize", 2, 0x100)
    s.edit("rewrite")
    s.edit("resize", 1, 0x10)
    s.edit("resize", 1, 0x800)


# ---- calls that read: one image for each refusal, entries and lookups


def with_changes(s):
    """The small master as it is, and with a change for each refusal."""
    new_image(s, "the small master: what opening says of it, and of a change for each refusal", 0x2000, A_AT_500, free=False)
    s.lend(0x40, 0x1000)
    bounds = "bounds that the Rust does not test"
    s.look("open")
    s.look("totals")
    s.look("header")
    s.lend(15, 0x1000)
    s.look("open", rules=9, why="15 words; two entries want 16")
    s.lend(0x40, 0x1000)
    for note, change, number in [
            ("image of 0x43f bytes", lambda: s.size(0x43F), None),
            ("image of 0x1fff bytes", lambda: s.size(0x1FFF), 4),
            ("Wii magic", lambda: s.patch(0x18, word(0x5D1C9EA3)), None),
            ("no GameCube magic", lambda: s.patch(0x1C, word(0)), None),
            ("FST offset 0x43f", lambda: s.patch(0x424, word(0x43F)), 4),
            ("disc end above 2^32 - 1", lambda: s.patch(0x438, word(0xFFFFE000)), 4),
            ("table end past the disc end", lambda: s.patch(0x428, word(0x1BC1)), 4),
            ("FST size 11", lambda: s.patch(0x428, word(11)), None),
            ("FST size 23", lambda: s.patch(0x428, word(23)), None),
            ("root of kind 2", lambda: s.patch(0x440, b"\2"), None),
            ("entry 1 of kind 2", lambda: s.patch(0x44C, b"\2"), None),
            ("root a file", lambda: s.patch(0x440, b"\0"), None),
            ("FST size 25", lambda: s.patch(0x428, word(25)), None),
            ("count 16385", lambda: s.patch(0x448, word(16385)), 9),
            ("count 0", lambda: s.patch(0x448, word(0)), None),
            ("name offset 2", lambda: s.patch(0x44C, word(2)), None),
            ("name byte 0x1f", lambda: s.patch(0x458, b"\x1F"), 12),
            ("name .", lambda: s.patch(0x458, b"."), None),
            ("name :", lambda: s.patch(0x458, b":"), None),
            ("empty name", lambda: s.patch(0x44C, word(1)), None),
            ("file in the table", lambda: s.patch(0x450, word(0x459)), 14),
            ("file past the disc end", lambda: s.patch(0x450, word(0x1F01)), 14),
            ("count 1: the empty tree", lambda: s.patch(0x448, word(1)), None)]:
        s.load()
        change()
        if number:
            s.look("open", rules=number, why=note)
        else:
            s.look("open", note=note)
    s.load()


def lookups(s):
    new_image(s, "small master: lookups", 0x2000, A_AT_500, free=False)
    s.look("lookup", 0, b"", note="P9")
    s.look("lookup", 0, b"a/", note="P10")
    s.look("lookup", 0, b"..", note="P11")
    s.look("lookup", 0, b"a")
    s.look("lookup", 0, b".//a")
    s.look("lookup", 0, b"A")
    s.look("lookup", 1, b"")
    s.look("lookup", 2, b"")
    new_image(s, "nested directories, shared texts, a name inside another text, equal names, empty files in the table and past the disc end, "
              "stored parents that are wrong", 0x2000,
              directory(0, 7, 7) + directory(0, 6, 5) + file(2, 0xFFFFFFFF, 0) + directory(0, 0, 5) + file(3, 0x600, 0x10) + file(2, 0x500, 0x100)
              + file(2, 0x441, 0) + b"d\0ab\0", free=False)
    s.lend(0x40, 0x1000, 0x2A)
    s.look("open")
    for k in range(8):
        s.look("entry", k)
    rows = [1, 0, 0, 7, 0, 0, 1, 0, 0, 5, 0x494, 1, 0, 1, 0xFFFFFFFF, 0, 0x496, 2, 1, 1, 0, 5, 0x494, 1, 0, 3, 0x600, 0x10, 0x497, 1,
            0, 0, 0x500, 0x100, 0x496, 2, 0, 0, 0x441, 0, 0x496, 2]
    s.look("entries", rules=[0, 0x440, 0x59, 0x2000, 7, 0x5A9] + rows, why="kind, nested in, offset, size or next, and where the name's bytes "
           "stand and how many they are, for each entry; the list is just long enough")
    s.lend(0x40, 0x1000, 0x29)
    s.look("entries", rules=9, why="a list that is a word short")
    s.lend(0x40, 0x1000)
    for start, path in [(0, b"d"), (0, b"d/d/b"), (0, b"d\\d\\b"), (0, b"/d//d/./"), (0, b"ab"), (0, b"d/ab"), (0, b"d/../ab"), (0, b"d/d/../../d/d"), (0, b"b"),
                        (0, b"d/x"), (0, b"d/ab/"), (0, b"d/ab/.."), (0, b"d/../.."), (1, b"d/b"), (3, b"b"), (3, b".."), (5, b""), (7, b"d")]:
        s.look("lookup", start, path)
    s.look("lookup", 0, b"/" * 1024, note="1,024 bytes")
    s.look("lookup", 0, b"/" * 1025, rules=9, why="a path over 1,024 bytes")


# ---- free regions in clusters of 0x8000 bytes


def clusters(s):
    """The small master; lists around the length that it wants; regions that begin or end on a multiple of 0x8000, or a byte beside it."""
    small = [(0xA6, 0, 0), (0x1A00, 0, 0)]
    new_image(s, "small master: free regions in clusters", 0x2000, A_AT_500, free=False)
    for words, why in [(6, "a list that is just long enough"), (7, "a list that is a word longer"), (0x400, "a list that is much longer")]:
        s.lend(0x10, 0, words)
        s.clusters(small, why)
    for words, why in [(5, "a list that is a word short"), (3, "a list that has room for one region"), (0, "no list")]:
        s.lend(0x10, 0, words)
        s.clusters(9, why)
    s.patch(0x450, word(0x459))
    s.clusters(14, "file in the table, before the list that is short")
    s.load()
    s.patch(0x1C, word(0))
    s.clusters(3, "no GameCube magic, before the list that is short")
    s.lend(0xF, 0)
    s.load()
    s.clusters(9, "one working word too few")
    s.lend(0x10, 0)
    s.patch(0x450, word(0x45A) + word(0x1BA6))
    s.clusters([], "no free region")
    new_image(s, "one file around multiples of 0x8000: disc end, offset and size change; the table ends at 0x45a", 0x28000, A_AT_500, free=False)
    for end, offset, size, regions, why in [
            (0x7FFF, 0x500, 0x100, [(0xA6, 0, 0), (0x79FF, 0, 0)], "the last region ends a byte before a multiple, and is all \"before\""),
            (0x8000, 0x500, 0x100, [(0xA6, 0, 0), (0x7A00, 0, 0)], "its first multiple is exactly its end: all \"before\""),
            (0x8001, 0x500, 0x100, [(0xA6, 0, 0), (0x7A00, 0, 1)], "one byte behind the first multiple"),
            (0xFFFF, 0x500, 0x100, [(0xA6, 0, 0), (0x7A00, 0, 0x7FFF)], "a byte short of a cluster"),
            (0x10000, 0x500, 0x100, [(0xA6, 0, 0), (0x7A00, 1, 0)], "it ends on a multiple"),
            (0x10001, 0x500, 0x100, [(0xA6, 0, 0), (0x7A00, 1, 1)], "a cluster and a byte"),
            (0x8001, 0x7000, 0x1000, [(0x6BA6, 0, 0), (0, 0, 1)], "it begins on a multiple, and is one byte"),
            (0xFFFF, 0x7000, 0x1000, [(0x6BA6, 0, 0), (0, 0, 0x7FFF)], "it begins on a multiple, and is a byte short of a cluster"),
            (0x10000, 0x7000, 0x1000, [(0x6BA6, 0, 0), (0, 1, 0)], "it is exactly one cluster"),
            (0x10001, 0x7000, 0x1000, [(0x6BA6, 0, 0), (0, 1, 1)], "it begins on a multiple, and is a byte longer than a cluster"),
            (0x28000, 0x845A, 0x1FBA6, [(0x7BA6, 0, 0x45A)], "a cluster's size, and no whole cluster")]:
        s.load()
        s.size(end)
        s.patch(0x434, word(end))
        s.patch(0x450, word(offset) + word(size))
        s.clusters(regions, why)
    new_image(s, "several free regions, by files that stand in the table against the order of their places", 0x4FFFF,
              directory(0, 0, 6) + file(0, 0x40001, 0x7FFF) + file(2, 0x28000, 0x7FFF) + file(4, 0x18000, 1) + file(6, 0xE000, 0x2000)
              + file(8, 0x8000, 0x4000) + b"z\0y\0x\0w\0v\0", free=False)
    s.lend(0x20, 0, 0x12)
    s.clusters([(0x7B6E, 0, 0), (0x2000, 0, 0), (0, 1, 0), (0x7FFF, 1, 0), (1, 2, 1), (0, 0, 0x7FFF)],
               "the first multiple is its end; none; one cluster; it ends on one; two clusters inside; it begins on one")
    s.lend(0x20, 0, 0x11)
    s.clusters(9, "a list that is a word short")


# ---- boundaries of header, windows and DOL


def headers(s):
    """Cut short inside the Wii magic, before and inside the GameCube magic, behind it, before the last byte; and whole."""
    for note, wii, gcn in [("the GameCube magic", 0, 0xC2339F3D), ("both magics", 0x5D1C9EA3, 0xC2339F3D), ("no magic", 0, 0)]:
        s.heading(f"headers cut short: {note}, and else zeros")
        s.images += 1
        s.size(0)
        s.size(0x440)
        s.patch(0x18, word(wii) + word(gcn))
        for length in (0x440, 0x43F, 0x20, 0x1F, 0x1C, 0x1B):
            s.size(length)
            s.look("header")
    s.heading("a header's fields: FST offset and size, user size; the word at 0x18 and the game name are written back as read")
    s.images += 1
    s.size(0)
    s.size(0x440)
    s.patch(0x1C, word(0xC2339F3D))
    s.patch(0x424, word(0x440) + word(0x1A))
    s.patch(0x434, word(0x2000))
    s.look("header")
    for bytes_ in (b"\1\2\3\4", b"\x80\0\0\1", b"\xFF\xFF\xFF\xFF"):
        s.patch(0x424, bytes_)
        s.look("header", note="the FST offset")


def fields(s):
    """Big-endian fields of 24 and 32 bits, through the entries of a table: names, offsets and sizes."""
    new_image(s, "fields are big-endian: an empty file's offset, and names at offsets of three bytes", 0x21000,
              [(directory(0, 0, 4) + file(0x010203, 0x01020304, 0) + file(0x000001, 0x80000001, 0) + file(0x010000, 0xFFFFFFFF, 0), 1),
               (b"x", 0x10203), (b"y\0", 1)], free=False)
    s.lend(0x40, 0x1000)
    for k in range(1, 4):
        s.look("entry", k, note="numbers are big-endian")
    s.look("lookup", 0, b"y", note="its name stands at 0x010203")
    s.load()
    s.patch(0x44D, b"\xFF\xFF\xFF")
    s.look("open", note="a name offset of 0xffffff")
    s.load()
    s.patch(0x44D, b"\x80\0\1")
    s.look("open", note="a name offset of 0x800001")


def windows(s):
    s.lend(0x1000, 0x1000)
    new_image(s, "the window of file a: seeks at 0, 2^63 and 2^64 - 1", 0x2000, A_AT_500, free=False)
    s.file_window(1)
    s.seek("current", -1, note="P12")
    s.seek("start", 0)
    s.seek("start", 2 ** 63)
    s.seek("start", 2 ** 64 - 1)
    s.seek("current", 0)
    s.file_window(1)
    s.seek("start", 2 ** 64 - 0x501, note="start + position is 2^64 - 1")
    s.seek("start", 2 ** 64 - 0x500)
    s.seek("end", -0x100)
    s.seek("end", -0x101)
    s.file_window(1)
    s.seek("end", -2 ** 63)
    s.seek("end", 2 ** 63 - 1)
    s.seek("current", -2 ** 63)
    s.seek("current", 2 ** 63 - 1)
    s.heading("a window that starts at 0 refuses nothing")
    s.window(0, 8, 0)
    s.seek("start", 0)
    s.seek("start", 2 ** 63)
    s.seek("start", 2 ** 64 - 1)
    s.seek("current", 1)
    s.seek("current", -1)
    s.seek("end", -9)
    s.look("open_file", 0)
    s.look("open_file", 2)


def reads(s):
    s.heading("reads of four bytes over dots, at the edges of windows and of an image of 16 bytes")
    s.images += 1
    s.size(0)
    s.size(16)
    s.patch(0, b"0123456789abcdef")
    for start, length in [(4, 6), (14, 100), (16, 4), (4, 0), (2 ** 63, 4), (2 ** 64 - 1, 4)]:
        s.window(start, length, 0)
        s.read(4)
    s.heading("seeks and reads: positions in the window, at its end and past it, and the last position that a window at 4 has")
    s.window(4, 6, 0)
    for whence, distance in [("start", 0), ("current", 0), ("end", -1), ("current", -7), ("current", -6), ("end", 3), ("start", 2 ** 64 - 5), ("start", 2 ** 64 - 4),
                             ("current", 7)]:
        s.seek(whence, distance)
        s.read(4)
    s.window(14, 100, 0)
    s.seek("start", 0)
    s.read(4)
    s.seek("current", 1)
    s.read(4)
    s.heading("a window that the Rust cannot be handed: start + position is above 2^64 - 1")
    s.window(4, 2 ** 64 - 1, 2 ** 64 - 2)
    s.seek("current", 0, rules=[0, 2 ** 64 - 2], why="a distance of 0 from the current position is never refused")
    s.read(4, rules=[0, 0, 2 ** 64 - 2, b"...."], why="none are read past the image")
    s.seek("current", 1, rules=23, why="start + position passes 2^64 - 1")
    s.read(4, rules=[0, 0, 2 ** 64 - 2, b"...."], why="a refused seek leaves the window as it was")
    s.seek("current", 3, rules=[0, 1], why="a distance is added modulo 2^64")
    s.read(4, rules=[0, 4, 5, b"5678"], why="four bytes at 4 + 1")


def put_program(s, at, text=(0, 0), data=(0, 0), until=None):
    """A program at `at`: offset and size of its first text section and of its last data section, else zeros. `until`: where its header is cut."""
    s.patch(0x420, word(at))
    s.fill(at, until - at if until else 0xE4, b"\0")
    for k, number in ((0, text[0]), (0x44, data[0]), (0x90, text[1]), (0xD4, data[1])):
        if number:
            s.patch(at + k, word(number))


SUMS = "a sum above 2^32 - 1, at which the Rust stops"


def executables(s):
    new_image(s, "an executable at 0x1000: its first text section and its last data section, and else zeros", 0x2000, A_AT_500, free=False)
    for text, data, number, why in [
            ((0x100, 0x23), (0, 0), 0, ""), ((0x100, 0x23), (0xF00, 0x100), 0, ""), ((0, 0), (0xE3, 0), 0, ""), ((0, 0), (0, 0), 0, ""),
            ((0x100, 0x23), (0xF00, 0x101), 14, "it passes the disc end by a byte"), ((0xFFFFFFFE, 1), (0, 0), 14, "it passes the disc end"),
            ((0xFFFFFFFF, 1), (0, 0), 24, SUMS), ((0, 0), (0xFFFFFFFF, 0), 14, "it passes the disc end"), ((0, 0), (0xFFFFFFFF, 1), 24, SUMS),
            ((0, 0), (0xFFFFFFFF, 0xFFFFFFFF), 24, SUMS)]:
        s.load()
        put_program(s, 0x1000, text, data)
        if number:
            s.look("open_dol", rules=number, why=why, differs=number != 14)
        else:
            s.dol_window()
            s.read(max(sum(text), sum(data)) + 1, note="all of the window")
    s.load()
    s.patch(0x420, word(0x1F1C))
    s.dol_window(note="the header ends at the image's end")
    s.read(4)
    s.patch(0x420, word(0x1F1D))
    s.look("open_dol", note="it passes the image's end")
    s.load()
    s.heading("DOL offset 0, which names no program: the image's first bytes, read as one; the magic at 0x1c is a section's offset")
    for at, offset, size, rules in [(0, 0, 0, None), (0, 0xFFFFFFFE, 1, None), (0, 0xFFFFFFFF, 1, 24), (0x44, 0xFFFFFFFF, 0, None),
                                    (0x44, 0xFFFFFFFF, 1, 24), (0x44, 0xFFFFFFFF, 0xFFFFFFFF, 24)]:
        s.load()
        s.patch(at, word(offset))
        s.patch(0x90 + at, word(size))
        s.look("open", note="opening does not look at it")
        if rules:
            s.look("open_dol", rules=rules, why=SUMS)
        else:
            s.dol_window()
            s.seek("start", 0x1FFC)
            s.read(8, note="all that the image has from there on")


# ---- the program: before the table, behind it, and where it may not lie


BEHIND = "the program behind the table is used"


def moved(s, from_, to, size):
    """The image by hand, after a move of the only file of a table that stands at 0x440 as it is written."""
    def make():
        bytes_ = s.bytes_at(from_, size)
        s.oracle.setting(f"patch {to} {bytes_.hex()}")
        s.oracle.setting(f"patch {from_} {'00' * size}")
        s.oracle.setting(f"patch 0x450 {word(to).hex()}")
    return make


def patched(s, *parts):
    """The image by hand: these bytes at these offsets."""
    def make():
        for at, bytes_ in parts:
            s.oracle.setting(f"patch {at} {bytes_.hex()}")
    return make


def none_named(s):
    s.lend(0x10, 0x1000)
    new_image(s, "small master: its DOL offset is 0", 0x2000, A_AT_500, free=False)
    s.program(0, 0, "no program")
    s.patch(0, word(0xFFFFFFFF))
    s.patch(0x90, word(2))
    s.look("open", note="what stands at 0 is no program's header")
    s.call("program", [0, 0, 0], "rules: no program")
    s.look("totals")
    s.look("free_regions")
    s.look("open_dol", rules=24, why=SUMS)
    s.load()
    s.lend(0xF, 0)
    s.look("program", rules=9, why="one working word too few", differs=False)
    s.lend(0x10, 0)
    for number, note, change in [(1, "image of 0x43f bytes", lambda: s.size(0x43F)), (3, "no GameCube magic", lambda: s.patch(0x1C, word(0))),
                                 (13, "name .", lambda: s.patch(0x458, b".")), (14, "file in the table", lambda: s.patch(0x450, word(0x459)))]:
        s.load()
        change()
        s.look("program", rules=number, why=note, differs=False)


def before_table(s):
    table = directory(0, 0, 2) + file(0, 0x800, 0x100) + b"a\0"
    new_image(s, "a program between 0x440 and the table at 0x600: used bytes, free regions and edits are the Rust's", 0x2000, table, fst=0x600,
              files=[(0x800, 0x100)])
    s.lend(0x20, 0x100)
    for at, size, why in [(0x440, 0x1C0, "all of it"), (0x440, 0, "its start; a program is at least as long as its header"),
                          (0x440, 0xE3, "a byte less than a header"), (0x440, 0xE5, "a byte more than a header"), (0x51C, 0, "its end")]:
        s.load()
        put_program(s, at, (0, size))
        s.program(at, max(size, 0xE4), why)
        s.look("open")
        s.look("totals")
        s.look("free_regions")
    s.load()
    put_program(s, 0x440, (0x100, 0xC0))
    s.save()
    s.dol_window()
    s.look("max_file_size", 1)
    s.look("max_region_size", 0x61A, 1)
    s.look("max_region_size", 0x440, 0x1DA)
    s.look("allocate", 0x100, 0x100)
    s.text("report", 0x80)
    for name, arguments in [("insert_file", (0, b"b")), ("insert_directory", (0, b"c")), ("make_directories", (0, b"d/e")), ("rewrite", ()),
                            ("move", (1, 0x440)), ("move", (1, 0x51C)), ("move", (1, 0x1000)), ("resize", (1, 0x1000)), ("resize", (1, 0x1001)),
                            ("resize", (1, 0))]:
        s.edit(name, *arguments)
    s.call("program", [0, 0x440, 0x1C0], "rules: as it was")
    s.load()
    for at, size, until, why in [
            (0x440, 0x1C1, None, "a byte over the table's start"), (0x51D, 0, 0x600, "a byte over the table's start"),
            (0x43F, 0, None, "a byte before 0x440"), (0x441, 0x1DA, None, "over the table and its end"),
            (0x500, 0x300, None, "around the table"), (0x100, 0, None, "in the header")]:
        s.load()
        put_program(s, at, (0, size), until=until)
        s.look("open", rules=14, why=why, differs=False)
        s.look("program", rules=14, why=why, differs=False)
        s.edit("move", 1, 0x1000, rules=14, why=why, differs=False)
    for at, why in [(0x600, "at the table's start"), (0x619, "a byte over the table's end")]:
        s.load()
        s.fill(0x61A, 0xE4, b"\0")
        s.patch(0x420, word(at))
        s.look("open", rules=14, why=why, differs=False)
        s.edit("rewrite", rules=14, why=why, differs=False)
    s.load()
    put_program(s, 0x61A)
    s.program(0x61A, 0xE4, "from the table's end on")
    s.look("totals", rules=[0, 0x2000, 0x61A + 0x100 + 0xE4], why=BEHIND, differs=False)


A_AT_800 = directory(0, 0, 2) + file(0, 0x800, 0x100) + b"a\0"


def behind_table(s):
    new_image(s, "a program of 0x123 bytes at 0x1000, behind the table and file a at 0x800", 0x2000, A_AT_800, files=[(0x800, 0x100)])
    put_program(s, 0x1000, (0x100, 0x23))
    s.save()
    s.lend(0x10, 0x1000, 6)
    s.program(0x1000, 0x123, "as long as its file size")
    used = 0x45A + 0x100 + 0x123
    s.look("open", rules=[0, 0x440, 0x1A, 0x2000, 2, used], why=BEHIND, differs=False)
    s.look("totals", rules=[0, 0x2000, used], why=BEHIND, differs=False)
    s.free_regions()
    s.lend(0x10, 0x1000, 5)
    s.look("free_regions", rules=9, why="three regions of two entries: a list that is a word short", differs=False)
    s.lend(0x10, 0x1000, 9)
    s.clusters([(0x3A6, 0, 0), (0x700, 0, 0), (0xEDD, 0, 0)], "three regions of two entries")
    s.lend(0x10, 0x1000, 8)
    s.clusters(9, "a list that is a word short")
    s.lend(0xF, 0x1000)
    s.look("open", rules=9, why="one working word too few", differs=False)
    s.lend(0x10, 0x1000)
    s.dol_window()
    s.read(0x123, note="all of the window")
    listing = b"total 8192 used 1661\nd 0 0 2 /\nf 1 2048 256 /a\nr 1114 934\nr 2304 1792\nr 4387 3805\n"
    s.text("report", 0x80, rules=listing, why=BEHIND)
    s.look("max_file_size", 1, rules=[0, 0x800], why="up to the program", differs=False)
    for offset, size, most, why in [
            (0x900, 1, 0x700, "a free region that ends at the program"), (0x901, 1, 0x6FF, "inside it"), (0xFFF, 1, 1, "its last byte"),
            (0x1000, 0x123, 0x1000, "the program's own place, with what is free behind it"), (0x1000, 0x122, 0x122, "a byte less"),
            (0x1122, 1, 0xEDE, "its last byte, with what is free behind it"), (0x1123, 1, 0xEDD, "the free region behind it")]:
        s.look("max_region_size", offset, size, rules=[0, most], why=why, differs=False)
    for size, align, rules, why in [
            (0x100, 0x100, [0, 0x1200, 0xE00], "the largest rest is behind the program"), (0xE00, 0x100, [0, 0x1200, 0xE00], "all of it"),
            (0xE01, 0x100, 21, "a byte more"), (0xEDD, 1, [0, 0x1123, 0xEDD], "from its end on"), (0xEDE, 1, 21, "a byte more")]:
        s.look("allocate", size, align, rules=rules, why=why, differs=False)
    for to, why in [(0xF01, "a byte over its start"), (0x1000, "its place"), (0x1010, "inside it"), (0x1122, "a byte over its end")]:
        s.edit("move", 1, to, rules=21, why=why, differs=False)
    s.edit("move", 1, 0xF00, rules="ok", why="right before it", image=moved(s, 0x800, 0xF00, 0x100), differs=False)
    s.edit("move", 1, 0x1123, rules="ok", why="right behind it", image=moved(s, 0xF00, 0x1123, 0x100), differs=False)
    s.load()
    s.edit("resize", 1, 0x801, rules=21, why="a byte into it, and no free multiple of 0x8000", differs=False)
    s.edit("resize", 1, 0x800, rules="ok", why="up to it", image=patched(s, (0x454, word(0x800))), differs=False)
    s.edit("resize", 1, 0x801, rules=21, why="a byte more", differs=False)
    s.free_regions()
    s.program(0x1000, 0x123, "as it was")
    for at, size, why in [(0x71C, 0, "it ends where the file begins"), (0x900, 0, "it begins where the file ends"),
                          (0x45A, 0x3A6, "all between table and file"), (0x900, 0x1700, "up to the disc end"), (0x1F1C, 0, "a header at the disc end")]:
        s.load()
        put_program(s, at, (0, size))
        s.program(at, max(size, 0xE4), why)
        s.look("totals", rules=[0, 0x2000, 0x45A + 0x100 + max(size, 0xE4)], why=BEHIND, differs=False)
        s.free_regions()
    for at, size, why in [(0x71D, 0, "a byte over the file's start"), (0x8FF, 0, "a byte over the file's end"), (0x80F, 0, "in the file"),
                          (0x700, 0x300, "around the file"), (0x45A, 0x3A7, "a byte over the file's start"), (0x900, 0x1701, "a byte past the disc end")]:
        s.load()
        put_program(s, at, (0, size))
        s.look("open", rules=14, why=why, differs=False)
        s.edit("rewrite", rules=14, why=why, differs=False)
    new_image(s, "three clusters, the program in the second: a file that has to move finds a place beside it", 0x18000,
              directory(0, 0, 3) + file(0, 0x1000, 0x100) + file(2, 0x1100, 0x10) + b"a\0b\0", files=[(0x1000, 0x100), (0x1100, 0x10)])
    put_program(s, 0x9000, (0, 0x800))
    s.save()
    s.lend(0x14, 0x28)
    s.clusters([(0xB98, 0, 0), (0x6EF0, 0, 0x1000), (0x6800, 1, 0)], "0x1110 to the program, and behind it to the disc end")
    s.look("allocate", 0x101, 0x8000, rules=[0, 0x10000, 0x8000], why="the larger rest is behind the program", differs=False)
    grown = patched(s, (0x10000, b"\xA1\x5A" * 0x80), (0x1000, bytes(0x100)), (0x450, word(0x10000)), (0x454, word(0x101)))
    s.edit("resize", 1, 0x101, rules="ok", why="file b is right behind it; the larger rest", image=grown, differs=False)
    s.load()
    s.edit("resize", 1, 0x8001, rules=21, why="a byte more than the larger rest has", differs=False)


def abutting(s):
    new_image(s, "a program right behind the table, which ends at 0x45a: the table may not grow into it", 0x2000, A_AT_800, files=[(0x800, 0x100)])
    s.lend(0x20, 0x100)
    longer = directory(0, 0, 3) + file(0, 0x800, 0x100) + file(2, 0, 0) + b"a\0b\0"
    for at, room in [(0x45A, 0), (0x467, 13), (0x468, 14)]:
        s.load()
        put_program(s, at)
        s.save()
        s.heading(f"{room} bytes between them; an entry with a name of one byte takes 14")
        for name in ("insert_file", "insert_directory", "make_directories"):
            s.edit(name, 0, b"bb", rules=21, why="15 bytes more", differs=False)
        if room < 14:
            for name in ("insert_file", "insert_directory", "make_directories"):
                s.edit(name, 0, b"b", rules=21, why="14 bytes more", differs=False)
        else:
            grown = patched(s, (0x428, word(0x28)), (0x440, longer))
            s.edit("insert_file", 0, b"b", rules="ok 2", why="14 bytes more", image=grown, differs=False)
            s.edit("insert_file", 0, b"c", rules=21, why="now they abut", differs=False)
            s.load()
        s.edit("make_directories", 0, b".", rules="ok 0", why="a table of the same size", differs=False)
        s.edit("rewrite", rules="ok", why="a table of the same size", differs=False)
        s.edit("move", 1, 0x900, rules="ok", why="a table of the same size", image=moved(s, 0x800, 0x900, 0x100), differs=False)
        s.load()
    table = directory(0, 0, 3) + file(0, 0x800, 0x10) + file(0, 0x900, 0x10) + b"a\0"
    new_image(s, "two files share a text: the table ends at 0x466, and at 0x468 when it is written", 0x2000, table, files=[(0x800, 0x10), (0x900, 0x10)])
    for at in (0x466, 0x467):
        s.load()
        put_program(s, at)
        s.heading(f"the program at {at:#x}")
        for name, arguments in [("rewrite", ()), ("move", (1, 0xA00)), ("resize", (1, 8)), ("resize", (1, 0x11)), ("make_directories", (0, b""))]:
            s.edit(name, *arguments, rules=21, why="two bytes more", differs=False)
        s.edit("resize", 1, 0x10, rules="ok", why="the present size writes no table", differs=False)
        s.edit("move", 1, 0x808, rules=20, why="before the table's place", differs=False)
        s.lend(0x14, 0x27)
        s.edit("rewrite", rules=9, why="one working byte too few, before the table's place", differs=False)
        s.lend(0x20, 0x100)
    s.load()
    put_program(s, 0x468)
    written = directory(0, 0, 3) + file(0, 0x800, 0x10) + file(2, 0x900, 0x10) + b"a\0a\0"
    s.edit("rewrite", rules="ok", why="two bytes more, right before the program", image=patched(s, (0x428, word(0x28)), (0x440, written)), differs=False)
    s.program(0x468, 0xE4, "as it was")


def unread(s):
    """24: after the walk, before 14, and only for a DOL offset other than 0."""
    new_image(s, "programs whose header passes the image, or with a sum above 2^32 - 1; the image goes on behind the disc end", 0x2100, A_AT_500,
              user=0x2000, free=False)
    s.lend(0x10, 0x1000)
    past = "the header passes the image"
    for change, number, why in [
            (lambda: s.patch(0x420, word(0x201D)), 24, past), (lambda: s.patch(0x420, word(0x2100)), 24, past),
            (lambda: s.patch(0x420, word(0xFFFFFFFF)), 24, past), (lambda: put_program(s, 0x1000, (0xFFFFFFFF, 1)), 24, "a sum of 2^32"),
            (lambda: put_program(s, 0x1000, (0, 0), (1, 0xFFFFFFFF)), 24, "a sum of 2^32 in the last section"),
            (lambda: put_program(s, 0x2000, (0xFFFFFFFF, 1)), 24, "a sum of 2^32, before what is past the disc end"),
            (lambda: put_program(s, 0x1000, (0xFFFFFFFE, 1)), 14, "a sum of 2^32 - 1, past the disc end"),
            (lambda: s.patch(0x420, word(0x201C)), 14, "the header is in the image, and past the disc end"),
            (lambda: s.patch(0x420, word(0x2000)), 14, "from the disc end on"), (lambda: s.patch(0x420, word(0x1F1D)), 14, "a byte past the disc end")]:
        s.load()
        change()
        for name in ("open", "program", "free_regions", "open_dol"):
            s.look(name, rules=number, why=why, differs=False)
        s.clusters(number, why)
        s.edit("move", 1, 0x600, rules=number, why=why, differs=False)
        s.edit("insert_file", 0, b"b", rules=number, why=why, differs=False)
    for program, why in [(lambda: s.patch(0x420, word(0x201D)), past), (lambda: put_program(s, 0x1000, (0xFFFFFFFF, 1)), "a sum of 2^32")]:
        for number, note, change in [
                (4, "image of 0x1fff bytes", lambda: s.size(0x1FFF)), (5, "FST size 23", lambda: s.patch(0x428, word(23))),
                (8, "FST size 25", lambda: s.patch(0x428, word(25))), (10, "count 0", lambda: s.patch(0x448, word(0))),
                (11, "name offset 2", lambda: s.patch(0x44C, word(2))), (12, "name byte 0x1f", lambda: s.patch(0x458, b"\x1F")),
                (13, "name .", lambda: s.patch(0x458, b".")), (24, "file in the table", lambda: s.patch(0x450, word(0x459))),
                (24, "file past the disc end", lambda: s.patch(0x450, word(0x1F01)))]:
            s.load()
            program()
            change()
            s.look("open", rules=number, why=f"{note}, and {why}", differs=False)
        s.load()
        program()
        s.lend(0xF, 0)
        s.look("open", rules=9, why=f"one working word too few, and {why}", differs=False)
        s.lend(0x10, 0x1000)


# ---- tables written anew


# ---- fills

LONG = "a clip of more than 32 bits' length; the Rust panics"


def filled(s):
    s.lend(0x1000, 0x1000)
    new_image(s, "the small master: its file filled", 0x2000, A_AT_500, free=False)
    s.edit("replace", 1, Clip(0x100), note="its own size")
    s.peek(0x4FE, 0x10)
    s.edit("replace", 1, Clip(0x100, b"\0"), note="other bytes in their place")
    s.edit("replace", 1, Clip(0x101), note="one more")
    s.edit("replace", 1, Clip(0xFF, b"\x5A"), note="less")
    s.edit("replace", 1, b"clip")
    s.peek(0x500, 8)
    s.edit("replace", 1, b"", note="nothing: as a resize to 0")
    s.edit("replace", 1, b"", note="nothing, for an empty file")
    s.edit("replace", 1, Clip(0x1B00), note="from empty, as far as it goes")
    s.edit("replace", 1, Clip(0x1B01))
    s.load()
    s.edit("replace", 1, Clip(0x1B00), note="as far as it goes")
    s.edit("replace", 1, Clip(0x1B01))
    s.edit("replace_zeros", 1, 0x1B00, note="its own size")
    s.load()
    s.edit("replace", 1, Clip(0x1B01))
    s.edit("replace", 2, b"clip")
    s.edit("replace", 0, b"clip")
    s.edit("replace", 0xFFFFFFFF, b"")
    for length in (0x2000, 0x2001, 0xFFFFFFFF):
        s.edit("replace_zeros", 1, length)
        s.edit("replace_zeros", 0, length)
        s.edit("replace_zeros", 2, length)
    for length in (0x100000000, 0x100000100, 0x100001B00, 0x1FFFFFFFF, 0x200000000):
        s.edit("replace_zeros", 1, length, rules=21, why=LONG, differs=False)
        s.edit("replace_zeros", 0, length, rules=16, why="before the clip's 21; the Rust panics", differs=False)
        s.edit("replace_zeros", 9, length)
    s.edit("rewrite", note="nothing was written")


def memory_of_fills(s):
    new_image(s, "the same with bytes that are not zero: how much memory a fill needs", 0x2000, A_AT_500, files=[(0x500, 0x100)])
    short, few = "one working word too few", "one working byte too few"
    s.lend(0x10, 0x1A)
    s.edit("replace", 1, Clip(0x80), note="words and bytes exactly enough")
    s.load()
    s.lend(0x10, 0x19)
    for length in (0, 1, 0xFF, 0x101, 0x1B00):
        s.edit("replace", 1, Clip(length), rules=9, why=few)
    s.edit("replace", 1, Clip(0x100), note="its own size: no working bytes")
    s.lend(0x10, 0)
    s.edit("replace", 1, Clip(0x100, b"\x77"), note="its own size: no working bytes")
    s.edit("replace", 1, Clip(0x1B01), note="21 before memory")
    s.edit("replace_zeros", 1, 0x100000000, rules=21, why=LONG, differs=False)
    s.edit("replace", 2, b"")
    s.edit("replace", 0, b"")
    s.edit("replace", 1, b"", rules=9, why="no working byte")
    s.lend(0xF, 0x1A)
    s.edit("replace", 1, Clip(0x100), rules=9, why=short + ", even for its own size")
    s.edit("replace", 7, b"", rules=9, why=short + ", before 15")
    s.edit("replace_zeros", 1, 0x100000000, rules=9, why=short + ", before the clip's 21")
    s.lend(0x1000, 0x1000)


def fills_elsewhere(s):
    table = directory(0, 0, 4) + file(0, 0x500, 0x100) + file(2, 0x600, 0x10) + file(4, 0x8801, 0) + b"a\0b\0c\0"
    new_image(s, "file b right behind file a, one multiple of 0x8000 with the empty file c in its place, an image longer than its disc", 0x9100,
              table, user=0x9000, files=[(0x500, 0x100), (0x600, 0x10)])
    s.edit("replace", 1, Clip(0x101), note="it has to move; zeros where it was")
    s.peek(0x4FE, 0x10)
    s.peek(0x80FC, 8)
    s.edit("replace", 1, Clip(0x80), note="there it stays")
    s.load()
    s.edit("replace", 1, Clip(0x1000), note="exactly fits there")
    s.load()
    s.edit("replace", 1, Clip(0x1001))
    s.edit("replace", 2, Clip(0x8A00), note="where it is, up to the disc end")
    s.load()
    s.edit("replace", 2, Clip(0x8A01))
    for length, note in ((0x7FF, "where it is"), (0x800, "elsewhere"), (0x801, "elsewhere, up to where it was")):
        s.edit("replace", 3, Clip(length), note=note)
        s.load()
    s.edit("replace", 3, Clip(0x802), note="the place found holds the file itself")
    s.edit("replace", 3, Clip(0x1000))
    s.edit("replace", 3, Clip(0x1001))
    s.heading("a list: filled, moved, cut, grown, filled again")
    for name, arguments in [("replace", (1, Clip(0x200))), ("move", (1, 0x700)), ("resize", (1, 0x180)), ("resize", (1, 0x200)),
                            ("replace", (2, b"dubbed")), ("insert_file", (0, b"new")), ("move", (4, 0x1000)), ("replace", (4, Clip(0x300))),
                            ("replace", (1, Clip(0x201))), ("make_directories", (0, b"d/e")), ("replace", (5, b"")), ("replace", (4, b"")),
                            ("replace", (3, Clip(3))), ("rewrite", ()), ("replace_zeros", (1, 0x201)), ("replace", (2, Clip(0x10)))]:
        s.edit(name, *arguments)


def fills_and_the_table(s):
    table = directory(0, 0, 4) + file(0, 0x500, 0x10) + file(0, 0x472, 0) + file(0, 0x474, 0) + b"a\0"
    new_image(s, "three files share a text, two of them empty and near the table's end", 0x2000, table, files=[(0x500, 0x10)])
    s.edit("replace", 2, b"1", rules=21, why=GROWN)
    s.edit("replace", 3, Clip(0x80), rules=21, why=GROWN)
    s.edit("replace", 2, b"", note="its own size writes no table")
    s.edit("replace", 1, Clip(0x11))
    s.edit("replace", 2, b"1", note="in the table now: no place but another")
    table = directory(0, 0, 4) + file(0, 0x500, 0x100) + file(0, 0x474, 2) + file(0, 0x600, 2) + b"a\0"
    new_image(s, "a file right behind the table: no table can be written", 0x9000, table, files=[(0x500, 0x100), (0x474, 2), (0x600, 2)])
    s.edit("replace", 1, Clip(0x101), rules=21, why=HALF)
    s.edit("replace", 1, Clip(0xFF))
    s.edit("replace", 1, b"")
    s.edit("replace", 1, Clip(0x100), note="its own size writes no table")
    s.edit("replace", 2, b"12")
    s.edit("replace", 2, b"123")


def fills_of_unopened(s):
    new_image(s, "images that do not open: the small master with another word or byte", 0x2000, A_AT_500, files=[(0x500, 0x100)])
    for text, change, number, why in [
            ("of 0x43f bytes", lambda: s.size(0x43F), None, ""),
            ("of 0x1fff bytes", lambda: s.size(0x1FFF), 4, "bounds that the Rust does not test"),
            ("name `.`", lambda: s.patch(0x458, b"."), None, ""),
            ("file in the table", lambda: s.patch(0x450, word(0x459)), 14, "the Rust panics")]:
        s.load()
        s.heading(text)
        change()
        s.edit("replace", 1, Clip(0x100), rules=number, why=why)
        s.edit("replace", 9, b"", rules=number, why=why)
        s.edit("replace_zeros", 0, 0x200000000, rules=number, why=why)


def fills_beside_the_program(s):
    new_image(s, "a program of 0x123 bytes at 0x1000, behind the table and file a at 0x800", 0x2000, A_AT_800, files=[(0x800, 0x100)])
    put_program(s, 0x1000, (0x100, 0x23))
    s.save()
    s.lend(0x10, 0x1A)

    def image(at, clip, *more):
        return patched(s, (at, clip.bytes()), *more)
    s.edit("replace", 1, Clip(0x100), note="its own size")
    s.edit("replace", 1, Clip(0x801), rules=21, why="a byte into the program, and no free multiple of 0x8000", differs=False)
    s.edit("replace", 1, Clip(0x800), rules="ok", why="up to the program", image=image(0x800, Clip(0x800), (0x454, word(0x800))), differs=False)
    s.edit("replace", 1, Clip(0x801), rules=21, why="a byte more", differs=False)
    s.program(0x1000, 0x123, "as it was")
    s.free_regions()
    new_image(s, "three clusters, the program in the second: a file that has to move finds a place beside it", 0x18000,
              directory(0, 0, 3) + file(0, 0x1000, 0x100) + file(2, 0x1100, 0x10) + b"a\0b\0", files=[(0x1000, 0x100), (0x1100, 0x10)])
    put_program(s, 0x9000, (0, 0x800))
    s.save()
    s.lend(0x14, 0x28)
    for length, why in [(0x101, "file b is right behind it; the larger rest"), (0x8000, "exactly fits there")]:
        moved_ = image(0x10000, Clip(length), (0x1000, bytes(0x100)), (0x450, word(0x10000)), (0x454, word(length)))
        s.edit("replace", 1, Clip(length), rules="ok", why=why, image=moved_, differs=False)
        s.load()
    s.edit("replace", 1, Clip(0x8001), rules=21, why="a byte more than the larger rest has", differs=False)
    s.lend(0x14, 0x27)
    s.edit("replace", 1, Clip(0x101), rules=9, why="one working byte too few", differs=False)
    s.edit("replace", 1, Clip(0x8001), rules=21, why="before memory", differs=False)
    s.lend(0x1000, 0x1000)


# ---- records: used bytes, the largest free region, accepted edits

MOST = 0xFFFFFFFF
COUNT = "the edit count would pass 2^32 - 1"
BELOW = "used bytes would be below 0"
ABOVE = "used bytes would be above 2^32 - 1"


def records_of_edits(s):
    s.lend(0x40, 0x100)
    new_image(s, "the small master: a record is made of it, and handed to an edit", 0x2000, A_AT_500, free=False)
    for name, arguments, record in [
            ("resize", (1, 756), (1870, 6156, 1)), ("resize", (1, 0x100), (1370, 6656, 1)), ("resize", (1, 0), (1114, 7078, 1)),
            ("resize", (1, 0x1B00), (8026, 166, 1)), ("move", (1, 0x600), (1370, 6400, 1)), ("rewrite", (), (1370, 6656, 1)),
            ("insert_file", (0, b"b"), (1384, 6656, 1)), ("insert_directory", (0, b"bb"), (1385, 6656, 1)),
            ("make_directories", (0, b""), (1370, 6656, 1)), ("make_directories", (0, b"n/m"), (1398, 6656, 1)),
            ("replace", (1, b"clip"), (1118, 6908, 1)), ("replace", (1, Clip(0x100)), (1370, 6656, 1)), ("replace_zeros", (1, 756), (1870, 6156, 1))]:
        s.load()
        s.make_record(1370, 6656, "0x45a bytes up to the table's end, and 0x100 of a")
        s.edit(name, *arguments, note="the record by the rules", record=record)
    s.load()
    s.make_record(1370, 6656, "as above")
    for name, arguments in [("move", (1, 0x580)), ("move", (1, 0x400)), ("resize", (1, 0x1B01)), ("resize", (0, 0)), ("replace", (2, b"")),
                            ("insert_file", (0, b"a")), ("insert_directory", (1, b"b")), ("make_directories", (0, b".."))]:
        s.edit(name, *arguments, note="a refused edit leaves the record")
    s.record()
    s.edit("resize", 1, 756, note="none is in use")


def records_made(s):
    s.lend(0x10, 0)
    new_image(s, "records of images that open, and of some that do not", 0x2000, A_AT_500, free=False)
    s.record(1, 2, 3)
    for number, note, change in [(1, "image of 0x43f bytes", lambda: s.size(0x43F)), (3, "no GameCube magic", lambda: s.patch(0x1C, word(0))),
                                 (4, "image of 0x1fff bytes", lambda: s.size(0x1FFF)), (13, "name .", lambda: s.patch(0x458, b".")),
                                 (14, "file in the table", lambda: s.patch(0x450, word(0x459))),
                                 (24, "a header that passes the image", lambda: s.patch(0x420, word(0x1F1D)))]:
        s.load()
        change()
        s.look("make_record", MOST, rules=number, why=note, differs=False)
        s.edit("rewrite", rules=number, why="the record stays", differs=False)
    s.load()
    s.lend(0xF, 0)
    s.look("make_record", MOST, rules=9, why="one working word too few", differs=False)
    s.edit("resize", 1, 0x100, rules=9, why="one working word too few", differs=False)
    s.lend(0x10, 0)
    s.make_record(1370, 6656, "no working byte is wanted")
    s.load()
    s.edit("resize", 1, 0x100, note="the record by the rules; load leaves it", record=(1370, 6656, 1))
    s.record()
    s.lend(0x40, 0x100)
    new_image(s, "no free region", 0x600, directory(0, 0, 2) + file(0, 0x45A, 0x1A6) + b"a\0", free=False)
    s.make_record(0x600, 0, "all of the disc; 0 if none")
    s.edit("rewrite", note="the record by the rules", record=(0x600, 0, 1))
    s.edit("resize", 1, 0x1A5, note="the record by the rules", record=(0x5FF, 1, 2))
    s.edit("resize", 1, 0, note="the record by the rules", record=(0x45A, 0x1A6, 3))
    s.record()
    new_image(s, "a root alone", 0x600, directory(0, 0, 1), free=False)
    s.make_record(0x44C, 0x1B4, "up to the table's end")
    s.edit("insert_file", 0, b"a", note="the record by the rules", record=(0x45A, 0x1A6, 1))
    s.record()
    new_image(s, "a byte more than a can grow: it goes to 0x8000, and its old place is free", 0x9000,
              directory(0, 0, 3) + file(0, 0x500, 0x100) + file(2, 0x600, 0x10) + b"a\0b\0")
    s.make_record(1400, 35312, "1,128 bytes up to the table's end, 256 and 16")
    s.edit("resize", 1, 0x101, note="the record by the rules", record=(1401, 31216, 1))
    s.record()
    new_image(s, "a program of 0x123 bytes at 0x1000, behind the table", 0x2000, A_AT_800, files=[(0x800, 0x100)])
    put_program(s, 0x1000, (0x100, 0x23))
    s.make_record(1661, 3805, BEHIND)
    s.edit("move", 1, 0x1123, rules="ok", why="right behind the program", image=moved(s, 0x800, 0x1123, 0x100), differs=False, record=(1661, 3549, 1))
    s.edit("move", 1, 0xF01, rules=21, why="a byte over the program", differs=False)
    s.record()


def records_handed_on(s):
    s.lend(0x40, 0x100)
    new_image(s, "small master: one record goes through a list of edits", 0x2000, A_AT_500, free=False)
    s.make_record(1370, 6656, "at opening")
    s.edit("insert_directory", 0, b"d", note="the record by the rules", record=(1384, 6656, 1))
    s.edit("insert_file", 2, b"f", note="the record by the rules", record=(1398, 6656, 2))
    s.edit("make_directories", 0, b"d/e", note="the record by the rules", record=(1412, 6656, 3))
    s.edit("insert_file", 0, b"d")
    s.edit("move", 1, 0x1F00, note="the record by the rules", record=(1412, 6780, 4))
    s.edit("resize", 1, 0x101)
    s.edit("resize", 1, 0x80, note="the record by the rules", record=(1284, 6780, 5))
    s.edit("replace", 3, b"x")
    s.edit("move", 3, 0x1000, note="the record by the rules; an empty file", record=(1284, 6780, 6))
    s.edit("replace", 3, Clip(0x10), note="the record by the rules", record=(1300, 3824, 7))
    s.edit("rewrite", note="the record by the rules", record=(1300, 3824, 8))
    s.edit("resize", 1, 0x80, note="the record by the rules; the present size", record=(1300, 3824, 9))
    s.look("totals")
    s.look("free_regions")
    s.make_record(1300, 3824, "worked out afresh")
    s.record()


def records_that_hold_anything(s):
    s.lend(0x40, 0x100)
    new_image(s, "small master: the count, which goes up to 2^32 - 1", 0x2000, A_AT_500, free=False)
    s.record(1370, 6656, MOST - 1)
    s.edit("rewrite", note="the record by the rules", record=(1370, 6656, MOST))
    for name, arguments in [("rewrite", ()), ("resize", (1, 0x100)), ("resize", (1, 0)), ("move", (1, 0x600)), ("insert_file", (0, b"b")),
                            ("insert_directory", (0, b"b")), ("make_directories", (0, b"")), ("make_directories", (0, b"b")),
                            ("replace", (1, Clip(0x100))), ("replace", (1, b"")), ("replace_zeros", (1, 0x101))]:
        s.edit(name, *arguments, rules=25, why=COUNT)
    s.heading("used bytes: from 0 to 2^32 - 1, whatever the image is")
    for used, name, arguments, record in [
            (0, "resize", (1, 0xFF), None), (1, "resize", (1, 0xFF), (0, 6657, 1)), (255, "replace", (1, b""), None), (256, "replace", (1, b""), (0, 7078, 1)),
            (0, "resize", (1, 0x101), (1, 6655, 1)), (MOST, "resize", (1, 0x101), None), (MOST - 1, "resize", (1, 0x101), (MOST, 6655, 1)),
            (MOST - 13, "insert_file", (0, b"b"), None), (MOST - 14, "insert_file", (0, b"b"), (MOST, 6656, 1)),
            (MOST - 27, "make_directories", (0, b"n/m"), None), (MOST - 28, "make_directories", (0, b"n/m"), (MOST, 6656, 1)),
            (MOST, "move", (1, 0x600), (MOST, 6400, 1)), (0, "move", (1, 0x600), (0, 6400, 1)), (MOST, "resize", (1, 0x100), (MOST, 6656, 1)),
            (0, "rewrite", (), (0, 6656, 1))]:
        s.load()
        s.record(used, MOST, 0)
        if record:
            s.edit(name, *arguments, note="the record by the rules", record=record)
        else:
            s.edit(name, *arguments, rules=25, why=ABOVE if used > 256 else BELOW)
    s.load()
    s.patch(0x428, word(0x20))
    s.save()
    s.heading("six bytes of slack behind the texts: a table that is written gives them back")
    s.make_record(1376, 6656, "0x460 bytes up to the table's end, and 0x100 of a")
    s.edit("resize", 1, 0x100, note="the record by the rules; no table is written", record=(1376, 6656, 1))
    s.edit("move", 1, 0x600, note="the record by the rules", record=(1370, 6400, 2))
    for used, name, arguments, record in [(5, "rewrite", (), None), (6, "rewrite", (), (0, 6656, 1)), (5, "move", (1, 0x600), None),
                                          (6, "move", (1, 0x600), (0, 6400, 1)), (0, "resize", (1, 0x106), (0, 6650, 1)), (0, "resize", (1, 0x105), None),
                                          (MOST, "resize", (1, 0x106), (MOST, 6650, 1)), (MOST, "resize", (1, 0x107), None)]:
        s.load()
        s.record(used, 7, 0)
        if record:
            s.edit(name, *arguments, note="the record by the rules", record=record)
        else:
            s.edit(name, *arguments, rules=25, why=ABOVE if used > 256 else BELOW)
    s.record()


def records_last(s):
    s.lend(0x10, 0x1A)
    new_image(s, "small master: every other number comes before 25", 0x2000, A_AT_500, free=False)
    s.record(MOST, 0, MOST)
    for name, arguments in [("resize", (2, 0)), ("resize", (0, 0)), ("move", (1, 0x500)), ("move", (1, 0x400)), ("resize", (1, 0x1B01)),
                            ("insert_file", (0, b"a")), ("insert_file", (1, b"b")), ("insert_file", (0, b"..")), ("make_directories", (0, b"..")),
                            ("make_directories", (0, b"a")), ("replace", (0, b"")), ("replace_zeros", (1, MOST))]:
        s.edit(name, *arguments)
    s.edit("replace_zeros", 1, MOST + 1, rules=21, why=LONG, differs=False)
    s.edit("insert_file", 0, b"\x01", rules=12, why=BYTES)
    s.edit("insert_file", 0, b"b", rules=9, why="four working words too few")
    s.edit("rewrite", rules=25, why=COUNT)
    s.lend(0x10, 0x19)
    s.edit("rewrite", rules=9, why="one working byte too few")
    s.edit("resize", 1, 0x101, rules=9, why="one working byte too few")
    s.lend(0x10, 0)
    s.edit("resize", 1, 0x100, rules=25, why=COUNT)
    s.edit("replace", 1, Clip(0x100), rules=25, why=COUNT)
    s.lend(0x40, 0x100)
    s.record()
    table = directory(0, 0, 3) + file(0, 0x466, 0x10) + file(0, 0x600, 0x10) + b"a\0"
    new_image(s, "two names share a text, and there is no room for both: the table's 21 before 25", 0x2000, table, free=False,
              files=[(0x466, 0x10), (0x600, 0x10)])
    for record in [(MOST, 0, 0), (0, 0, 0), (0, 0, MOST)]:
        s.record(*record)
        s.edit("rewrite")
        s.edit("make_directories", 0, b"")
        s.edit("insert_directory", 0, b"b")
        s.edit("resize", 2, 0x11)
        s.edit("resize", 2, 0xF)
        s.edit("move", 2, 0x700, rules=21, why=HALF)
    s.edit("resize", 2, 0x10, rules=25, why=COUNT)
    s.record(5, 6, 7)
    s.edit("resize", 2, 0x10, note="the record by the rules", record=(5, 6640, 8))
    s.record()


STATED = "new table above the maximum"


def state(s, maximum):
    """The image as it was kept, with this FST maximum."""
    s.load()
    s.patch(0x42C, word(maximum))


def above(s, name, *arguments, why=STATED):
    """An edit whose table is above the maximum, which the Rust does not look at: it says something else."""
    s.edit(name, *arguments, rules=26, why=why)


# Each edit that writes a table of the small master, how long that is, and the record that it makes of one of the image.
WRITES = [("rewrite", (), 0x1A, (1370, 6656, 1)), ("move", (1, 0x600), 0x1A, (1370, 6400, 1)), ("resize", (1, 0xFF), 0x1A, (1369, 6657, 1)),
          ("resize", (1, 0x101), 0x1A, (1371, 6655, 1)), ("resize", (1, 0), 0x1A, (1114, 7078, 1)), ("replace", (1, b"clip"), 0x1A, (1118, 6908, 1)),
          ("replace", (1, Clip(0x101)), 0x1A, (1371, 6655, 1)), ("replace_zeros", (1, 756), 0x1A, (1870, 6156, 1)),
          ("make_directories", (0, b""), 0x1A, (1370, 6656, 1)), ("insert_file", (0, b"b"), 0x28, (1384, 6656, 1)),
          ("insert_directory", (0, b"bb"), 0x29, (1385, 6656, 1)), ("make_directories", (0, b"b"), 0x28, (1384, 6656, 1)),
          ("make_directories", (0, b"n/m"), 0x36, (1398, 6656, 1))]
# Those that write none.
KEEPS = [("resize", (1, 0x100)), ("replace", (1, Clip(0x100))), ("replace_zeros", (1, 0x100))]


def maxima_of_the_small_master(s):
    s.lend(0x40, 0x100)
    new_image(s, "the small master, with a table of 0x1a bytes", 0x2000, A_AT_500, free=False)
    s.heading("FST maximum 0x1a")
    state(s, 0x1A)
    s.look("open")
    s.edit("rewrite")
    above(s, "insert_file", 0, b"b")
    above(s, "insert_directory", 0, b"b")
    above(s, "make_directories", 0, b"b")
    s.heading("FST maximum 0x19")
    state(s, 0x19)
    s.look("open", note="its table is larger already")
    s.look("header")
    above(s, "rewrite")
    s.look("totals")
    s.look("free_regions")
    s.text("list", 0x46)
    for name, arguments in KEEPS:
        s.edit(name, *arguments, note="no table is written")
    s.heading("FST maximum 0")
    state(s, 0)
    s.look("open")
    for name, arguments, _, _ in WRITES:
        s.load()
        s.edit(name, *arguments)


def maxima_around_the_new_table(s):
    s.lend(0x40, 0x100)
    new_image(s, "small master: each edit with a maximum a byte too small for its table, just enough and a byte more, 1, and 2^32 - 1", 0x2000, A_AT_500,
              files=[(0x500, 0x100)])
    for name, arguments, size, record in WRITES:
        s.heading(f"{CALLS.get(name, name)}: a table of {n(size)} bytes")
        for maximum in (1, size - 1, size, size + 1, MOST):
            state(s, maximum)
            s.make_record(1370, 6656, "whatever the maximum is")
            if maximum < size:
                above(s, name, *arguments)
            else:
                s.edit(name, *arguments, note="the record by the rules", record=record)
                s.peek(0x424, 0xC)
    for name, arguments in KEEPS:
        state(s, 1)
        s.make_record(1370, 6656, "whatever the maximum is")
        s.edit(name, *arguments, note="the record by the rules; no table is written", record=(1370, 6656, 1))
    s.record()


def maxima_of_larger_tables(s):
    s.lend(0x40, 0x100)
    new_image(s, "small master with six bytes of slack behind the texts: its table is edited down to the maximum", 0x2000, A_AT_500, free=False)
    s.patch(0x428, word(0x20))
    s.save()
    for maximum in (0x1A, 0x1F, 0x20):
        state(s, maximum)
        s.look("open")
        s.edit("resize", 1, 0x100, note="no table is written")
        above(s, "insert_file", 0, b"b")
        s.edit("move", 1, 0x600)
        s.look("open")
        s.peek(0x424, 0xC)
    state(s, 0x19)
    s.look("open")
    above(s, "rewrite", why=STATED + ", though shorter than the present one")
    above(s, "move", 1, 0x600)
    s.edit("replace", 1, Clip(0x100), note="no table is written")
    state(s, 0x28)
    s.edit("insert_file", 0, b"b", note="exactly as long")
    above(s, "insert_file", 0, b"c")
    s.edit("resize", 2, 1)
    s.edit("move", 1, 0x600)
    table = directory(0, 0, 3) + file(0, 0x500, 0x100) + file(0, 0x700, 0x10) + b"a\0"
    new_image(s, "two files share a text: a table of 0x26 bytes, and of 0x28 when it is written", 0x2000, table, files=[(0x500, 0x100), (0x700, 0x10)])
    shared = STATED + ": texts are never shared in it"
    for maximum in (0x25, 0x26, 0x27):
        state(s, maximum)
        s.look("open")
        above(s, "rewrite", why=shared)
        above(s, "make_directories", 0, b"", why=shared)
        above(s, "resize", 2, 0xF, why=shared)
        above(s, "move", 2, 0x800, why=shared)
        s.edit("resize", 2, 0x10, note="no table is written")
    state(s, 0x28)
    s.edit("rewrite", note="exactly as long")
    s.peek(0x424, 0xC)
    above(s, "insert_file", 0, b"b")


def maxima_of_lists(s):
    s.lend(0x40, 0x100)
    new_image(s, "small master, FST maximum 0x36: a list of edits, with a record", 0x2000, A_AT_500, free=False)
    state(s, 0x36)
    s.make_record(1370, 6656, "at opening")
    s.edit("insert_directory", 0, b"d", note="the record by the rules", record=(1384, 6656, 1))
    above(s, "make_directories", 0, b"d/e/f")
    above(s, "insert_file", 2, b"ff")
    s.edit("insert_file", 2, b"f", note="the record by the rules; exactly as long", record=(1398, 6656, 2))
    above(s, "make_directories", 0, b"d/e")
    above(s, "insert_file", 0, b"e")
    s.edit("make_directories", 0, b"d", note="the record by the rules; all are there", record=(1398, 6656, 3))
    s.edit("replace", 3, b"x")
    s.edit("move", 3, 0x1000, note="the record by the rules", record=(1398, 6656, 4))
    s.edit("replace", 3, Clip(0x10), note="the record by the rules", record=(1414, 4080, 5))
    s.edit("move", 1, 0x1F00, note="the record by the rules", record=(1414, 3824, 6))
    s.edit("resize", 1, 0x80, note="the record by the rules", record=(1286, 3824, 7))
    s.edit("rewrite", note="the record by the rules", record=(1286, 3824, 8))
    s.look("open")
    s.peek(0x424, 0xC)
    s.record()


def maxima_and_other_numbers(s):
    s.lend(0x14, 0x28)
    new_image(s, "small master, FST maximum 1: what comes before 26", 0x2000, A_AT_500, free=False)
    state(s, 1)
    s.save()
    for name, arguments in [("resize", (2, 0)), ("resize", (0, 0)), ("move", (1, 0x500)), ("move", (1, 0x580)), ("move", (1, 0x400)),
                            ("resize", (1, 0x1B01)), ("insert_file", (0, b"a")), ("insert_file", (1, b"b")), ("insert_file", (0, b"..")),
                            ("make_directories", (0, b"..")), ("make_directories", (0, b"a")), ("make_directories", (0, b"b/:")),
                            ("replace", (0, b"")), ("replace_zeros", (1, MOST))]:
        s.edit(name, *arguments)
    s.edit("replace_zeros", 1, MOST + 1, rules=21, why=LONG, differs=False)
    s.edit("insert_file", 0, b"\x01", rules=12, why=BYTES)
    s.edit("make_directories", 0, b"b/\x01", rules=12, why=BYTES)
    s.edit("make_directories", 0, b"/" * 1025, rules=9, why="a path over 1,024 bytes")
    above(s, "insert_file", 0, b"b")
    s.edit("insert_file", 0, b"bb", rules=9, why="one working byte too few")
    s.edit("make_directories", 0, b"b/c", rules=9, why="four working words too few")
    s.lend(0x13, 0x28)
    s.edit("insert_file", 0, b"b", rules=9, why="one working word too few")
    s.lend(0x10, 0x1A)
    above(s, "rewrite")
    s.lend(0x10, 0x19)
    s.edit("rewrite", rules=9, why="one working byte too few")
    s.edit("move", 1, 0x600, rules=9, why="one working byte too few")
    s.lend(0x10, 0)
    for name, arguments in KEEPS:
        s.edit(name, *arguments, note="no table is written")
    s.lend(0x40, 0x100)
    for text, change, number, why in [
            ("image of 0x43f bytes", lambda: s.size(0x43F), None, ""), ("no GameCube magic", lambda: s.patch(0x1C, word(0)), None, ""),
            ("image of 0x1fff bytes", lambda: s.size(0x1FFF), 4, "bounds that the Rust does not test"),
            ("FST size 23", lambda: s.patch(0x428, word(23)), None, ""), ("name `.`", lambda: s.patch(0x458, b"."), None, ""),
            ("file in the table", lambda: s.patch(0x450, word(0x459)), 14, "the Rust panics")]:
        s.load()
        s.heading(text)
        change()
        s.edit("rewrite", rules=number, why=why)
    s.load()
    s.heading("25 comes behind it")
    for record in [(MOST, 0, MOST), (0, 0, 0), (MOST, 0, 0)]:
        s.record(*record)
        for name, arguments, _, _ in WRITES:
            above(s, name, *arguments)
    s.record(1370, 6656, MOST)
    s.edit("resize", 1, 0x100, rules=25, why=COUNT)
    s.patch(0x42C, word(0x1A))
    s.edit("rewrite", rules=25, why=COUNT)
    above(s, "insert_file", 0, b"b")
    s.record()


def maxima_and_the_tables_place(s):
    s.lend(0x40, 0x100)
    table = directory(0, 0, 3) + file(0, 0x466, 0x10) + file(0, 0x700, 0x10) + b"a\0"
    new_image(s, "two names share a text, and there is no room for both: 26 before the table's 21", 0x2000, table, files=[(0x466, 0x10), (0x700, 0x10)])
    for maximum in (0x26, 0x27):
        state(s, maximum)
        for name, arguments in [("rewrite", ()), ("make_directories", (0, b"")), ("insert_directory", (0, b"b")), ("resize", (2, 0x11)),
                                ("resize", (1, 0)), ("move", (2, 0x900)), ("move", (1, 0x900)), ("replace", (2, b"clip"))]:
            above(s, name, *arguments)
        s.edit("move", 2, 0x701, note="before the table")
        s.edit("move", 2, 0x466, note="before the table")
        s.edit("resize", 2, 0x10, note="no table is written")
    for maximum in (0x28, MOST, 0):
        state(s, maximum)
        s.edit("rewrite")
        s.edit("resize", 1, 0)
        s.edit("move", 2, 0x900, rules=21, why=HALF)
    state(s, 0x28)
    above(s, "insert_file", 0, b"b")
    table = directory(0, 0, 3) + file(0, 0x500, 0x100) + file(0, 0x700, 0x10) + b"a\0"
    new_image(s, "the same with room, and the second file is moved in where the table will stand", 0x2000, table, files=[(0x500, 0x100), (0x700, 0x10)])
    for maximum in (0x27, 0x28):
        state(s, maximum)
        for at in (0x466, 0x467):
            if maximum < 0x28:
                above(s, "move", 2, at)
            else:
                s.edit("move", 2, at, rules=21, why=SHARED)
        if maximum < 0x28:
            above(s, "move", 2, 0x468)
        else:
            s.edit("move", 2, 0x468, note="right behind the grown table")
    new_image(s, "a program right behind the table of 0x1a bytes", 0x2000, A_AT_800, files=[(0x800, 0x100)])
    put_program(s, 0x45A)
    s.save()
    for maximum, number in [(0x19, 26), (0x1A, 26), (0x27, 26), (0x28, 21), (0, 21)]:
        state(s, maximum)
        s.edit("insert_file", 0, b"b", rules=number, why=STATED if number == 26 else "14 bytes more")
        if maximum == 0x19:
            above(s, "rewrite")
            above(s, "move", 1, 0x900)
        else:
            s.edit("rewrite", rules="ok", why="a table of the same size", differs=False)
            s.edit("move", 1, 0x900, rules="ok", why="a table of the same size", image=moved(s, 0x800, 0x900, 0x100), differs=False)
        s.edit("move", 1, 0x500, rules=21, why="over the program", differs=False)
    s.program(0x45A, 0xE4, "as it was")


def tables(s):
    """An image whose table is each of these, written anew, and every entry read back; and with just as many working bytes as that takes."""
    shared = (directory(0, 7, 8) + directory(1, 5, 5) + file(1, 0x10000, 0x10) + directory(3, 0, 5) + file(4, 0x10100, 0x20) + file(6, 0x10200, 0x30)
              + directory(8, 6, 7) + file(0, 0x2FFFFFFF, 0) + b"xdata\0file\0slack\0")
    ends = directory(0, 0, 21) + b"".join(file(k, 0x10000 + 0x20 * k, k) for k in range(20)) + b"abcdefghijklmnopqrst\0"
    s.lend(0x1000, 0x1000)
    for heading, table in [
            ("the small master's table", A_AT_500),
            ("names share texts, stored parents are wrong, texts are unused", shared),
            ("64 directories one in the other, and a file", directory(0, 0, 66) + directory(0, 99, 66) * 64 + file(0, 0x10000, 1) + b"d\0"),
            ("a root alone", directory(0, 0, 1)),
            ("a root alone, with texts", directory(0, 3, 1) + b"unused\0"),
            ("20 names that are ends of one text", ends)]:
        new_image(s, "a table written anew: " + heading, 0x11000, table)
        s.edit("rewrite")
        size = int.from_bytes(s.bytes_at(0x428, 4), "big")
        s.peek(0x440, size)
        for k in range(len(s.oracle.setting("list").split())):
            s.look("entry", k)
        s.load()
        s.lend(0x1000, size - 1)
        s.edit("rewrite", rules=9, why="one working byte too few")
        s.lend(0x1000, size)
        s.edit("rewrite", note="just enough working bytes")
        s.lend(0x1000, 0x1000)


# ---- one tree, one table: `/a/a/ba` and its images. As an edit writes it the table has 0x37 bytes.

WRITTEN = directory(0, 0, 4) + directory(0, 0, 4) + directory(2, 1, 4) + file(4, 0x500, 0x100) + b"a\0a\0ba\0"
SHARINGS = (("no name is shared", b"a\0a\0ba\0", (0, 2, 4)), ("equal names are shared", b"a\0ba\0", (0, 0, 2)),
            ("names are the end of another", b"ba\0", (1, 1, 0)), ("texts in another order", b"ba\0a\0a\0", (5, 3, 0)),
            ("slack before, between and behind", b"zz\0a\0q\0a\0\0ba\0slack\0", (3, 7, 10)))
PARENTS = ((0, 0, 1), (0, 0, 0), (7, 2, 1), (MOST, MOST, MOST))


def one_tree(sharing, parents=PARENTS[0], root=0, at=0x500):
    _, texts, names = sharing
    records = directory(root, parents[0], 4) + directory(names[0], parents[1], 4) + directory(names[1], parents[2], 4)
    return records + file(names[2], at, 0x100) + texts


def one_table(s, table, fst=0x440):
    """The table that stands there is this one."""
    assert s.bytes_at(0x424, 8) == word(fst) + word(len(table)) and s.bytes_at(fst, len(table)) == table
    s.peek(fst, len(table))


def rewritten(s, table, fst=0x440):
    """A rewrite writes this table, and a second one alters nothing."""
    s.edit("rewrite")
    one_table(s, table, fst)
    before = s.oracle.checksum()
    s.edit("rewrite", note="a second one")
    assert s.oracle.checksum() == before


def one_tree_rewritten(s):
    s.lend(0x1000, 0x1000)
    for sharing in SHARINGS:
        new_image(s, f"one tree, and {sharing[0]}; then other stored parents, and a name offset of the root", 0x2000, one_tree(sharing),
                  files=[(0x500, 0x100)])
        rewritten(s, WRITTEN)
        left = [s.oracle.checksum()]
        for parents, root in zip(PARENTS[1:], (0, 2, 0xFFFFFF)):
            s.load()
            for number, parent in enumerate(parents):
                if parent != PARENTS[0][number]:
                    s.patch(0x444 + 12 * number, word(parent))
            if root:
                s.patch(0x441, word(root)[1:])
            rewritten(s, WRITTEN)
            left.append(s.oracle.checksum())
        assert left == left[:1] * 4, "bytes that no edit reads have an influence"
    for fst, sharing in [(0x44B, SHARINGS[2]), (0x480, SHARINGS[4]), (0x4C9, SHARINGS[3])]:
        new_image(s, f"the same tree with its table at {n(fst)}, and {sharing[0]}", 0x2000, one_tree(sharing, PARENTS[2], 1), fst=fst,
                  files=[(0x500, 0x100)])
        rewritten(s, WRITTEN, fst)


def one_tree_edited(s):
    """Two of its images: the shortest texts, which grow, and texts with slack, which get shorter."""
    a, ba = directory(2, 1, 4), file(4, 0x500, 0x100)
    of_file = lambda at, size: WRITTEN[:0x28] + word(at) + word(size) + WRITTEN[0x30:]
    edits = [
        ("insert_file", (1, b"c"), directory(0, 0, 5) * 2 + a + ba + file(7, 0, 0) + b"a\0a\0ba\0c\0"),
        ("insert_directory", (2, b"ba."), directory(0, 0, 5) * 2 + directory(2, 1, 5) + ba + directory(7, 2, 5) + b"a\0a\0ba\0ba.\0"),
        ("make_directories", (0, b"a/./a/../a"), WRITTEN),
        ("make_directories", (1, b"a/x/y"), directory(0, 0, 6) * 2 + directory(2, 1, 6) + ba + directory(7, 2, 6) + directory(9, 4, 6)
         + b"a\0a\0ba\0x\0y\0"),
        ("move", (3, 0x1000), of_file(0x1000, 0x100)), ("resize", (3, 0x80), of_file(0x500, 0x80)), ("resize", (3, 0), of_file(0x500, 0)),
        ("replace", (3, b"clip"), of_file(0x500, 4)), ("resize", (3, 0x180), of_file(0x500, 0x180))]
    for parents, sharing in [(PARENTS[3], SHARINGS[2]), (PARENTS[1], SHARINGS[4])]:
        new_image(s, f"one tree, and {sharing[0]}: edits of it", 0x2000, one_tree(sharing, parents, 1), files=[(0x500, 0x100)])
        for name, arguments, table in edits:
            s.load()
            s.edit(name, *arguments)
            one_table(s, table)


def one_tree_refused(s):
    """The file lies right behind the written table: one image has room for it, the other has not, and may lack memory too."""
    for fst, sharing in [(0x440, SHARINGS[0]), (0x440, SHARINGS[1]), (0x444, SHARINGS[2])]:
        table = one_tree(sharing, at=0x477)
        new_image(s, f"one tree, its table at {n(fst)}, and {sharing[0]}: a file at 0x477", 0x2000, table, fst=fst, files=[(0x477, 0x100)])
        if fst == 0x440:
            rewritten(s, WRITTEN.replace(word(0x500), word(0x477)))
        else:
            s.edit("rewrite")
        state(s, 0x36)
        above(s, "rewrite")
        s.lend(0x1000, 0x36)
        s.edit("rewrite", rules=9, why="one working byte too few")
        s.lend(0x1000, 0x1000)


def one_tree_grown_apart(s):
    """Not of a growth that looks for a place: the tables end at 0x7000 and at 0x9000."""
    table = directory(0, 0, 3) + file(0, 0x20000, 0x10) + file(2, 0x20010, 0x10) + b"a\0b\0"
    for end, place in [(0x7000, 0x8000), (0x9000, 0x10000)]:
        fst = end - len(table)
        new_image(s, f"two files, the first of which has to grow elsewhere; the table ends at {n(end)}", 0x20020, table, fst=fst,
                  files=[(0x20000, 0x10), (0x20010, 0x10)])
        rewritten(s, table, fst)
        s.edit("resize", 1, 0x20, note=f"goes to {n(place)}")
        one_table(s, table[:0x10] + word(place) + word(0x20) + table[0x18:], fst)


# ---- Japanese names. What the Rust's codec turns back into equal bytes is the Rust's to answer; the oracle skips the rest.

LEAD = "a lead byte without its trail"
AFRESH = LEAD + "; the byte after it is looked at anew"
PAIR = "a pair like any other; the Rust's codec does not read it"
UNWRITTEN = "a pair like any other; the Rust's codec reads it and does not write it"
OTHER = "a pair like any other; the Rust's codec writes another for it"


def japanese(text):
    return text.encode("shift_jis")


def one_name(name):
    """The small master's table with this name for its file."""
    return directory(0, 0, 2) + file(0, 0x500, 0x100) + name + b"\0"


def names_opened(s):
    s.lend(0x1000, 0x1000)
    for name, note in [
            (japanese("表"), "the trail byte 0x5c is no backslash"), (japanese("ソフト.bin"), ""), (japanese("構成／予定"), ""), (japanese("＼"), ""),
            (b"\xA1", "the first single byte"), (b"\xDF", "the last"), (b"\x81\x40", "the first lead byte and the first trail"),
            (b"\x81\x7E", "trail 0x7e"), (b"\x81\x80", "trail 0x80"), (b"\x9F\xFC", "lead 0x9f, the last trail"), (b"\xE0\x40", "lead 0xe0"),
            (b"\xFC\x4B", "lead 0xfc"), (b"\x81\x81", ""), (b"\xB1\x95\x5C.", "a single byte, a pair, a dot"), (b".\xB1", ""), (b"..\x95\x5C", ""),
            (b"\x81\x81\x5C", "a pair, and then a backslash"), (b"\x5C\x81\x81", ""), (b"\x95\x5C\x5C", ""), (b"\x95\x5C:", ""), (b"\x95\x5C/", ""),
            (b"\x81", LEAD), (b"a\x9F", LEAD), (b"\xE0.", LEAD), (b"\xFC\x3F", LEAD + ": 0x3f is none"), (b"\x81\x7F", "0x7f is no trail"),
            (b"\x81\xFD", "0xfd is no trail"), (b"\x81:", LEAD + "; 12 before 13"), (b"\x81/", LEAD + "; 12 before 13"), (b"\x81\x95\x5C\x95", LEAD),
            (b"\xA0", BYTES), (b"\xFD", BYTES), (b"\xFD\x40", "0xfd is no lead byte"), (b"\xFE", BYTES), (b"\xFF", BYTES)]:
        new_image(s, f"the small master with the name {name.hex(' ')}", 0x2000, one_name(name), files=[(0x500, 0x100)])
        s.look("open", note=note)
        s.edit("rewrite")
    opened = [0, 0x440, 0x1B, 0x2000, 2, 0x55B]
    for name, answer, why in [
            (b"\x80", 12, BYTES), (b"\x80\x40", 12, "0x80 is no lead byte"), (b"\x7F", 12, BYTES), (b"\x81\xAD", opened, PAIR), (b"\xFC\xFC", opened, PAIR),
            (b"\xEF\x5C", opened, PAIR), (b"\x81\xAD:", 13, PAIR + ", and so a colon is met")]:
        new_image(s, f"the small master with the name {name.hex(' ')}", 0x2000, one_name(name), files=[(0x500, 0x100)])
        s.look("open", rules=answer, why=why)
        s.edit("rewrite", rules="ok" if answer == opened else answer, why=why)


def names_shared(s):
    """Each name is cut from its own start, also inside a pair of another."""
    for text, places in [
            (japanese("文字.表"), (0, 1, 2, 4, 5)), (japanese("文字.表"), (3,)), (japanese("文字.表"), (6,)), (b"\x81\x95\x5Ca", (0,)), (b"\x81\x95\x5Ca", (1,)),
            (b"\x81\x95\x5Ca", (2,)), (b"\x81\x95\x5Ca", (3,)), (b"\x83\x83\x83\xB1a", (0, 1, 2, 3, 4)), (b"\xE0\x9F\x83\x5C\xDF", (0, 2, 4)),
            (b"\xE0\x9F\x83\x5C\xDF", (1,))]:
        table = directory(0, 0, len(places) + 1) + b"".join(file(at, 0x600 + 0x20 * k, 0x10) for k, at in enumerate(places)) + text + b"\0"
        new_image(s, f"one text, {text.hex(' ')}, with names from " + ", ".join(map(str, places)), 0x2000, table,
                  files=[(0x600 + 0x20 * k, 0x10) for k in range(len(places))])
        s.look("open")
        for at in places:
            s.look("lookup", 0, text[at:] if at != 3 or text[0] != 0x95 else b"x")
        s.edit("rewrite", note="names are no longer shared")
        s.edit("move", 1, 0x1000)


def japanese_table():
    """字幕, in it 表.bin, ソ and the directory 能, in it ｱ; ｱ; and a, all of them with texts of their own."""
    texts, places = b"", {}
    for text in ("字幕", "表.bin", "ソ", "能", "ｱ", "a"):
        places[text] = len(texts)
        texts += japanese(text) + b"\0"
    at = places.__getitem__
    return (directory(0, 0, 8) + directory(at("字幕"), 0, 6) + file(at("表.bin"), 0x600, 0x100) + file(at("ソ"), 0x800, 0x10)
            + directory(at("能"), 1, 6) + file(at("ｱ"), 0x820, 0x10) + file(at("ｱ"), 0x840, 0) + file(at("a"), 0x900, 0x10) + texts)


def names_looked_up(s):
    new_image(s, "directories and files with Japanese names, some with the trail byte 0x5c: reading", 0x2000, japanese_table(),
              files=[(0x600, 0x100), (0x800, 0x10), (0x820, 0x10), (0x900, 0x10)])
    s.look("open")
    for k in range(9):
        s.look("entry", k)
    s.text("list", 0x400)
    s.text("report", 0x400)
    for start, path in [
            (0, "字幕"), (0, "字幕/表.bin"), (0, "字幕\\表.bin"), (0, "字幕\\能\\ｱ"), (0, "/字幕//能/./"), (0, "字幕/ソ"), (0, "字幕/ソ/"), (0, "字幕/ソ\\"),
            (0, "ｱ"), (0, "字幕/能/../表.bin"), (0, "字幕/能/ｱ/.."), (1, "能"), (4, "ｱ"), (4, ".."), (0, "表.bin"), (0, "字"), (0, "字幕幕"), (0, "能"),
            (0, "ｲ"), (0, "字幕/表"), (0, "ａ"), (0, "Ａ"), (8, "字幕")]:
        s.look("lookup", start, japanese(path))
    stray = "in a path a lead byte without its trail is a byte of its component"
    for start, path, number, why in [
            (0, b"\x81", 18, stray), (0, b"a\x81", 18, stray), (0, b"\x81/a", 18, stray), (0, b"\x81/../a", 18, stray), (0, b"a/\x81", 17, stray),
            (0, japanese("字幕/") + b"\x81/x", 18, stray), (0, b"../\x81", 18, "above the start, before that byte"), (0, b"\xA0", 18, BYTES),
            (0, b"\xFD\xB1", 18, BYTES), (0, b"\x8E", 18, "the first byte of a name"), (8, b"\x81", 15, "15 before all else"),
            (0, b"\x9A\x96\x8B", 18, "a name from inside its first pair on"),
            (0, b"\x81\xAD", 18, PAIR), (0, b"\xF0\x40", 18, UNWRITTEN)]:
        s.look("lookup", start, path, rules=number, why=why)
    s.look("lookup", 0, b"\x81\x81\x5C" * 341 + b"/", note="1,024 bytes")
    s.look("lookup", 0, b"\x81\x81\x5C" * 341 + b"\x81\x81", rules=9, why="a path over 1,024 bytes")


def names_edited(s):
    new_image(s, "the same names: edits", 0x2000, japanese_table(), files=[(0x600, 0x100), (0x800, 0x10), (0x820, 0x10), (0x900, 0x10)])
    s.edit("rewrite")
    s.edit("move", 2, 0x1000)
    s.edit("resize", 2, 0x200)
    s.edit("replace", 3, Clip(0x20))
    s.edit("insert_file", 1, japanese("ソ"), note="it is there")
    s.edit("insert_file", 0, japanese("ソ"))
    s.edit("insert_directory", 4, japanese("第１話"))
    s.edit("insert_file", 4, japanese("第１話"))
    s.edit("make_directories", 0, japanese("字幕\\能\\第１話\\表/十"))
    s.edit("make_directories", 0, japanese("字幕/能/第１話/表"), note="all exist")
    s.edit("make_directories", 0, japanese("字幕/ソ/x"))
    s.edit("make_directories", 0, japanese("ソ/../x"))
    s.text("list", 0x400)
    s.edit("move", 5, 0x1400)
    s.edit("rewrite")
    s.load()
    for name in (b"\x81\x81\x5C", b"\x95\x5C:", b"\x95\x5C/a", b"\x5C"):
        s.edit("insert_file", 0, name)
        s.edit("insert_directory", 7, name, note="13 before 17")
    for name, number, why in [
            (b"\x81", 12, LEAD), (b"a\xE0", 12, LEAD), (b"\x81.", 12, LEAD), (b"\x81\x7F", 12, LEAD), (b"\x81\x20", 12, LEAD), (b"\x81:", 13, AFRESH),
            (b"\x81/", 13, AFRESH), (b"\x81\x81\x81", 12, LEAD), (b"\x95\x5C\x95", 12, LEAD), (b"\xA0", 12, BYTES), (b"\x80", 12, BYTES),
            (b"\xFD\x40", 12, BYTES), (b"\x81\xFD", 12, LEAD)]:
        s.edit("insert_file", 0, name, rules=number, why=why)
    s.edit("insert_file", 7, b"\x81", rules=17, why=LEAD + "; 17 before 12")
    s.edit("insert_directory", 8, b"\x81", rules=15, why=LEAD + "; 15 first")
    for path, number, why in [
            (b"\x81", 12, LEAD), (b"x/\x81/y", 12, LEAD), (b"\x81/../x", 12, LEAD), (b"\x81/x:", 13, LEAD + "; 12 last"), (b"\x81/../..", 18, LEAD + "; 12 last"),
            (b"\x81/../a", 17, LEAD + "; 12 last"), (b"\x81:", 13, AFRESH), (b"\x95\x5C\x5C\x95", 12, LEAD),
            (b"x\x5C\xA0", 12, BYTES), (japanese("字幕/ソ/") + b"\x81", 17, LEAD + "; 12 last")]:
        s.edit("make_directories", 0, path, rules=number, why=why)


def names_that_do_not_come_back(s):
    def named(at, name, command):
        """The image by the rules: the Rust's with a pair that comes back, and the name's bytes put in its place."""
        def make():
            s.oracle.setting(command)
            s.oracle.setting(f"patch {at} {name.hex()}")
        return make

    def stood_for(name, command, at=0x458):
        """The same for the name that the small master has; `at`: where it lies afterwards."""
        def make():
            s.oracle.setting("patch 0x458 8140")
            named(at, name, command)()
        return make

    for name, why in [(b"\x81\xAD", PAIR), (b"\xF0\x40", UNWRITTEN), (b"\xED\x40", OTHER), (b"\x87\x90", OTHER)]:
        new_image(s, f"the small master: {name.hex(' ')} is inserted", 0x2000, A_AT_500, files=[(0x500, 0x100)])
        s.edit("insert_file", 0, name, rules="ok 2", why=why, image=named(0x466, name, "insert_file 0 8140"))
        s.look("lookup", 0, name, rules=[0, 2, 0, 0, 0], why=why)
        s.edit("insert_directory", 0, name, rules=19, why=why)
        s.load()
        s.edit("make_directories", 0, name + b"\\" + name, rules="ok 3", why=why,
               image=lambda name=name: (named(0x472, name, "mkdirs 0 81402f8140")(), s.oracle.setting(f"patch 0x475 {name.hex()}")))
        new_image(s, f"the small master with the name {name.hex(' ')}", 0x2000, one_name(name), files=[(0x500, 0x100)])
        s.edit("rewrite", rules="ok", why=why)
        s.edit("move", 1, 0x600, rules="ok", why=why, image=stood_for(name, "move 1 0x600"))
        s.edit("resize", 1, 0x80, rules="ok", why=why, image=stood_for(name, "resize 1 0x80"))
        s.edit("replace", 1, Clip(0x81), rules="ok", why=why, image=stood_for(name, "replace 1 " + Clip(0x81).hex()))
    for name, other in [(b"\xED\x40", b"\xFA\x5C"), (b"\x87\x90", b"\x81\xE0")]:
        new_image(s, f"the small master with the name {name.hex(' ')}, which the Rust takes for {other.hex(' ')}", 0x2000, one_name(name),
                  files=[(0x500, 0x100)])
        s.look("lookup", 0, other, rules=18, why="other bytes, another name")
        s.edit("insert_file", 0, other, rules="ok 2", why="other bytes, another name",
               image=stood_for(name, f"insert_file 0 {other.hex()}", at=0x464))


# ---- listings


def refused(number):
    return b"refused %d\n" % number


def listings(s):
    """The listing program's lines: every refusal, nested directories, free lists, the bound of 65,536 bytes."""
    s.lend(0x4000, 0)
    new_image(s, "the small master: its listing", 0x2000, A_AT_500, free=False)
    small = b"total 8192 used 1370\nd 0 0 2 /\nf 1 1280 256 /a\nr 1114 166\nr 1536 6656\n"
    assert s.listing_said() == small
    s.text("report", 0x80, note="the small master's listing")
    s.text("list", len(small), note="a buffer that is just long enough")
    s.text("list", len(small) - 1, rules=9, why="a buffer that is a byte short")
    s.text("report", len(small) - 1, rules=refused(9), why="the same, as the program says it")
    s.text("report", 10, rules=refused(9), why="room for the refusal and no more")
    s.text("report", 9, rules=b"", why="no room for the refusal: nothing is written")
    s.text("report", 0, rules=b"", why="no room at all")
    s.lend(0xF, 0)
    s.text("report", 0x80, rules=refused(9), why="one working word too few")
    s.text("list", 0x80, rules=9, why="one working word too few")
    s.lend(0x4000, 0)
    for number, note, change in [
            (1, "image of 0x43f bytes", lambda: s.size(0x43F)), (1, "an empty image", lambda: s.size(0)),
            (2, "Wii magic", lambda: s.patch(0x18, word(0x5D1C9EA3))), (3, "no GameCube magic", lambda: s.patch(0x1C, word(0))),
            (4, "image of 0x1fff bytes", lambda: s.size(0x1FFF)), (4, "FST offset 0x43f", lambda: s.patch(0x424, word(0x43F))),
            (5, "FST size 23", lambda: s.patch(0x428, word(23))), (6, "entry 1 of kind 2", lambda: s.patch(0x44C, b"\2")),
            (7, "root a file", lambda: s.patch(0x440, b"\0")), (8, "FST size 25", lambda: s.patch(0x428, word(25))),
            (9, "count 16385", lambda: s.patch(0x448, word(16385))), (10, "count 0", lambda: s.patch(0x448, word(0))),
            (11, "name offset 2", lambda: s.patch(0x44C, word(2))), (12, "name byte 0x1f", lambda: s.patch(0x458, b"\x1F")),
            (13, "name .", lambda: s.patch(0x458, b".")), (14, "file in the table", lambda: s.patch(0x450, word(0x459)))]:
        s.load()
        change()
        s.text("report", 0x80, rules=refused(number), why=note)
        s.text("list", 0x80, rules=number, why=note)
    for number, note, change in [
            (24, "a program's header that passes the image", lambda: s.patch(0x420, word(0x1F1D))),
            (24, "a program with a sum of 2^32", lambda: put_program(s, 0x1000, (0xFFFFFFFF, 1))),
            (14, "a program over a file's end", lambda: put_program(s, 0x5FF))]:
        s.load()
        change()
        s.text("report", 0x80, rules=refused(number), why=note)
        s.text("list", 0x80, rules=number, why=note)
    s.load()
    put_program(s, 0x1000)
    s.text("report", 0x80, rules=b"total 8192 used 1598\nd 0 0 2 /\nf 1 1280 256 /a\nr 1114 166\nr 1536 2560\nr 4324 3868\n",
           why="a program of 0xe4 bytes at 0x1000 is used")
    s.load()
    table = (directory(0, 7, 7) + directory(0, 6, 5) + file(2, 0xFFFFFFFF, 0) + directory(0, 0, 5) + file(3, 0x600, 0x10) + file(2, 0x500, 0x100)
             + file(2, 0x441, 0) + b"d\0ab\0")
    new_image(s, "nested directories, equal names, empty files, stored parents that are wrong", 0x2000, table)
    s.text("report", 0x400)
    new_image(s, "a program before the table, which is at 0x600", 0x2000, directory(0, 0, 2) + file(0, 0x800, 0x100) + b"a\0", fst=0x600)
    put_program(s, 0x440, (0, 0x1C0))
    s.text("report", 0x80)
    chain = directory(0, 0, 52) + directory(0, 0, 51) * 50 + file(2, 0x1000, 0x10) + b"d\0e\0"
    new_image(s, "50 directories one in the other: the path grows by two bytes an entry", 0x2000, chain)
    s.text("list", 0x1000)
    new_image(s, "directories behind directories: paths grow and shrink", 0x2000,
              directory(0, 0, 7) + directory(0, 0, 4) + directory(3, 1, 3) + file(6, 0x800, 1) + directory(8, 0, 7) + directory(3, 4, 7) + file(6, 0x900, 2)
              + b"aa\0bb\0c\0dddd\0")
    s.text("report", 0x400)
    new_image(s, "no free region: the file fills all behind the table", 0x600, directory(0, 0, 2) + file(0, 0x45A, 0x1A6) + b"a\0", free=False)
    s.text("report", 0x80)
    new_image(s, "one free region", 0x2000, directory(0, 0, 2) + file(0, 0x45A, 0x100) + b"a\0", free=False)
    s.text("report", 0x80)
    new_image(s, "several free regions, by files that stand in the table against the order of their places", 0x2000,
              directory(0, 0, 5) + file(0, 0x1F00, 0x80) + file(2, 0x700, 0x100) + file(4, 0x800, 0x100) + file(6, 0xA00, 1) + b"z\0y\0x\0w\0", free=False)
    s.text("report", 0x100)
    new_image(s, "a root alone: no files", 0x2000, directory(0, 0, 1), free=False)
    s.text("report", 0x80)
    new_image(s, "an image of exactly 65,536 bytes, and one of 65,537", 0x10000, A_AT_500, free=False)
    s.text("report", 0x80)
    s.size(0x10001)
    s.text("report", 0x80, rules=refused(9), why="more than 65,536 bytes")
    s.text("list", 0x80, note="the call has no such bound")


def make(oracle):
    s = Script(Oracle(oracle))
    for name, parts in [
            ("edits", (small_master, memory, places, spoiled_master, grown_over, half_done, empty_files, equal_rests, nested, disc_ends, far_table,
                       game_names, unopened, limits, inserts, names, made, deep, limits_of_inserts, chain)),
            ("reading", (with_changes, lookups, clusters, headers, fields)), ("windows", (windows, reads, executables)), ("tables", (tables,)),
            ("same_table", (one_tree_rewritten, one_tree_edited, one_tree_refused, one_tree_grown_apart)),
            ("listing", (listings,)), ("program", (none_named, before_table, behind_table, abutting, unread)),
            ("names", (names_opened, names_shared, names_looked_up, names_edited, names_that_do_not_come_back)),
            ("fills", (filled, memory_of_fills, fills_elsewhere, fills_and_the_table, fills_of_unopened, fills_beside_the_program)),
            ("record", (records_of_edits, records_made, records_handed_on, records_that_hold_anything, records_last)),
            ("maximum", (maxima_of_the_small_master, maxima_around_the_new_table, maxima_of_larger_tables, maxima_of_lists, maxima_and_other_numbers,
                         maxima_and_the_tables_place))]:
        s.lines = []
        for part in parts:
            part(s)
        with open(os.path.join(SCRIPTS, name + ".txt"), "w", encoding="ascii") as out:
            out.write("\n".join(s.lines) + "\n")
    print(f"{s.images} images, {s.rust + s.rules} calls: {s.rust} by the Rust, {s.rules} by the rules")


if __name__ == "__main__":
    if len(sys.argv) != 2:
        sys.exit("usage: scripts.py ORACLE")
    make(sys.argv[1])
