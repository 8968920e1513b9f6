#!/usr/bin/env python3
"""Writes scripts/clear.txt, on standard output: runs of many sizes on small images, each with the answer that it has to give.

The answers come from a second reading of docs/RULES.md, which stands here and goes over every byte that a run could start at. Nothing comes
from the library or from another program. The answers of the first images are written by hand as well, and the two have to agree."""
import struct

from masters import table_of
from teams import MOST, n

HEADER, DOL = 0x440, 0xE4
LARGE = 1 << 20


# ---- the rule


def shares(x, size, region):
    """Whether a byte of the region is one of `size` bytes from x on."""
    at, length = region
    return length > 0 and at < x + size and x < at + length


class Occupied:
    """What the bytes of a disc are taken by: those up to the table's end, a program behind it, and files. The empty ones take none."""

    def __init__(self, start, end, files, program=None):
        self.start, self.end, self.program = start, end, program or (0, 0)
        self.files = [region for region in files if region[1]]
        self.used = sorted([(0, start), *self.files] + [program] * bool(program))
        self.ends = [at + size for at, size in self.used]
        self.gaps = [at - end for end, at in zip(self.ends, [at for at, _ in self.used[1:]] + [end])]
        assert min(self.gaps) >= 0

    def cost(self, x, size):
        return sum(region[1] for region in self.files if shares(x, size, region))

    def starts(self, size):
        """Every byte; on a large disc each at which a run begins or ends to touch something, and those beside it, between which all touch the same."""
        if self.end - self.start < LARGE:
            return range(self.start, self.end + 1)
        edges = {self.start, self.end - size, *self.ends, *(at - size for at, _ in self.used)}
        return sorted({edge + beside for edge in edges for beside in (-1, 0, 1)})

    def is_run(self, x, size):
        return self.start <= x and x + size <= self.end and not shares(x, size, self.program)

    def runs(self, size):
        """The starts of runs of so many bytes, rising, and what each costs."""
        return {x: self.cost(x, size) for x in self.starts(size) if self.is_run(x, size)} if size else {}

    def floor(self, size):
        return 0 if size <= max(self.gaps) else max(size - sum(self.gaps), 1)

    def answer(self, runs, size, budget):
        """What has to be told of these: a refusal's number, or how many were tried, where, the cost and the bound."""
        if not runs:
            return 21
        candidates = [x for x in runs if x in self.ends]
        tried = candidates[:budget]
        if not tried:
            return 0, 0, 0, 0
        x = min(tried, key=runs.get)  # the first of equals
        return len(tried), x, runs[x], 0 if len(tried) == len(candidates) else runs[x] - self.floor(size)


# ---- the images


class Disc(Occupied):
    def __init__(self, end, files, program=None, table_end=None):
        """Files of the root by offset and size, and a program, behind the table or before it. The table is at 0x440, or ends where it is told to."""
        table = table_of([(bytes([97 + k]), size) for k, (_, size) in enumerate(files)], [at for at, _ in files])
        start = table_end or HEADER + len(table)
        super().__init__(start, end, files, program if program and program[0] >= start else None)
        self.words = 4 * (len(files) + 3)
        at, size = program or (0, 0)
        # One section that is as long as the program.
        section = [(at + 0x90, struct.pack(">I", size))] if program else []
        fst = start - len(table)
        self.parts = [(0x1C, struct.pack(">I", 0xC2339F3D)), (0x420, struct.pack(">III", at, fst, len(table))),
                      (0x434, struct.pack(">I", end)), (fst, table), *section]


class Script:
    def image(self, heading, disc, words=0):
        """`words`: so many more are lent, or fewer, than the image wants."""
        print(f"# {heading}\nlend {disc.words + words} 0 0\nsize 0\nsize {n(disc.end)}")
        for at, data in disc.parts:
            print(f"patch {at:#x} :{data.hex()}")
        self.disc, self.refused = disc, 9 if words < 0 else None

    def broken(self, number, at, data):
        """Other bytes there, which opening refuses with this number."""
        print(f"patch {at:#x} :{data.hex()}")
        self.refused = number

    def clear(self, size, *answers):
        """Budgets, and what each has to answer if that is written by hand."""
        runs = self.disc.runs(size)
        for budget, by_hand in answers:
            found = self.refused or self.disc.answer(runs, size, budget)
            assert by_hand in (None, found), (size, budget, found)
            words = ["0", *map(n, found)] if isinstance(found, tuple) else [str(found)]
            why = ("opening" if self.refused else "no byte asked for" if size == 0 else "no run" if found == 21 else
                   f"{found[0]} tried" if found[0] else "none tried")
            print(f"clear {n(size)} {n(budget)} = {' '.join(words)}  # rules: {why}")


NONE = (0, 0, 0, 0)


def by_hand(s):
    s.image("the small master: 1114 to 1280 and 1536 to 8192 are free", Disc(0x2000, [(0x500, 0x100)]))
    s.clear(1, (0, NONE), (1, (1, 1114, 0, 0)), (2, (2, 1114, 0, 0)))
    s.clear(166, (1, (1, 1114, 0, 0)), (MOST, (2, 1114, 0, 0)))
    s.clear(167, (1, (1, 1114, 256, 256)), (2, (2, 1536, 0, 0)), (3, (2, 1536, 0, 0)))
    s.clear(6656, (1, (1, 1114, 256, 256)), (2, (2, 1536, 0, 0)))
    s.clear(6657, (0, NONE), (1, (1, 1114, 256, 0)), (2, (1, 1114, 256, 0)))
    s.clear(7078, (0, NONE), (9, (1, 1114, 256, 0)))
    for size in (0, 7079, MOST - 1113, MOST):
        s.clear(size, *[(budget, 21) for budget in (0, 1, 2, MOST)])
    s.image("`a` at 2048 with 756 bytes: one free byte row is a byte too short", Disc(0x2000, [(0x800, 756)]))
    s.clear(5388, (1, (1, 1114, 756, 756)), (2, (2, 2804, 0, 0)))
    s.clear(5389, (0, NONE), (9, (1, 1114, 756, 0)))
    s.image("`a` of 256 and `b` of 4096 bytes: 152, 1024 and 1536 bytes are free", Disc(0x2000, [(0x500, 0x100), (0xA00, 0x1000)]))
    s.clear(1536, (1, (1, 1128, 4352, 4352)), (2, (2, 1536, 4096, 4096)), (3, (3, 6656, 0, 0)))
    s.clear(1537, (1, (1, 1128, 4352, 4351)), (2, (2, 1536, 4096, 0)))
    s.clear(2713, (1, (1, 1128, 4352, 4351)), (2, (2, 1536, 4096, 0)))
    s.clear(2714, (1, (1, 1128, 4352, 4350)))
    s.clear(6656, (1, (1, 1128, 4352, 408)), (2, (2, 1536, 4096, 0)))
    s.clear(6657, (1, (1, 1128, 4352, 0)))
    small = [(0x500, 0x100)]
    s.image("a program behind `a`, from 4096 to 4324", Disc(0x2000, small, (0x1000, DOL)))
    s.clear(2982, (1, (1, 1114, 256, 256)), (2, (2, 4324, 0, 0)))
    s.clear(2983, (1, (1, 4324, 0, 0)), (2, (1, 4324, 0, 0)))
    s.clear(3868, (0, NONE), (2, (1, 4324, 0, 0)))
    s.clear(3869, (0, 21), (2, 21))
    s.image("a program at the table's end, which is then no candidate", Disc(0x2000, [(0x600, 0x100)], (1114, DOL)))
    s.clear(1, (1, (1, 1342, 0, 0)), (MOST, (2, 1342, 0, 0)))
    s.clear(195, (1, (1, 1342, 256, 256)), (2, (2, 1792, 0, 0)))
    s.clear(6850, (9, (1, 1342, 256, 0)))
    s.clear(6851, (0, 21), (9, 21))
    s.image("a program up to the disc's end", Disc(0x2000, small, (0x2000 - DOL, DOL)))
    s.clear(6428, (1, (1, 1114, 256, 256)), (9, (2, 1536, 0, 0)))
    s.clear(6429, (9, (1, 1114, 256, 0)))
    s.clear(6850, (9, (1, 1114, 256, 0)))
    s.clear(6851, (0, 21), (9, 21))
    s.image("a program before the table, which is a part of the bytes up to 1562", Disc(0x2000, [(0x800, 0x100)], (HEADER, DOL), 1562))
    s.clear(487, (1, (1, 1562, 256, 256)), (9, (2, 2304, 0, 0)))
    s.clear(6630, (9, (1, 1562, 256, 0)))
    s.clear(6631, (0, 21), (9, 21))
    s.image("an empty file: no end of it is a candidate", Disc(0x2000, [(0x500, 0)]))
    s.clear(7078, (1, (1, 1114, 0, 0)), (9, (1, 1114, 0, 0)))
    s.clear(1, (9, (1, 1114, 0, 0)))
    s.image("no file, and nothing free", Disc(0x44C, []))
    s.clear(1, (0, 21), (1, 21))
    s.clear(0, (0, 21), (1, 21))
    s.image("a file that is all behind the table", Disc(0x500, [(0x45A, 0xA6)]))
    s.clear(1, (0, NONE), (1, (1, 1114, 166, 0)), (2, (1, 1114, 166, 0)))
    s.clear(166, (1, (1, 1114, 166, 0)))
    s.clear(167, (0, 21), (1, 21))


def refused(s):
    disc = Disc(0x2000, [(0x500, 0x100)])
    for number, at, data in [(2, 0x18, b"\x5d\x1c\x9e\xa3"), (3, 0x1C, b"\0"), (4, 0x434, b"\0\0\x20\1"), (6, 0x44C, b"\2"),
                             (13, 0x458, b":"), (14, 0x450, b"\0\0\4\x59"), (24, 0x420, b"\0\0\x1f\x1d")]:
        s.image(f"opening refuses it with {number}, whatever is asked for", disc)
        s.broken(number, at, data)
        for size in (0, 167, 7079):
            s.clear(size, (0, number), (1, number))
    s.image("as many words as it wants", disc)
    s.clear(0, (1, 21))
    s.clear(167, (2, (2, 1536, 0, 0)))
    s.image("and a word too few", disc, -1)
    for size in (0, 167, 7079):
        s.clear(size, (0, 9), (1, 9))


def around(s, heading, disc):
    """The sizes at which something happens, and a byte more or less; each with the budgets around the number of candidates."""
    s.image(heading, disc)
    lengths = {at - x for x in disc.ends for at in [*(at for at, _ in disc.used), disc.end] if at > x}
    lengths |= {max(disc.gaps), sum(disc.gaps), disc.end, MOST - disc.start, MOST}
    for size in sorted({size for length in lengths for size in (length, length + 1) if size <= MOST} | {0, 1}):
        runs = disc.runs(size)
        count = sum(x in disc.ends for x in runs)
        budgets = {0, 1, count - 1, count, count + 1, MOST} if runs else {0, MOST}
        s.clear(size, *[(budget, None) for budget in sorted(budgets) if budget >= 0])


def main():
    s = Script()
    by_hand(s)
    refused(s)
    # The table of three files ends at 0x476, of four at 0x484.
    around(s, "a program between the files", Disc(0x600, [(0x480, 7), (0x490, 9), (0x5A0, 40)], (0x4A0, DOL)))
    around(s, "a program before the files, and behind an end that abuts", Disc(0x600, [(0x57A, 6), (0x590, 9), (0x5A0, 40)], (0x480, DOL)))
    around(s, "a program behind the files, up to two bytes before the disc's end", Disc(0x5E6, [(0x480, 7), (0x490, 9), (0x4A0, 40)], (0x500, DOL)))
    around(s, "a program between files that touch it", Disc(0x5A0, [(0x480, 16), (0x574, 12), (0x590, 5)], (0x490, DOL)))
    around(s, "a program before the table", Disc(0x600, [(0x590, 7), (0x5A0, 9), (0x5C0, 40)], (HEADER, DOL), 0x580))
    around(s, "files that abut, from the table's end on", Disc(0x500, [(0x484, 12), (0x490, 5), (0x495, 11), (0x4B0, 2)]))
    around(s, "files that abut, up to the disc's end", Disc(0x500, [(0x4F0, 16), (0x490, 5), (0x4EC, 4), (0x495, 11)]))
    around(s, "empty files at ends, in gaps, in files and at 0", Disc(0x500, [(0x4A8, 7), (0x4AF, 0), (0x4B8, 9), (0x4B4, 0), (0x4BA, 0), (0, 0)]))
    around(s, "equal files, equally far apart", Disc(0x4F0, [(0x49A, 8), (0x4AA, 8), (0x4BA, 8), (0x4CA, 8), (0x4DA, 8)]))
    around(s, "one free byte before each", Disc(0x4F0, [(0x477, 30), (0x496, 20), (0x4AB, 50)]))


if __name__ == "__main__":
    main()
