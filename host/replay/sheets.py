#!/usr/bin/env python3
"""Writes scripts/sheets.txt, on standard output: edit sheets, run on small images.

The answers come from the second reading of docs/RULES.md that stands in teams.py, which has the single edits and the record, and from what
stands here: how a sheet's bytes are read, what it is refused for, names and paths, and what a line comes to. Nothing comes from the library or
from another program. Beside each call its number and line are written by hand as well, and the two have to agree; but for the last lists,
whose sheets are made up as the reading goes on."""
import struct

from masters import checksum
from teams import A, EDITS, MOST, OPEN, TEAMS, WHY, Disc, Random, Refusal, Script, n, refuse

WHY = {**WHY, 12: "a byte that no name has", 18: "not found", 30: "no sheet"}
MKDIR, ADD, MOVE, RESIZE = 1, 2, 3, 4


# ---- names and paths


def units(text):
    """Pairs, and all other bytes by themselves."""
    at, all_ = 0, []
    while at < len(text):
        pair = text[at:at + 2]
        lead = len(pair) == 2 and (0x81 <= pair[0] <= 0x9F or 0xE0 <= pair[0] <= 0xFC)
        size = 2 if lead and (0x40 <= pair[1] <= 0x7E or 0x80 <= pair[1] <= 0xFC) else 1
        all_.append(text[at:at + size])
        at += size
    return all_


def is_unsafe(name):
    return name in (b"", b".", b"..") or any(unit in (b"/", b"\\", b":") for unit in units(name))


def is_writable(name):
    return all(len(unit) == 2 or 0x20 <= unit[0] <= 0x7E or 0xA1 <= unit[0] <= 0xDF for unit in units(name))


def components(path):
    parts = [b""]
    for unit in units(path):
        if unit in (b"/", b"\\"):
            parts.append(b"")
        else:
            parts[-1] += unit
    return parts


def lookup(disc, path):
    """The number of the entry that a path leads to from the root."""
    steps = [disc.root]
    for part in components(path):
        refuse(steps[-1].children is None, 17)
        if part == b"..":
            refuse(len(steps) == 1, 18)
            steps.pop()
        elif part not in (b"", b"."):
            found = [child for child in steps[-1].children if child.name == part]
            refuse(not found, 18)
            steps.append(found[0])
    return disc.number(steps[-1])


# ---- a sheet's bytes


def words(*numbers):
    return struct.pack(f">{len(numbers)}I", *numbers)


def sheet_of(*lines):
    """Lines of kind, path, and a new offset or size; header, lines and paths in this order."""
    rows, texts = b"", b""
    for kind, path, *number in lines:
        rows += words(kind, len(texts), *(number if kind == MOVE else (0,)), *(number if kind == RESIZE else (0,)))
        texts += path + b"\0"
    return words(len(lines), 16, 16 + len(rows), len(texts)) + rows + texts


def lines_of(sheet):
    """Of each line its kind, path, new offset and new size."""
    refuse(len(sheet) < 16, 30)
    count, lines, texts, length = struct.unpack_from(">4I", sheet)
    refuse(count > 1024 or lines + 16 * count > len(sheet) or texts + length > len(sheet), 30)
    read = []
    for k in range(count):
        kind, at, offset, size = struct.unpack_from(">4I", sheet, lines + 16 * k)
        refuse(kind not in (MKDIR, ADD, MOVE, RESIZE), 30)
        refuse(offset and kind != MOVE or size and kind != RESIZE, 30)
        path, zero, _ = sheet[texts:texts + length][at:].partition(b"\0")
        refuse(not zero, 30)
        read.append((kind, path, offset, size))
    return read


def edit_of(disc, lent, kind, path, offset, size):
    """The disc behind a line, but for the record."""
    refuse(len(path) > 1024, 9)
    if kind == MOVE:
        return EDITS["move_file"](disc, lent, lookup(disc, path), offset)[0]
    if kind == RESIZE:
        return EDITS["resize_file"](disc, lent, lookup(disc, path), size)[0]
    before, _, name = path.rpartition(b"/")
    parent = lookup(disc, before)
    around = disc.entry(parent)
    refuse(is_unsafe(name), 13)
    refuse(around.children is None, 17)
    refuse(name in [child.name for child in around.children], 19)
    refuse(not is_writable(name), 12)
    return EDITS["insert_directory" if kind == MKDIR else "insert_file"](disc, lent, parent, name)[0]


class Sheets(Script):
    def sheet(self, sheet, number=None, line=None, why=""):
        at, found = 0, 0
        try:
            lines = lines_of(sheet)
            self.opening()
            refuse(self.record and self.team >= TEAMS, 15)
            for k, each in enumerate(lines, 1):
                at = k
                new = edit_of(self.disc, self.lent, *each)
                record = self.record and self.record.after(self.team, self.disc, new)
                self.disc, self.record = new, record
            at = 0
        except Refusal as refusal:
            found = refusal.args[0]
        assert number in (None, found) and line in (None, at), (sheet.hex(), found, at)
        record = self.record.words() if self.record else []
        text = f":{sheet.hex()}" if sheet else '""'
        print(" ".join(["sheet", text, "=", n(found), hex(checksum(self.disc.image)), n(at), *record]), " # rules:", why or WHY[found])
        return found, at

    def lines(self, *lines, number=0, line=0, why=""):
        return self.sheet(sheet_of(*lines), number, line, why)


# ---- the script


def of_one_line(s):
    s.lend()
    s.heading("one line on the small master: which number comes first")
    s.image(Disc(0x2000, [A]))
    for path, number in [(b"a/:", 13), (b"q/:", 18), (b"a/x", 17), (b"a//x", 17), (b"", 13), (b"a\\b", 13), (b"\x83/q", 18), (b"a/", 13),
                         (b"/", 13), (b"a", 19), (b"/a", 19), (b"../x", 18), (b"a/../x", 17), (b"q/../x", 18), (b"x/", 18), (b":/:", 18),
                         (b"x\x83", 12), (b"\x83", 12), (b"a/\x83", 17), (b"..", 13), (b"./.", 13), (b"x\x01", 12), (b"a\x01/x", 18)]:
        s.lines((MKDIR, path), number=number, line=1)
        s.lines((ADD, path), number=number, line=1)
    for path in [b"x", b"/x", b"./x", b"//x", b"./\\/x", b"\x83\\", b"/\x83\x5c", b"x y", b"..."]:
        for kind in (MKDIR, ADD):
            s.load()
            s.lines((kind, path))
    s.load()
    for path, number in [(b"", 16), (b"/", 16), (b"a/", 17), (b"q", 18), (b"..", 18), (b"a\\", 17), (b"\x83\\", 18), (b"A", 18), (b"a\x01", 18)]:
        s.lines((MOVE, path, 0x600), number=number, line=1)
        s.lines((RESIZE, path, 0x80), number=number, line=1)
    for line, number in [((MOVE, b"a", 0x580), 20), ((MOVE, b"a", 0x400), 21), ((RESIZE, b"a", 0x1B01), 21), ((MOVE, b"./a", 0x600), 0),
                         ((RESIZE, b"\\a", 0x1A00), 0), ((RESIZE, b"/./a", 0), 0), ((MOVE, b"a", MOST), 0)]:
        s.lines(line, number=number, line=1 if number else 0)
    s.heading("paths of 1,024 bytes and of one more, whatever they lead to")
    s.load()
    for kind, number in [((MKDIR,), (19, 13)), ((ADD,), (19, 13)), ((MOVE, 0x600), (0, 18)), ((RESIZE, 0), (0, 18))]:
        for path, found in [(b"/" * 1023 + b"a", number[0]), (b"/" * 1024 + b"a", 9), (b":" * 1024, number[1]), (b":" * 1025, 9)]:
            s.lines((kind[0], path, *kind[1:]), number=found, line=1 if found else 0)


def no_sheet(s):
    s.heading("under 16 bytes; no lines; ends at the sheet's end and a byte behind, and past 2^32")
    s.load()
    for length in (0, 1, 15):
        s.sheet(bytes(length), 30, 0)
    for header, number in [((0, 0, 0, 0), 0), ((0, 16, 16, 0), 0), ((0, 17, 16, 0), 30), ((0, 16, 17, 0), 30), ((0, 16, 15, 1), 0),
                           ((0, 16, 15, 2), 30), ((0, 16, 16, 1), 30), ((0, MOST, 0, 0), 30), ((0, 0, MOST, 0), 30), ((0, 0, 0, MOST), 30),
                           ((0, 0, MOST, 1), 30), ((0, 0, MOST, MOST), 30), ((0, 0, MOST - 14, 16), 30), ((1, 0, 0, 16), 30), ((1, 1, 0, 0), 30),
                           ((1, MOST - 15, 0, 16), 30), ((1 << 28, 0, 0, 16), 30), ((1 << 28, 16, 0, 16), 30), ((MOST, 0, 0, 16), 30)]:
        s.sheet(words(*header), number, 0)
    s.heading("a line's kind, its numbers, its path")
    for line, number, at in [((0, 0, 0, 0), 30, 0), ((1, 0, 0, 0), 19, 1), ((2, 0, 0, 0), 19, 1), ((3, 0, 0x580, 0), 20, 1), ((4, 0, 0, 0x100), 0, 0),
                             ((5, 0, 0, 0), 30, 0), ((256, 0, 0, 0), 30, 0), ((0x01000000, 0, 0, 0), 30, 0), ((MOST, 0, 0, 0), 30, 0),
                             ((1, 0, 1, 0), 30, 0), ((1, 0, 0, 1), 30, 0), ((2, 0, 1 << 31, 0), 30, 0), ((2, 0, 0, 1 << 24), 30, 0),
                             ((3, 0, 0x600, 1), 30, 0), ((4, 0, 1, 0x80), 30, 0), ((3, 1, 0x600, 0), 16, 1), ((4, 1, 0, 9), 16, 1),
                             ((4, 2, 0, 9), 30, 0), ((4, 3, 0, 9), 30, 0), ((4, 1 << 31, 0, 9), 30, 0), ((4, MOST, 0, 9), 30, 0)]:
        s.sheet(words(1, 16, 32, 2, *line) + b"a\0", number, at)
    for texts, length, number in [(b"a", 1, 30), (b"a\0", 1, 30), (b"a\0b", 3, 0), (b"\0", 0, 30), (b"a\0b\0", 2, 0)]:
        s.sheet(words(1, 16, 32, length, 4, 0, 0, 0x100) + texts, number, 0, "the texts' end")
    s.heading("one bad line, whatever the others come to; then 30 before opening, opening before the team")
    good, refused, bad = (MKDIR, b"x"), (MKDIR, b"a"), (5, b"y")
    for lines in [(good, bad), (bad, good), (refused, bad), (bad,), (good, good, bad, good)]:
        s.lines(*lines, number=30)
    s.lend(15, 0)
    s.takes(5, 6, OPEN)
    s.carries(16)
    for sheet in [sheet_of(), sheet_of(good), sheet_of(refused)]:
        s.lend(15, 0)
        s.sheet(sheet, 9, 0, "opening, with a word too few")
        s.sheet(sheet[:-1], 30, 0)
        s.lend()
        s.sheet(sheet, 15, 0, "no such team")
        s.sheet(sheet[:-1], 30, 0)
    for number, at, bytes_ in [(3, 0x1C, b"\0"), (4, 0x434, b"\0\0\x20\1"), (14, 0x450, b"\0\0\4\x59")]:
        s.load()
        s.broken(number, at, bytes_)
        s.sheet(sheet_of(), number, 0, "opening")
        s.sheet(sheet_of(good), number, 0, "opening")
        s.sheet(sheet_of(bad), 30, 0)
    s.load()
    s.takes()
    s.sheet(sheet_of(good), 0, 0, "without a record there is no team")
    s.carries(0)


def where_it_stands(s):
    s.heading("lines, texts and header over each other")
    s.load()
    s.sheet(words(1, 12, 12, 4, 2, 0, 0), 16, 1, "the line from byte 12 on; its path is in the texts' length")
    s.sheet(words(1, 12, 28, 2, 0, 0, 0) + b"b\0", 0, 0, "the line from byte 12 on makes a file")
    s.sheet(words(1, 12, 28, 3, 0, 0x700, 0) + b"a\0x", 0, 0, "the line from byte 12 on moves one")
    s.sheet(words(1, 12, 28, 5, 0, 0, 0) + b"b\0\0\0\0", 30, 0)
    s.sheet(words(1, 0, 0, 0), 30, 0, "the line from byte 0 on; its texts have no byte")
    s.sheet(words(4, 0, 0, 64) + words(4, 0, 0, 0x100) * 3, 16, 1, "four lines from byte 0 on, all with the path in their number")
    s.sheet(words(1, 16, 16, 16, 1, 3, 0, 0), 12, 1, "the texts are the line: its kind is its path")
    s.sheet(words(1, 18, 16, 18) + b"c\0" + words(2, 0, 0, 0), 0, 0, "a line that is not at a multiple of four")
    s.sheet(words(2, 34, 16, 18) + b"d\0" + bytes(16) + words(2, 0, 0, 0, 1, 1, 0, 0), 13, 2, "texts before the lines; the second path is empty")
    s.sheet(words(2, 18, 16, 2) + b"e\0" + words(2, 0, 0, 0, 3, 0, 0, 0), 0, 0, "two lines have one path")
    s.sheet(words(2, 16, 48, 4) + words(2, 0, 0, 0, 2, 1, 0, 0) + b"fg\0", 30, 0, "the texts end behind the sheet")
    s.sheet(words(2, 16, 48, 3) + words(2, 0, 0, 0, 2, 1, 0, 0) + b"fg\0", 0, 0, "a path begins inside another")


def in_turn(s):
    s.heading("each line on what the lines before it left")
    s.load()
    s.make_record((1000,), (1000, 500))
    s.lines((MKDIR, b"d"), (ADD, b"d/f"), (MKDIR, b"d/e"), (ADD, b"d\\e/f"), (MOVE, b"d/../a", 0x600), (RESIZE, b"d/e/f", 0),
            (MOVE, b"d/f", 0x500), (RESIZE, b"d/f", 0x100), (RESIZE, b"a", 0x80))
    s.lines((ADD, b"d/f"), number=19, line=1)
    s.lines((ADD, b"d/e/f/g"), number=17, line=1)
    s.lines((RESIZE, b"d/f", 0x80), (RESIZE, b"d", 0), (RESIZE, b"d/f", 0), number=16, line=2)
    s.lines((RESIZE, b"d/f", 0), (ADD, b"h"), (MKDIR, b"h"), number=19, line=3)
    s.lines((RESIZE, b"h", 0x20), (RESIZE, b"h", 0x10), number=21, line=1, why="an empty file at 0 cannot grow where it is, and no multiple of 0x8000 is free")
    s.lines((MOVE, b"h", 0x1000), (RESIZE, b"h", 0x20), (MOVE, b"h", 0x1010), (RESIZE, b"h", 0x10), number=20, line=3)
    s.heading("limits, shares, counts and the stated maximum that fall in the middle")
    three = (RESIZE, b"a", 0x200), (ADD, b"b"), (RESIZE, b"a", 0x100)
    for limit, number, line in [(255, 27, 1), (256, 27, 2), (269, 27, 2), (270, 0, 0)]:
        s.load()
        s.make_record((limit,))
        s.lines(*three, number=number, line=line)
    for share, number, line in [(6567, 28, 1), (6566, 28, 2), (6553, 28, 2), (6552, 0, 0)]:
        s.load()
        s.carries(3)
        s.make_record((MOST,) * 4, (0, share))
        s.lines(*three, number=number, line=line)
    for edits, number, line in [(MOST, 25, 1), (MOST - 1, 25, 2), (MOST - 2, 25, 3), (MOST - 3, 0, 0)]:
        s.load()
        s.takes(1370, 9, (0, 0, 0, MOST), *[(0, 0, 0, 0)] * 2, (MOST, 0, 0, edits))
        s.lines(*three, number=number, line=line)
    for used, number, line in [(MOST - 255, 25, 1), (MOST - 256, 25, 2), (MOST - 270, 0, 0)]:
        s.load()
        s.takes(used, 9, *[(0, 0, 0, 0)] * 3, OPEN)
        s.lines(*three, number=number, line=line)
    s.takes(1370, 9, *[(0, 0, 0, 0)] * 3, (100, 0, 100, 0))
    s.load()
    s.lines((RESIZE, b"a", 0x80), (RESIZE, b"a", 0x100), (RESIZE, b"a", 0), number=27, line=2, why="what is taken was 0 in between: 128 is above 100")
    s.takes()
    s.carries(0)
    for maximum, number, line in [(25, 26, 1), (26, 26, 2), (39, 26, 2), (40, 0, 0)]:
        s.image(Disc(0x2000, [A], maximum=maximum))
        s.lines(*three, number=number, line=line)
    s.heading("memory for the tree that a line makes, and no less before it")
    s.image(Disc(0x2000, [A]))
    for words_, bytes_, number, line in [(16, 26, 9, 2), (19, 40, 9, 2), (20, 39, 9, 2), (20, 40, 0, 0), (16, 25, 9, 1), (16, 0, 9, 1)]:
        s.load()
        s.lend(words_, bytes_)
        s.lines(*three, number=number, line=line)
    s.lend(16, 0)
    s.load()
    s.lines((RESIZE, b"a", 0x100), (RESIZE, b"a", 0x100), why="the present size wants no bytes")
    s.lines((RESIZE, b"a", 0x100), (RESIZE, b"a", 0xFF), number=9, line=2)
    s.lend()
    s.heading("a table that has no room: 21 in the middle")
    s.image(Disc(0x2000, [(b"a", 0x468, 0x100)]))
    s.lines((ADD, b"b"), (ADD, b"c"), number=21, line=2)
    s.lines((MOVE, b"a", 0x800), (ADD, b"c"), (ADD, b"d"))


def many_lines(s):
    s.heading("1,024 lines, and one more")
    s.lend(64, 256)
    s.image(Disc(0x2000, [A]))
    s.make_record((MOST,))
    for count, number in [(1024, 0), (1025, 30)]:
        s.sheet(words(count, 16, 16 + 16 * count, 2) + words(RESIZE, 0, 0, 0x100) * count + b"a\0", number, 0)
    s.sheet(words(1024, 16, 16 + 16 * 1024, 4) + words(RESIZE, 0, 0, 0x100) * 1023 + words(RESIZE, 2, 0, 0) + b"a\0q\0", 18, 1024)
    s.takes()


# ---- sheets that are made up


def made_up(s, random, sheets):
    s.load()
    teams = random.below(3)
    if teams:
        s.make_record([random.of((MOST, 100 + random.below(3000))) for _ in range(teams)], [random.below(1500) for _ in range(teams)])
    for _ in range(sheets):
        team = random.below(teams) if teams else 0
        if team != s.team:
            s.carries(team)
        s.lend(*random.of([(400, 2000)] * 6 + [(20 + random.below(40), 400), (400, 40 + random.below(200))]))
        names = [b"a", b"b", b"c", b"x", b"y", b"\x83\\"]
        lines = []
        for _ in range(random.below(7)):
            rows = s.disc.entries()
            node, parent, _ = random.of(rows)
            path = node.name
            while parent:
                around, up, _ = rows[parent]
                path, parent = around.name + random.of((b"/", b"/", b"\\")) + path, up
            new = random.of((path, path, b"")) + random.of((b"/", b"")) + random.of(names)
            free = random.of(s.disc.free() or [(s.disc.end, 0)])
            lines.append(random.of([
                (MKDIR, new), (ADD, new), (MOVE, path, free[0] + random.below(free[1] + 1)), (MOVE, path, free[0]),
                (RESIZE, path, random.below(0x400)), (RESIZE, path, 0), (RESIZE, path, random.below(0x2000)), (RESIZE, new, random.below(0x40))]))
        if lines and not random.below(20):
            lines[random.below(len(lines))] = (random.of((0, 5)), b"a")
        s.sheet(sheet_of(*lines))
    s.takes()
    s.carries(0)


def main():
    s = Sheets()
    for part in (of_one_line, no_sheet, where_it_stands, in_turn, many_lines):
        part(s)
    s.lend(400, 2000)
    random = Random(11)
    discs = [Disc(0x2000, [A]), Disc(0x2000, [A, (b"x", 0x1234, 0), (b"y", 0x1800, 0x123)]),
             Disc(0x9000, [A, (b"b", 0x600, 0x10), (b"c", 0x8800, 0x700), (b"e", 0, 0)])]
    for number, disc in enumerate([*discs, *discs, *discs], 1):
        s.heading(f"made up: list {number}")
        s.lend(400, 2000)
        s.image(disc)
        made_up(s, random, 30)


if __name__ == "__main__":
    main()
