#!/usr/bin/env python3
"""Writes scripts/small_tables.txt, on standard output: every small table, and small masters with them, each with the answer that it has to give.

The shapes come from a second reading of docs/RULES.md, which stands here: of all lists of files and nexts those that opening's cause 10 refuses no
entry of, sorted by the order. Their tables are put together from the words of docs/FORMAT.md, and once more from the tree that they nest. What
the masters list, and what an edit makes of them, comes from the second reading that stands in teams.py. Nothing comes from the library or from
another program. The numbers of tables and the shapes of three entries are written by hand as well, and the two have to agree."""
import copy
import itertools
import struct

from masters import checksum
from teams import EDITS, TABLE, Disc, Node, n

MOST = 8
NUMBERS = [1, 2, 6, 22, 90, 394, 1806, 8558]
FILE = -1  # else the next of a directory
THREE = [(FILE, FILE), (FILE, 3), (2, FILE), (2, 3), (3, FILE), (3, 3)]
NINE = 41586 * 124  # bytes that the tables of nine entries would take
ROOM = 0x2000
LENT = 4 * (MOST + 3), 14 * (MOST + 1) - 2  # as many words and bytes as the largest wants after an insert
FREE = (b"free" * ROOM)[:ROOM - TABLE]  # what lies behind the header where no table is


# ---- the rule


def parent(shape, k):
    """The directory that entry k is in: the last one before it whose next is above its number."""
    return max((d for d in range(k) if shape[d] > k), default=0)


def is_shape(shape):
    """A directory's next is above its own number, at most the count, and at most its parent's next."""
    return all(k < shape[k] <= min(len(shape), shape[parent(shape, k)]) for k in range(1, len(shape)) if shape[k] != FILE)


def by_order(shape):
    """By entries from 1 on: a file before a directory, then the smaller next first."""
    return [(next_ != FILE, next_) for next_ in shape[1:]]


def lists(count, nexts=None):
    """All lists of files and of these nexts; where none are named, those above their own number and at most the count."""
    kinds = [[FILE, *(nexts or range(k + 1, count + 1))] for k in range(1, count)]
    return [(count, *rest) for rest in itertools.product(*kinds)]


def shapes(count):
    found = sorted(filter(is_shape, lists(count)), key=by_order)
    assert len(found) == len(set(found)) == NUMBERS[count - 1]
    return found


def letter(k):
    return b"abcdefg"[k - 1:k]


def table(shape):
    """Written anew: the entries, then the texts."""
    rows, texts = b"", b""
    for k, next_ in enumerate(shape):
        words = (len(texts), 0, 0) if next_ == FILE else (1 << 24 | len(texts), parent(shape, k), next_)
        rows += struct.pack(">III", *words)
        texts += letter(k) + b"\0" if k else b""
    return rows + texts


def tables(count):
    return b"".join(map(table, shapes(count)))


# ---- the masters


def master(shape):
    """A disc with the tree that a shape nests, of which every file is empty."""
    nodes = [Node(letter(k) if k else b"", None if next_ == FILE else []) for k, next_ in enumerate(shape)]
    for k, node in enumerate(nodes[1:], 1):
        nodes[parent(shape, k)].children.append(node)
    disc = Disc(ROOM, [], table=table(shape))
    disc.root = nodes[0]
    assert disc.table() == table(shape)
    disc.image[TABLE + disc.table_size:] = FREE[disc.table_size:]
    return disc


def listing(disc):
    lines, paths = [f"total {disc.end} used {disc.used_bytes()}"], []
    for number, (node, around, following) in enumerate(disc.entries()):
        paths.append((paths[around] if number else "") + node.name.decode() + "/" * (node.children is not None))
        words = ["f", number, node.offset, node.size] if node.children is None else ["d", number, around, following]
        lines.append(" ".join(map(str, [*words, paths[-1]])))
    lines += [f"r {offset} {size}" for offset, size in disc.free()]
    return "".join(line + "\n" for line in lines)


# ---- the script


def call(entries, length, why):
    """The call with a list of so many bytes."""
    small = 1 <= entries <= MOST
    answer = "9"
    if small and length >= len(ALL[entries]):
        answer = f"0 {NUMBERS[entries - 1]} {checksum(ALL[entries]):#x}"
    print(f"small_tables {n(entries)} {n(length)} = {answer}  # rules: {why if small else 'not 1 to 8 entries'}")


def calls():
    print("# as many bytes as the tables have, one more, one less, and a table less")
    for entries in range(MOST + 3):
        all_ = len(ALL.get(entries, b""))
        for length in sorted({0, all_, all_ + 1, max(all_ - 1, 0), max(all_ - max(14 * entries - 2, 0), 0), NINE}):
            call(entries, length, f"{all_} bytes")
    for entries in (16, 255, 256, 257, 264, 1 << 16, 1 << 31, (1 << 31) + 8, (1 << 32) - 1):
        for length in (0, 12, NINE):
            call(entries, length, "")
    print("# every length that is too short for three entries, and some more")
    for entries in (1, 2, 3):
        for length in range(len(ALL[entries]) + 15):
            call(entries, length, f"{len(ALL[entries])} bytes")
    print("# the lengths of the other numbers")
    for entries in range(MOST + 2):
        for length in sorted(len(all_) + beside for all_ in ALL.values() for beside in (-1, 0, 1)):
            call(entries, length, f"{len(ALL.get(entries, b''))} bytes")


def put(shape):
    """The table into the small master."""
    written = table(shape)
    print(f"load\npatch 0x428 :{len(written):08x}\npatch {TABLE:#x} :{written.hex()}")


class Master:
    """The small master with a table of its own."""

    def __init__(self, shape):
        self.shape, self.first = shape, master(shape)
        self.load()

    def load(self):
        put(self.shape)
        self.disc = copy.deepcopy(self.first)

    def list(self):
        text = listing(self.disc)
        print(f'list {n(len(text))} = 0 {n(len(text))} "{text}"  # rules: the listing')

    def edit(self, name, *arguments):
        self.disc, answer = EDITS[name](self.disc, LENT, *arguments)
        shown = [n(a) if isinstance(a, int) else f'"{a.decode()}"' for a in arguments]
        words = [name, *shown, "= 0", hex(checksum(self.disc.image)), *map(n, answer)]
        print(*words, " # rules: " + ("as it was" if name == "rewrite" else "the image by the rules"))

    def is_there(self, k):
        """Entry k's name, where it is."""
        print(f'insert_file {parent(self.shape, k)} "{letter(k).decode()}" = 19 {checksum(self.disc.image):#x}  # rules: the name is there')

    def directories(self):
        return [k for k, next_ in enumerate(self.shape) if next_ != FILE]

    def looked_at(self):
        self.list()
        self.edit("rewrite")
        assert self.disc.image == self.first.image

    def inserted(self, kind, around):
        self.edit(kind, around, b"z")
        self.list()


KINDS = ("insert_file", "insert_directory")


def every_insert(shape):
    """Into each directory, a file and a directory."""
    m = Master(shape)
    m.looked_at()
    for k in range(1, len(shape)):
        m.is_there(k)
    for j, (around, kind) in enumerate(itertools.product(m.directories(), KINDS)):
        if j:
            m.load()
        m.inserted(kind, around)


def one_insert(shape, j):
    """Into one directory, which is another from one shape to the next."""
    m = Master(shape)
    m.looked_at()
    around = m.directories()
    m.inserted(KINDS[j % 2], around[j // 2 % len(around)])


def refused(all_):
    """Those that are no shapes, by opening."""
    for shape in itertools.filterfalse(is_shape, all_):
        put(shape)
        print("open = 10  # rules: no shape")


def sample(all_, count):
    """So many of them, as far apart as they go, with the first and the last."""
    return [all_[i * (len(all_) - 1) // (count - 1)] for i in range(count)]


def main():
    assert [shape[1:] for shape in shapes(3)] == THREE
    calls()
    header = Disc(ROOM, []).image[:TABLE]
    print("# the small master with other bytes than zeros where its table was and behind it; each of these tables is put there")
    print(f"lend {LENT[0]} {LENT[1]} 0\nsize {ROOM:#x}\npatch 0x1c :{header[0x1C:0x20].hex()}\npatch 0x424 :{header[0x424:].hex()}")
    print(f"fill {TABLE:#x} {len(FREE):#x} :{FREE[:4].hex()}\nsave")
    for count in range(1, MOST + 1):
        all_ = shapes(count)
        chosen = all_ if count <= 5 else sample(all_, 30)
        print(f"# of {count} entries, {'all' if chosen is all_ else 'some'}")
        for j, shape in enumerate(chosen):
            every_insert(shape) if count <= 4 else one_insert(shape, j)
    print("# all other lists of 2 and 3 entries; of 4 and 5 those with a next that passes its parent's")
    for count in (2, 3):
        refused(lists(count, range(count + 2)))
    for count in (4, 5):
        refused(lists(count))


ALL = {count: tables(count) for count in range(1, MOST + 1)}

if __name__ == "__main__":
    main()
