#!/usr/bin/env python3
"""Writes scripts/master.txt, on standard output: new masters, each with the answer that it has to give.

A refusal's number is written here by hand, from docs/RULES.md. The image of an accepted call is put together here, field by field
and entry by entry, from the same rule; nothing comes from the library or from another program. Listings are written by hand."""
import struct

CLUSTER, TABLE = 0x8000, 0x440
CODE = b"GCLE"
# Any four bytes are a game code.
OTHER_CODE = b"\0\xff\x80Z"


def whole(size):
    return -(-size // CLUSTER) * CLUSTER


def entries_of(files):
    """The table's entries: the name, and of a file its place in the list, of a directory its parent and how deep it lies."""
    around, entries = [], [(b"", None)]
    for k, (path, _) in enumerate(files):
        *folders, name = path.split(b"/")
        common = 0
        while common < min(len(folders), len(around)) and around[common][0] == folders[common]:
            common += 1
        around = around[:common]
        for folder in folders[common:]:
            parent = around[-1][1] if around else 0
            around.append((folder, len(entries)))
            entries.append((folder, (parent, len(around))))
        entries.append((name, k))
    return entries


def table_of(files, offsets):
    entries = entries_of(files)
    rows, texts = [], b""
    for number, (name, what) in enumerate(entries):
        at = len(texts)
        if number:
            texts += name + b"\0"
        if isinstance(what, int):
            rows.append(struct.pack(">III", at, offsets[what], files[what][1]))
            continue
        parent, depth = what or (0, 0)
        # All in it lies deeper.
        following = number + 1
        while following < len(entries) and depth_of(files, entries, following) > depth:
            following += 1
        rows.append(struct.pack(">III", 1 << 24 | at, parent, following))
    return b"".join(rows) + texts


def depth_of(files, entries, number):
    """In how many directories an entry lies, itself one if it is a directory."""
    what = entries[number][1]
    return files[what][0].count(b"/") + 1 if isinstance(what, int) else what[1]


def offsets_of(files, end):
    sizes = [size for _, size in files]
    rests = [whole(size) - size for size in sizes]
    last = rests.index(max(rests)) if rests else None
    at, offsets = whole(end), [0] * len(files)
    for k in [k for k in range(len(files)) if k != last] + [last] * bool(files):
        if sizes[k]:
            offsets[k], at = at, at + whole(sizes[k])
    return offsets


def master(image, code, disc_end, files):
    size = len(table_of(files, [0] * len(files)))
    table = table_of(files, offsets_of(files, TABLE + size))
    new = bytearray(disc_end)
    new[:4] = code
    struct.pack_into(">I", new, 0x1C, 0xC2339F3D)
    struct.pack_into(">II", new, 0x424, TABLE, size)
    struct.pack_into(">I", new, 0x434, disc_end)
    new[TABLE:TABLE + size] = table
    return bytes(new) + image[disc_end:]


def checksum(image):
    total = 0xCBF29CE484222325
    for byte in image:
        total = (total ^ byte) * 0x100000001B3 & 0xFFFFFFFFFFFFFFFF
    return total


class Script:
    def __init__(self):
        self.image = b""
        self.code = CODE

    def heading(self, text):
        print("#", text)

    def lend(self, words, bytes_):
        print(f"lend {words} {bytes_} 0x400")

    def blank(self, length, byte=0xA5):
        """An image that does not open, every byte of it the same."""
        print(f"size 0\nsize {length:#x}\nfill 0 {length:#x} :{byte:02x}")
        self.image = bytes([byte]) * length

    def call(self, disc_end, sizes, paths, number, why):
        """A call with paths as they are given, with their zero bytes; accepted where number is 0."""
        if number == 0:
            self.image = master(self.image, self.code, disc_end, list(zip(paths.split(b"\0"), sizes)))
        words = [f"{disc_end:#x}", "0x" + self.code.hex(), *map(hex, sizes), ":" + paths.hex()]
        print(f"master {' '.join(words)} = {number} {checksum(self.image):#x}  # rules: {why}")

    def files(self, disc_end, files, number, why):
        paths = b"".join(path + b"\0" for path, _ in files)
        self.call(disc_end, [size for _, size in files], paths, number, why)

    def look(self, line, why):
        print(f"{line}  # rules: {why}")

    def listing(self, text):
        self.look(f'list 0x400 = 0 {len(text)} "{text}"', "by hand")


def main():
    s = Script()
    s.lend(65544, 0x10000)
    s.heading("no paths: the root alone, whose entry ends at 0x44c; four bytes behind the disc end")
    s.blank(0x450)
    s.files(0x44B, [], 21, "the table ends a byte behind the disc end")
    s.files(0x44C, [], 0, "header and table fill the disc")
    s.listing("total 1100 used 1100\nd 0 0 1 /\n")
    s.code = OTHER_CODE
    s.files(0x44D, [], 0, "a byte of it is free; another game code")
    s.code = CODE
    s.files(0x450, [], 0, "the whole buffer")
    s.files(0x451, [], 9, "the buffer is shorter than the disc end")
    s.files(0xFFFFFFFF, [], 9, "the buffer is shorter than the disc end")
    s.files(0, [], 21, "no room for the header")
    s.files(0x440, [], 21, "no room for the table")

    s.heading("a and b of 1 and 0x8000 bytes: b lies first")
    two = [(b"a", 1), (b"b", 0x8000)]
    s.blank(0x10003)
    s.files(0x10000, two, 21, "b takes 0x8000 to 0x10000, and nothing is left of it for a")
    s.files(0x10001, two, 0, "a behind b")
    s.listing("total 65537 used 33897\nd 0 0 3 /\nf 1 65536 1 /a\nf 2 32768 32768 /b\nr 1128 31640\n")
    s.look("open = 0 0x440 0x28 0x10001 3 33897", "by hand")
    s.look('lookup 0 "a" = 0 1 0 0x10000 1', "by hand")
    s.files(0x10003, two, 0, "two bytes behind a")
    s.files(0x10004, two, 9, "the buffer is shorter than the disc end, before 21")
    s.blank(0x10001)
    s.files(0x10001, [(b"a", 0x8000), (b"b", 1)], 0, "the last one is last")
    s.files(0x10000, [(b"a", 0x8000), (b"b", 1)], 21, "the last one has no room")
    s.files(0x10001, [(b"a", 1), (b"b", 1)], 0, "equal rests: a is last")
    s.look('lookup 0 "a" = 0 1 0 0x10000 1', "by hand")
    s.files(0x10000, [(b"a", 0x8000)], 0, "a whole cluster")
    s.files(0x10000, [(b"a", 0x8001)], 21, "a byte more")
    s.files(0x10001, [(b"a", 0xFFFFFFFF), (b"b", 0xFFFFFFFF)], 21, "two files of 2^32 - 1 bytes")
    s.files(0x44C, [(b"a", 0)], 21, "an empty file has an entry")
    s.files(0x45A, [(b"a", 0)], 0, "and takes no room")
    s.look('lookup 0 "a" = 0 1 0 0 0', "by hand")
    s.files(0x8000, [(b"a", 0), (b"b", 1)], 21, "b begins at 0x8000")
    s.files(0x8001, [(b"a", 0), (b"b", 1)], 0, "and ends behind it")

    s.heading("directories, an empty file, and files whose rests are 26,272, 32,767 and 1")
    tree = [(b"opening.bnr", 0x1960), (b"text/de/empty", 0), (b"text/de/lines.bin", 0x8001), (b"text/fr/lines.bin", 0x7FFF)]
    s.blank(0x20008)
    s.files(0x20000, tree, 21, "a byte too short")
    s.files(0x20001, tree, 0, "just enough")
    s.listing("total 131073 used 73265\nd 0 0 8 /\nf 1 32768 6496 /opening.bnr\nd 2 0 8 /text/\nd 3 2 6 /text/de/\nf 4 0 0 /text/de/empty\n"
              "f 5 98304 32769 /text/de/lines.bin\nd 6 2 8 /text/fr/\nf 7 65536 32767 /text/fr/lines.bin\nr 1233 31535\nr 39264 26272\nr 98303 1\n")
    s.look("program = 0 0 0", "there is none")
    s.look("make_record 0xffffffff = 0 73265 31535 0xffffffff:0:0:0", "by hand")
    print("record")
    s.files(0x20001, tree[::-1], 19, "not in byte order")

    s.heading("memory: 4 * (8 + 2) words and the 145 bytes of the table")
    for words, bytes_, number, why in [(40, 145, 0, "just enough"), (39, 145, 9, "a word too few"), (40, 144, 9, "a byte too few"),
                                       (0, 0, 9, "none"), (39, 0, 9, "neither")]:
        s.lend(words, bytes_)
        s.files(0x20001, tree, number, why)
        if number:
            s.files(0x20000, tree, 9, why + ", before 21")
    s.lend(0, 0)
    s.heading("none lent: what is wrong with paths comes first")
    s.blank(0x10)
    files = lambda *paths: [(path, 1) for path in paths]
    s.files(0x44C, [], 9, "no words")
    s.files(0x44C, files(b"."), 13, "a part .")
    s.files(0x44C, files(b"a\xfd"), 12, "a byte that no name has")
    s.files(0x44C, files(b"b", b"a"), 19, "not in byte order")
    s.files(0x44C, files(b"b"), 9, "no words")

    s.heading("the ends of the paths")
    s.lend(65544, 0x10000)
    s.blank(0x10000)
    for sizes, paths, why in [([1], b"", "too few"), ([], b"\0", "too many"), ([], b"a", "bytes behind the last zero byte"),
                              ([1], b"a", "not ended"), ([1], b"a\0b", "bytes behind the last zero byte"), ([1, 1], b"a\0b", "not ended"),
                              ([1], b"a\0b\0", "too many"), ([1, 1], b"a\0", "too few"), ([1], b"a\0\0", "too many, the last one empty"),
                              ([1], b"b\0a\0", "before 19"), ([1], b":" * 1025, "before 9")]:
        s.call(0x10000, sizes, paths, 8, why)
    s.call(0x10000, [1], b"\0", 13, "one path, which is empty")
    s.call(0x10000, [1, 1], b"a\0\0", 13, "the second is empty, before 19")

    s.heading("names and parts")
    for path, number, why in [
        (b"/a", 13, "an empty part"), (b"a/", 13, "an empty part"), (b"a//b", 13, "an empty part"), (b"a/./b", 13, "a part ."),
        (b"../a", 13, "a part .."), (b"...", 0, "three dots are a name"), (b"a/..b", 0, "a name that begins with two"),
        (b"a\\b", 13, "cut at / alone"), (b"a:b", 13, "a unit :"), (b"\x95\x5c", 0, "a pair whose trail byte is 0x5c"),
        (b"\x95\x5c/\x95\x5c", 0, "the same twice"), (b"\x95\x5c\x5c", 13, "a backslash behind it"), (b"a\x95/b", 12, "a lead byte before the /"),
        (b"a/\x81", 12, "a lead byte at the end"), (b"\xb1", 0, "a half-width letter"), (b"\x7f", 12, "a byte that no name has"),
        (b"\x1f", 12, "a byte that no name has"), (b" ", 0, "a space"), (b"~", 0, "the last sign of ASCII"), (b"\x80", 12, "no lead byte"),
        (b"\xa0", 12, "no lead byte"), (b"\x01/.", 13, "13 of any part before 12 of any"), (b"\x01/a", 12, "a byte that no name has"),
        (b":" * 1025, 9, "over 1,024 bytes, before 13"), (b":" * 1024, 13, "1,024 of them"), (b"a" * 1024, 0, "a name of 1,024 bytes"),
        (b"a" * 1025, 9, "a byte more"), (b"/".join([b"a"] * 65), 0, "64 directories"), (b"/".join([b"a"] * 66), 9, "65 directories"),
    ]:
        s.blank(0x10000)
        s.files(0x10000, [(path, 1)], number, why)
    s.lend(0, 0)
    s.files(0x10000, [(b"/".join([b"a"] * 66), 1)], 9, "65 directories, and no words")
    s.lend(65544, 0x10000)

    s.heading("the order of the paths, and files used as directories")
    for paths, number, why in [
        ([b"a", b"a-b", b"a/c"], 19, "a, two before it, is used as a directory"), ([b"a/c", b"a-b"], 19, "- is below /"),
        ([b"a-b", b"a/c"], 0, "a directory beside a-b"), ([b"a", b"a/b"], 19, "a is used as a directory"), ([b"a", b"a"], 19, "a repeat"),
        ([b"a/b", b"a/b"], 19, "a repeat"), ([b"z", b"\xb1"], 0, "bytes are unsigned"), ([b"\xb1", b"z"], 19, "bytes are unsigned"),
        ([b"a", b"ab"], 0, "one that goes on"), ([b"ab", b"a"], 19, "one that ends before"), ([b"A", b"a"], 0, "names that differ in case"),
        ([b"a", b"a-b", b"a-b-", b"a-b/c"], 19, "a-b, two before it, is used as a directory"),
        ([b"a", b"a-b", b"a-b-c", b"a/d"], 19, "a, three before it, is used as a directory"), ([b"a", b"a!", b"a0"], 0, "none is"),
        ([b"a/a", b"a/a-", b"a/a/b"], 19, "a/a, two before it, is used as a directory"), ([b"a/b", b"a/c", b"b/b"], 0, "two directories"),
        ([b"a/b", b"a!"], 19, "a directory is not turned back to"), ([b"\xb1/a", b"\xb1\xb2"], 0, "/ is below every byte from 0xa1 on"),
        ([b"a", b"b:"], 13, "of the second, and nothing of the first"), ([b"b:", b"a"], 13, "13 of the first, before 19 of the second"),
        ([b"b", b"a\xfd"], 12, "12 before 19"), ([b"\xfd", b"a:"], 12, "path by path"), ([b"b", b"a" * 1025], 9, "9 before 19"),
        ([b"b", b"a", b"a" * 1025], 19, "path by path"),
    ]:
        s.blank(0x18001)
        s.files(0x18001, [(path, 0) for path in paths], number, why)


if __name__ == "__main__":
    main()
