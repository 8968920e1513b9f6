"""Every small table, by the words of docs/RULES.md ("Every small table") and docs/FORMAT.md, and without Counter:
which shapes there are, their order, their tables, and the small master with one of them.

A shape is the list of its entries, the root among them: FILE, or the next of a directory. A tree is its entries'
paths in order, those of directories with a `/` at the end.

replay/small.py reads the same rule by itself, on purpose: a slip of one reading does not pass in the other."""

import functools
import itertools
import struct

FILE = -1  # before every next
MOST = 8
FST, END = 0x440, 0x2000


# The shapes ------------------------------------------------------------------------------


def parent(shape, k):
    """The last directory before entry k whose next is above its number."""
    return next(d for d in reversed(range(k)) if shape[d] > k)


def is_allowed(shape, count, k):
    """Whether cause 10 refuses nothing of entry k. What is behind it is not looked at."""
    return shape[k] == FILE or k < shape[k] <= count and shape[k] <= shape[parent(shape, k)]


def each_entry(count):
    """A file, and directories with every next up to the count, and one past it."""
    return [FILE, *range(count + 2)]


def all_lists(count):
    """Every list of entries behind the root, whatever they are."""
    for rest in itertools.product(each_entry(count), repeat=count - 1):
        yield [count, *rest]


def shapes(count):
    """Of all lists those that are allowed, in order. A list is left out as soon as one of its entries is refused."""
    kept = [[count]]
    for k in range(1, count):
        longer = [[*shape, entry] for shape in kept for entry in each_entry(count)]
        kept = [shape for shape in longer if is_allowed(shape, count, k)]
    return sorted(kept)


def is_shape(shape):
    """The same of all entries but the root."""
    return all(is_allowed(shape, len(shape), k) for k in range(1, len(shape)))


def nests(shape):
    """Whether each directory ends behind itself, and not behind one that it is in."""
    directories = [(k, end) for k, end in enumerate(shape) if end != FILE]
    return all(k < end for k, end in directories) and all(
        inner <= outer for d, outer in directories for k, inner in directories if d < k < outer)


# Trees and tables ------------------------------------------------------------------------


def tree(shape):
    """Its paths, entry k named by the k-th lower-case letter."""
    paths = ["/"]
    for k in range(1, len(shape)):
        name = chr(ord("a") + k - 1)
        paths.append(paths[parent(shape, k)] + name + ("" if shape[k] == FILE else "/"))
    return tuple(paths)


def inside(paths, k):
    """The directory that entry k is in."""
    return paths.index(paths[k].rstrip("/").rpartition("/")[0] + "/")


def end(paths, k):
    """The number of the first entry behind directory k that is not in it, or the count."""
    return next((n for n in range(k + 1, len(paths)) if not paths[n].startswith(paths[k])), len(paths))


@functools.cache
def encode(paths):
    """The table, written anew; all files have offset and size 0."""
    entries, texts = [struct.pack(">III", 1 << 24, 0, len(paths))], b""
    for k, path in list(enumerate(paths))[1:]:
        if path.endswith("/"):
            entries.append(struct.pack(">III", 1 << 24 | len(texts), inside(paths, k), end(paths, k)))
        else:
            entries.append(struct.pack(">III", len(texts), 0, 0))
        texts += path.rstrip("/").rpartition("/")[2].encode() + b"\0"
    return b"".join(entries) + texts


def added(paths, directory, name):
    """With an empty file of this name as the last child of a directory."""
    at = end(paths, directory)
    return *paths[:at], paths[directory] + name, *paths[at:]


def directories(paths):
    return [k for k, path in enumerate(paths) if path.endswith("/")]


def listing(paths):
    """The listing of the small master with this tree."""
    table = FST + len(encode(paths))
    lines = [f"total {END} used {table}"]
    for k, path in enumerate(paths):
        lines.append(f"d {k} {inside(paths, k) if k else 0} {end(paths, k)} {path}" if path.endswith("/")
                     else f"f {k} 0 0 {path}")
    return "\n".join([*lines, f"r {table} {END - table}", ""]).encode()


# The small master ------------------------------------------------------------------------


@functools.cache
def small_master():
    """That of docs/FORMAT.md."""
    image = bytearray(END)
    for at, data in ((0x1C, "c2339f3d"), (0x424, "00000440"), (0x428, "0000001a"), (0x434, "00002000"), (0x440, "01"),
                     (0x448, "00000002"), (0x450, "00000500"), (0x454, "00000100"), (0x458, "6100")):
        image[at : at + len(data) // 2] = bytes.fromhex(data)
    return bytes(image)


def with_table(image, table):
    """With the table put over the old one and its size in the header; nothing else is changed."""
    image = bytearray(image)
    image[0x428:0x42C] = struct.pack(">I", len(table))
    image[FST : FST + len(table)] = table
    return bytes(image)


def names(number):
    """What `counter tables` calls so many of them, in order."""
    digits = len(str(number))
    return [f"{k:0{digits}}.iso" for k in range(1, number + 1)]
