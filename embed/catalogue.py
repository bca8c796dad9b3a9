#!/usr/bin/env python3
# catalogue.py FILE: what the blocks of a catalogue hold, by docs/FORMAT.md alone: kind, counts, singles, rows and the source's length, or the number of what is wrong with them.
import struct, sys

BLOCK, CONTENT = 512, 504
TABLES = (1, 2, 3, 4, 5, 6, 7, 8, 9, 10, 15, 16, 17)
WIDTHS = (3, 4, 2, 2, 6, 3, 5, 13, 4, 5, 4, 3, 3)
# the cells of each single in the head, its lead among them
SINGLES = {"start": (14, 3), "expect": (17, 5), "expect-rr": (22, 5), "parse-param": (27, 5), "parse-generics": (32, 3), "programs": (35, 3)}
HEAD = 39


class Wrong(Exception):
    """60 to 63, as docs/FORMAT.md numbers what is wrong with blocks."""


def sums(words):
    first, second = 1, 0
    for word in words:
        first = (first + word) % 65535
        second = (second + first) % 65535
    return first, second


def content(blocks):
    """The content of right blocks, padding included."""
    if not blocks or len(blocks) % BLOCK:
        raise Wrong(60)
    out = b""
    for k in range(len(blocks) // BLOCK):
        block = blocks[k * BLOCK:(k + 1) * BLOCK]
        if struct.unpack_from("<I", block)[0] != k:
            raise Wrong(61)
        if struct.unpack_from("<HH", block, 508) != sums(struct.unpack_from("<254H", block)):
            raise Wrong(62)
        out += block[4:4 + CONTENT]
    return out


def read(blocks):
    """Kind, the thirteen counts, the singles' cells, the tables' cells and the source."""
    data = content(blocks)
    head = struct.unpack_from(f"<{HEAD}I", data)
    counts, length, kind = head[:13], head[13], head[38]
    size = 4 * HEAD + 4 * sum(n * w for n, w in zip(counts, WIDTHS)) + length
    leads = all(head[at] == 1 or not any(head[at:at + n]) for at, n in SINGLES.values())
    if not 1 <= kind <= 4 or not leads or -(-size // CONTENT) * CONTENT != len(data) or any(data[size:]):
        raise Wrong(63)
    tables, at = {}, 4 * HEAD
    for table, n, w in zip(TABLES, counts, WIDTHS):
        tables[table] = struct.unpack_from(f"<{n * w}I", data, at)
        at += 4 * n * w
    return kind, counts, {name: head[at:at + n] for name, (at, n) in SINGLES.items()}, tables, data[at:size]


def write(kind, counts, singles, tables, source):
    """The blocks of a reading: what `store` writes."""
    head = [*counts, len(source), *(v for name in SINGLES for v in singles[name]), kind]
    cells = head + [v for table in TABLES for v in tables[table]]
    data = struct.pack(f"<{len(cells)}I", *cells) + source
    data += bytes(-len(data) % CONTENT)
    out = b""
    for k in range(len(data) // CONTENT):
        block = struct.pack("<I", k) + data[k * CONTENT:(k + 1) * CONTENT]
        out += block + struct.pack("<HH", *sums(struct.unpack("<254H", block)))
    return out


if __name__ == "__main__":
    try:
        kind, counts, singles, tables, source = read(open(sys.argv[1], "rb").read())
    except Wrong as e:
        sys.exit(f"wrong {e}")
    print("kind", kind)
    print("counts", *counts)
    for name, cells in singles.items():
        print(name, *cells)
    for table, n, w in zip(TABLES, counts, WIDTHS):
        for r in range(n):
            print(f"t{table}", r, *tables[table][r * w:(r + 1) * w])
    print("source", len(source))
