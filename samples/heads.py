#!/usr/bin/env python3
"""Makes the sample records of either head and what must be printed for them, of the program head_samples.

    python3 samples/heads.py [FOLDER]

stdin: for each sample the bytes lent in 2 bytes, a block size in 4, a mark in 4, the record's length in 2, and the record, every number
little-endian. Every call is lent that many bytes, which hold the first of stdin's own.
"""
from layout import (MARKED, PLAIN, RECORD, RECORD_LIMIT, SMALL, beside, crc32, data_range, head, item, laid, number, parse, record,
                    record_refusal, write)

FIRST, END = data_range(SMALL)
MOST = 2 ** 32 - 1
TWO = [(2, FIRST, 100), (3, FIRST + 952, 50)]
MANY = [(1 + i % 4, FIRST + 3 * i, 1 + i % 3) for i in range(410)]


def moved(data, kind, mark):
    """The record with a head of that kind, and that mark where it has one."""
    (_, size, _, length), _ = parse(data)
    return head(size, mark if kind == MARKED else None) + data[length:]


def change(what, data, mark):
    """The number, 0 for none, and the new record."""
    n = record_refusal(SMALL, data)
    if n:
        return n, None
    kind, _, old, _ = parse(data)[0]
    if what == "up":
        return 0, data if kind == MARKED else moved(data, MARKED, 0)
    if what == "mark":
        return (0, moved(data, MARKED, mark)) if kind == MARKED else (17, None)
    return (0, moved(data, PLAIN, None)) if old == 0 else (24, None)


def told(what, data, made, room, before):
    """The line of a call that gives a number and a record, with the bytes lent afterwards."""
    n, new = made
    if n == 0 and room < len(new):
        n = 1
    lent = before if n else laid(before, [(0, new)])
    answer = f"refused {' '.join(map(str, [n] + beside(n, data)))}" if n else len(new)
    return f"{what} {answer} {crc32(lent):08x}"


def begun(size, mark, room, before):
    made = head(size, mark)
    n = 1 if room < len(made) else 17 if size % 128 or not 128 <= size <= 2097152 else 0
    return f"begin {n} {crc32(before if n else laid(before, [(0, made)])):08x}"


def samples():
    """Bytes lent, block size, mark, record."""
    for data in (RECORD, record(), record(mark=0), record(mark=1), record(*TWO), record(*TWO, mark=0), record(*TWO, mark=MOST),
                 record(*TWO, block_size=2097152, mark=65536)):
        for lent in (0, 7, 8, 11, 12, len(data) - 5, len(data) - 4, len(data) - 1, len(data), len(data) + 3, len(data) + 4,
                     len(data) + 100):
            yield max(lent, 0), 128, lent * 77777, data
    for size in (0, 64, 127, 128, 129, 256, 2097024, 2097152, 2097153, 2097280, MOST):
        yield 12, size, MOST, record(block_size=128, mark=size)
    for mark in (0, 1, 255, 256, 65535, 65536, 2 ** 31, MOST):
        yield 60, 384, 5, record(*TWO, mark=mark)
    # 409 segments are the most with either head.
    for lent, count, mark in ((0, 409, None), (1, 409, None), (0, 409, 0), (1, 409, 0), (4, 409, 0), (5, 409, 0), (0, 409, 3), (0, 410, None),
                              (0, 410, 0)):
        yield RECORD_LIMIT - lent, 128, 9, record(*MANY[:count], mark=mark)
    # Refused as records: lengths, heads, a second head, kinds, places, clashes.
    for data in (b"", bytes(RECORD_LIMIT + 1), RECORD[:7], record(mark=4)[:8], record(mark=4)[:11], record(mark=4) + b"\0",
                 head(kind=17), head(mark=0, kind=16), head(mark=0, kind=18), head(kind=18), head(kind=1),
                 head() + head(), head(mark=0) + head(mark=0), head() + head(mark=0), RECORD + head(mark=7),
                 head(mark=0) + item(16, FIRST, 1), head(mark=0) + item(17, FIRST, 1), head() + item(17, FIRST, 1),
                 laid(record(*TWO, mark=0), [(0, b"\x08")]), laid(record(*TWO), [(0, b"\x0c")]),
                 laid(record(*TWO, mark=0), [(0, b"\x0d")]), record(*TWO, block_size=64, mark=0), record(*TWO, block_size=0, mark=0),
                 record((5, FIRST, 1), mark=0), record((2, FIRST - 1, 1), mark=6), record((2, END, 1), mark=0),
                 record((2, FIRST, 0), mark=0), record(*TWO, (1, FIRST + 99, 2), mark=9), record((2, FIRST, 9), (2, FIRST, 9), mark=0)):
        yield 100, 128, 8, data


def main():
    stated = list(samples())
    stream = b"".join(number(room, 2) + number(size, 4) + number(mark, 4) + number(len(data), 2) + data
                      for room, size, mark, data in stated)
    lines, given = [], set()
    for room, size, mark, data in stated:
        before = stream[:room]
        n = record_refusal(SMALL, data)
        of_head = ["refused", n, *beside(n, data)] if n else parse(data)[0][:3]
        lines.append(" ".join(map(str, ["head", *of_head])))
        for what in ("up", "back", "mark"):
            lines.append(told(what, data, change(what, data, mark), room, before))
            given.add((what, change(what, data, mark)[0]))
        up = change("up", data, 0)
        if up[0] == 0:
            lines.append(told("up and back", up[1], change("back", up[1], 0), room, before))
            assert parse(data)[0][0] == MARKED or change("back", up[1], 0)[1] == data
        lines.append(begun(size, None, room, before))
        lines.append(begun(size, mark, room, before))
    assert {("back", 24), ("mark", 17), ("up", 15), ("up", 18), ("up", 19)} <= given, given
    write("head_samples", lines, stream)
    print(f"heads: {len(stated)} samples, {len(stream)} bytes")


if __name__ == "__main__":
    main()
