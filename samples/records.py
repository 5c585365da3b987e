#!/usr/bin/env python3
"""Works out what must be printed by the program record_samples.

    python3 samples/records.py [FOLDER]

It runs the same records and requests as crates/record_samples/src/main.rt, by its own reading of the format's rules.
"""
import struct

import layout
from layout import KINDS, MOST_SEGMENTS, PLAIN, RECORD, SMALL, beside, data_range, device_refusal, item, parse, record, write

MOST = 2 ** 64 - 1
lines = []


def segments_of(data):
    return parse(data)[1]


def refusal(data, device=SMALL):
    """The number of device numbers and a record; 0 for none."""
    return device_refusal(device) or layout.record_refusal(device, data)


def runs(data, device=SMALL):
    """The free runs, ascending."""
    at, high = data_range(device)
    found = []
    for start, end in sorted((s, s + n) for _, s, n in segments_of(data)):
        if start > at:
            found.append((at, start - at))
        at = end
    return found + ([(at, high - at)] if at < high else [])


def first_run(data, sectors):
    return next((run for run in runs(data) if run[1] >= sectors), None)


def one(kind, start, sectors):
    return record((kind, start, sectors))


def two(start, sectors, start2, sectors2):
    return record((2, start, sectors), (2, start2, sectors2))


# A line each.

def say(name, *values):
    lines.append(name + ":" + "".join(f" {value}" for value in values))


def refused(number, data):
    return "refused", number, *beside(number, data)


def answer(name, number, data, *values):
    """The values, or the refusal."""
    say(name, *(refused(number, data) if number else values))


def check(name, data, device=SMALL):
    n = refusal(data, device)
    say(name, n, *beside(n, data))


def head(data):
    n = refusal(data)
    answer("block size", n, data, *([] if n else [parse(data)[0][1]]))


def count(data):
    n = refusal(data)
    answer("segments", n, data, *([] if n else [len(segments_of(data))]))


def segment(data, position):
    n = refusal(data)
    if not n and position >= len(segments_of(data)):
        n = 22
    say("segment", position, *(refused(n, data) if n else segments_of(data)[position]))


def run_at(data, k):
    n = refusal(data)
    found = [] if n else runs(data)
    say("run", k, *(refused(n, data) if n else found[k] if k < len(found) else (0, 0)))


def free(data):
    n = refusal(data)
    answer("free runs", n, data, *([] if n else [len(runs(data))]))
    low, high = data_range(SMALL)
    answer("free total", n, data, *([] if n else [high - low - sum(s for _, _, s in segments_of(data))]))


def fit(data, sectors):
    n = refusal(data) or (18 if sectors == 0 else 0) or (0 if first_run(data, sectors) else 20)
    say("first fit for", sectors, *(refused(n, data) if n else first_run(data, sectors)))


def allocate(data, kind, sectors, lent):
    """The new record, or None."""
    n = refusal(data)
    if not n and kind not in KINDS:
        n = 17
    if not n and sectors == 0:
        n = 18
    if not n and len(segments_of(data)) >= MOST_SEGMENTS[PLAIN]:
        n = 21
    if not n and first_run(data, sectors) is None:
        n = 20
    if not n and lent < len(data) + 20:
        n = 1
    start = None if n else first_run(data, sectors)[0]
    answer("allocated", n, data, start, len(data) + 20)
    return None if n else data + item(kind, start, sectors)


def release(data, position, lent):
    """The new record, or None."""
    n = refusal(data)
    if not n and position >= len(segments_of(data)):
        n = 22
    if not n and lent < len(data) - 20:
        n = 1
    answer("released", n, data, len(data) - 20)
    return None if n else data[:8 + 20 * position] + data[28 + 20 * position:]


def handed(what, data, position, lent):
    """The segments from a position on that a table of `lent` numbers takes, and the table."""
    n = refusal(data)
    rest = [] if n else segments_of(data)[position:]
    if not n and rest and lent < 3:
        n = 1
    taken = [] if n else rest[:lent // 3]
    table = [x for g in taken for x in g] + [9] * (lent - 3 * len(taken))
    say(what, position, n + 100 if n else len(taken), *beside(n, data), *table)


def shown(data, first, second):
    check("new record", data)
    segment(data, first)
    segment(data, second)
    free(data)
    run_at(data, 0)
    run_at(data, 1)


def data_segments(*places):
    return record(*((2, start, sectors) for start, sectors in places))


def every_call():
    """Two pairs that clash; every call names the lower one."""
    data = data_segments((2048, 100), (3000, 50), (2147, 1), (3049, 10))
    check("0 and 2, 1 and 3", data)
    head(data)
    count(data)
    segment(data, 0)
    segment(data, 4)
    free(data)
    run_at(data, 0)
    fit(data, 1)
    fit(data, 0)
    for kind, sectors in ((1, 1), (5, 0)):
        assert allocate(data, kind, sectors, 70) is None
        say("two bytes left", 0x0707)
    release(data, 2, 70)
    handed("segments from", data, 0, 7)
    handed("no room from", data, 1, 2)


def clashes():
    a, b, c = (3049, 10), (3010, 1), (3000, 50)
    check("1 and 2, 1 and 3", data_segments((5000, 10), c, a, b))
    check("1 and 3, 2 and 3", data_segments((5000, 10), a, b, c))
    check("0 and 1, 1 and 3, 2 and 3", data_segments((3058, 2), a, b, c))
    check("1 and 3, 2 and 3 beside one that touches", data_segments((3059, 2), (3049, 9), b, c))
    check("1 and 3 beside an empty one", data_segments((3059, 2), (3049, 9), (3010, 0), c))
    check("the same twice", two(2048, 100, 2048, 100))


def main():
    printed = RECORD
    check("printed record", printed)
    head(printed)
    count(printed)
    segment(printed, 0)
    segment(printed, 1)
    made = one(2, 2048, 100)
    assert made == printed
    say("made", *(f"{struct.unpack_from('<Q', made, at)[0]:016x}" for at in (0, 8, 16)),
        f"{struct.unpack_from('<I', made, 24)[0]:016x}")
    example = two(2048, 100, 3000, 50)
    check("example 9", example)
    free(example)
    for k in (0, 1, 2, MOST):
        run_at(example, k)
    for sectors in (852, 853, 2092054, 2092055, 0):
        fit(example, sectors)
    shown(allocate(example, 4, 853, 70), 1, 2)
    shown(allocate(example, 1, 852, 70), 1, 2)
    shown(release(example, 0, 48), 0, 1)
    shown(release(example, 1, 48), 0, 1)
    for kind, sectors in ((0, 1), (5, 0), (16, 1), (1, 0), (1, 2092055), (1, MOST)):
        assert allocate(example, kind, sectors, 70) is None
        say("two bytes left", 0x0707)
    allocate(example, 1, 1, 67)
    release(example, 0, 27)
    release(example, 2, 70)
    say("begin with 64", 17)
    say("begin with 2097280", 17)
    say("begin in 7 bytes", 1)
    many = record(*((3, 2048 + i, 1) for i in range(410)))
    check("409 segments", many[:8188])
    count(many[:8188])
    allocate(many[:8188], 1, 1, 70)
    check("410 segments", many)
    filled = many[:8168] + item(3, 2456, 2092648)
    check("409 segments to the last sector", filled)
    free(filled)
    fit(filled, 1)
    run_at(filled, 0)
    for name, at, value in (("a head of 7 bytes", 0, 7), ("a head of 9 bytes", 0, 9), ("kind 17 in 8 bytes", 2, 17),
                            ("a head of kind 18", 2, 18),                             ("block size 0", 4, 0), ("block size 64", 4, 64), ("block size 129", 4, 129),
                            ("block size 2097280", 6, 32), ("a segment of 19 bytes", 8, 19),
                            ("a segment of 21 bytes", 8, 21), ("kind 65535", 10, 65535)):
        check(name, printed[:at] + struct.pack("<H", value) + printed[at + 2:])
    check("a byte after it", example[:29])
    check("19 bytes after it", example[:47])
    check("example 11", two(2048, 100, 2147, 1))
    check("with 2148", two(2048, 100, 2148, 1))
    check("the later one first", two(2148, 1, 2048, 101))
    for kind in (0, 1, 4, 5, 16):
        check(f"kind {kind}", one(kind, 2048, 100))
    check("below the data range", one(2, 2047, 100))
    check("no sectors", one(2, 2048, 0))
    check("the last data sector", one(2, 2095103, 1))
    check("one past it", one(2, 2095103, 2))
    check("past the data range", one(2, 2095104, 1))
    check("the whole data range", one(3, 2048, 2093056))
    check("a sum that wraps", one(2, MOST, MOST))
    check("a sum that wraps into the range", one(2, 4096, MOST))
    for name, n in (("no bytes", 0), ("seven bytes", 7), ("a head", 8), ("a segment cut", 27), ("a segment", 28)):
        check(name, printed[:n])
    far = one(2, 200000, 100)
    check("S 2097151", far, (2097151, 2041, 65537))
    check("L 2041", far, (2097152, 2041, 65537))
    check("R 65537", b"", (2097152, 2040, 65537))
    check("L 16384 and R 65536", far, (2097152, 16384, 65536))
    every_call()
    clashes()
    many = record(*((3, 2048 + i, 1) for i in range(408)))
    check("the last two of 409", many + item(2, 2455, 2))
    check("the first and the last of 409", many + item(2, 2048, 1))
    for position in (0, 1, 2, MOST):
        handed("segments from", example, position, 7)
    handed("segments from", two(2048, 100, 2147, 1), 0, 7)
    handed("no room from", example, 1, 2)
    handed("no room from", example, 2, 2)
    write("record_samples", lines)
    print(f"records: {len(lines)} lines")


if __name__ == "__main__":
    main()
