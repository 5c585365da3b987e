#!/usr/bin/env python3
"""Works out what must be printed by the program run_table_samples.

    python3 samples/runs.py [FOLDER]

It runs the same records and devices as crates/run_table_samples/src/main.rt, by the rules of records.py.
"""
from layout import SMALL, beside, record, write
from records import MOST, refusal, runs

ENTRIES = 3
lines = []


def on(name, device, data):
    """What is answered, and a table of three entries afterwards."""
    table = [(7, k) for k in range(ENTRIES)]
    number = refusal(data, device)
    found = [] if number else runs(data, device)
    if len(found) > ENTRIES:
        number, found = 1, []
    table[:len(found)] = found
    answer = " ".join(map(str, ["refused", number] + beside(number, data))) if number else len(found)
    lines.append(f"{name}: {answer};" + "".join(f" {start} {sectors}" for start, sectors in table))


def show(name, *segments):
    on(name, SMALL, record(*((2, start, sectors) for start, sectors in segments)))


def three(*starts):
    return [(start, 10) for start in starts]


def main():
    show("no segments")
    show("no free sector", (2048, 2093056))
    show("the first sector free", (2049, 2093055))
    show("the last sector free", (2048, 2093055))
    show("example 9", (2048, 100), (3000, 50))
    show("the later one first", (3000, 50), (2048, 100))
    show("side by side", (2048, 100), (2148, 1))
    show("three runs", (3000, 50), (4000, 10))
    show("three runs, the later one first", (4000, 10), (3000, 50))
    show("three runs of three segments", *three(2048, 5000, 4000))
    show("four runs", *three(3000, 5000, 4000))
    show("four runs, up to the last sector but one", *three(3000, 2095093, 4000))
    data = record((2, 3000, 50), (2, 4000, 10))
    on("S 2097151, L 2041, R 65537", (2097151, 2041, 65537), data)
    on("L 2041, R 65537", (2097152, 2041, 65537), data)
    on("L 2038", (2097152, 2038, 0), data)
    on("L 16386", (2097152, 16386, 0), data)
    on("R 65537, no bytes", (2097152, 2040, 65537), b"")
    for name, n in (("no bytes", 0), ("seven bytes", 7), ("a segment cut", 27)):
        on(name, SMALL, data[:n])
    show("no sectors", (3000, 50), (4000, 0))
    show("below the data range", (2047, 100))
    show("past the data range", (2095103, 2))
    show("a sum that wraps", (MOST, 2))
    show("example 11", (2048, 100), (2147, 1))
    show("three, of which the last two clash", *three(2048, 2200, 2209))
    data = record(*((2, start, sectors) for start, sectors in three(3000, 5000, 4000)))
    on("four runs, S 2097151", (2097151, 2040, 0), data)
    on("four runs, L 2041", (2097152, 2041, 0), data)
    on("four runs, R 65537", (2097152, 2040, 65537), data)
    cut = record(*((2, start, sectors) for start, sectors in three(3000, 4000, 5000)), (2, 5010, 1))
    on("four runs, a segment cut", SMALL, cut[:87])
    show("four runs, no sectors", *three(3000, 4000, 5000), (3500, 0))
    show("four runs, a sector in two segments", *three(3000, 4000, 5000), (5009, 1))
    show("four runs, side by side", *three(3000, 4000, 5000), (5010, 1))
    on("L 16384, R 65536", (2097152, 16384, 65536), record((2, 200000, 100)))
    write("run_table_samples", lines)
    print(f"runs: {len(lines)} lines")


if __name__ == "__main__":
    main()
