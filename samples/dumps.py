#!/usr/bin/env python3
"""Makes the sample dumps and the lines that must be printed for them, of the programs dump and dump_samples.

    python3 samples/dumps.py [FOLDER]

Each sample states its line by hand, and layout.py works the line out by the format's rules: where the two differ the
script stops.

dump: one whole dump and its line. dump_samples: all samples, packed as `packed` in layout.py says, with the dump's size, and a
line each.
"""
from hashlib import sha256

from layout import (COPY, LONG, OFFSETS, OLDER_POLYNOMIAL, OTHER, POOL, RECORD, SECTOR, UUID, WAYS, broken, copy, discover, held,
                    line, packed, read, write)


def answer(dump):
    return line(discover(dump[:COPY], dump[COPY:]))


# The samples: name, dump, line.

GOOD = copy(a=held(10, 5))
# The same with the older polynomial, in block and area: to the byte the copy of which the program's sample dump was made before.
OLDER = copy(a=held(10, 5, polynomial=OLDER_POLYNOMIAL), polynomial=OLDER_POLYNOMIAL)
assert sha256(OLDER + OLDER).hexdigest() == "4899cbbeda382d4a8080fc7b566ccdf4570f60472f9b142bad6aa513af2743aa"
assert read(OLDER)[0] == 3


def samples():
    yield "in step", GOOD + GOOD, "found front a 28 10 5 both"
    both = copy(a=held(10, 5, OTHER), b=held(11, 0))
    yield "in step, b the later", both + both, "found front b 28 11 0 both"
    both = copy(a=held(11, 0), b=held(10, 5, OTHER))
    yield "in step, a the later", both + both, "found front a 28 11 0 both"
    both = copy(b=held(10, 5))
    yield "only b used", both + both, "found front b 28 10 5 both"
    yield "one record, in a and in b", GOOD + both, "found front a 28 10 5 both"
    yield "one record, in b and in a", both + GOOD, "found front b 28 10 5 both"

    for n, name, odd in WAYS:
        bad = copy(**{"a": held(10, 5), **odd})
        yield f"front refused, {name}", bad + GOOD, f"found back a 28 10 5 {n}"
        yield f"back refused, {name}", GOOD + bad, f"found front a 28 10 5 {n}"

    newer = copy(a=held(10, 5), b=held(11, 0, OTHER))
    yield "front newer", newer + GOOD, "found front b 28 11 0 both"
    yield "back newer", GOOD + newer, "found back b 28 11 0 both"
    later = copy(a=held(10, 6))
    yield "front newer by a nanosecond, same bytes", later + GOOD, "found front a 28 10 6 both"
    yield "back newer by a nanosecond, same bytes", GOOD + later, "found back a 28 10 6 both"
    later = copy(a=held(10, 6, OTHER))
    yield "front newer by a nanosecond, other bytes", later + GOOD, "found front a 28 10 6 both"
    yield "back newer by a nanosecond, other bytes", GOOD + later, "found back a 28 10 6 both"
    early, late = copy(a=held(10, 999999999)), copy(a=held(11, 0))
    yield "front newer by a second, fewer nanoseconds", late + early, "found front a 28 11 0 both"
    yield "back newer by a second, fewer nanoseconds", early + late, "found back a 28 11 0 both"
    both = copy(a=held(10, 5, OTHER), b=held(10, 6))
    yield "b newer by a nanosecond", both + both, "found front b 28 10 6 both"
    both = copy(a=held(10, 6), b=held(10, 5, OTHER))
    yield "a newer by a nanosecond", both + both, "found front a 28 10 6 both"
    both = copy(a=held(10, 999999999), b=held(11, 0, OTHER))
    yield "b newer by a second, fewer nanoseconds", both + both, "found front b 28 11 0 both"

    torn = copy(a=held(10, 5), b=broken(11, 0, OTHER))
    yield "the later entry not whole in front", torn + GOOD, "found front a 28 10 5 both"
    yield "the later entry not whole in back", GOOD + torn, "found front a 28 10 5 both"
    yield "the later entry not whole in both", torn + torn, "found front a 28 10 5 both"
    yield "the later entry not whole in front, whole in back", torn + newer, "found back b 28 11 0 both"
    yield "the later entry whole in front, not in back", newer + torn, "found front b 28 11 0 both"
    mirror = copy(a=broken(11, 0, OTHER), b=held(10, 5))
    yield "the later entry a, not whole in both", mirror + mirror, "found front b 28 10 5 both"
    none = copy(a=broken(10, 5), b=broken(11, 0, OTHER))
    yield "front with no whole area", none + GOOD, "found back a 28 10 5 both"
    yield "back with no whole area", GOOD + none, "found front a 28 10 5 both"
    blank = copy()
    yield "front with no used entry", blank + GOOD, "found back a 28 10 5 both"
    yield "back with no used entry", GOOD + blank, "found front a 28 10 5 both"
    bad = copy(a=held(12, 0), sealed=False)
    yield "the later entry not whole, back refused", torn + bad, "found front a 28 10 5 3"
    yield "the later entry not whole, front refused", bad + torn, "found back a 28 10 5 3"

    yield "no bytes", b"", "refused 1"
    yield "one copy only", GOOD, "refused 1"
    yield "a byte too few", (GOOD + GOOD)[:-1], "refused 1"
    yield "a byte too many", GOOD + GOOD + b"\x00", "refused 1"
    yield "all zero", bytes(2 * COPY), "refused 10"
    yield "both refused", bad + bad, "refused 10"
    yield "both refused, by different numbers", bad + copy(a=held(10, 5), size=0), "refused 10"
    other = [("S", {"size": 2097153}), ("L", {"metadata": 2042}), ("R", {"reserved": 1}),
             ("the pool UUID", {"pool": POOL[:31] + b"0"}), ("the device UUID", {"uuid": b"0" + UUID[1:]})]
    for name, odd in other:
        yield f"{name} differs", GOOD + copy(a=held(10, 5), **odd), "refused 11"
    yield "S differs, no record", blank + copy(size=2097153), "refused 11"
    yield "R differs, two records", GOOD + copy(a=held(10, 5, OTHER), reserved=1), "refused 11"
    yield "no used entry in either", blank + blank, "refused 12"
    yield "no whole area in either", none + none, "refused 12"
    yield "no whole area in front, back refused", none + bad, "refused 12"
    yield "no used entry in back, front refused", bad + blank, "refused 12"
    yield "two records of one time", GOOD + copy(a=held(10, 5, OTHER)), "refused 13"
    yield "two records of one time, one longer", GOOD + copy(a=held(10, 5, RECORD + b"\x00")), "refused 13"
    yield "two records of one time, in a and in b", GOOD + copy(a=held(9, 5), b=held(10, 5, OTHER)), "refused 13"
    apart = copy(a=held(10, 5, OTHER), b=held(12, 0))
    yield "earlier records of one time, the newest one record", copy(a=held(10, 5), b=held(12, 0)) + apart, \
        "found front b 28 12 0 both"

    yield "the older polynomial in both", OLDER + OLDER, "refused 10"
    yield "the older polynomial in front", OLDER + GOOD, "found back a 28 10 5 3"
    yield "the older polynomial in back", GOOD + OLDER, "found front a 28 10 5 3"
    block_only = copy(a=held(10, 5), polynomial=OLDER_POLYNOMIAL)
    yield "the older polynomial in both blocks alone", block_only + block_only, "refused 10"
    area_only = copy(a=held(10, 5, polynomial=OLDER_POLYNOMIAL))
    yield "the older polynomial in both areas alone", area_only + area_only, "refused 12"

    one = copy(a=held(10, 5, b"\x00"))
    yield "a record of 1 byte", one + one, "found front a 1 10 5 both"
    long = copy(b=held(10, 5, LONG))
    yield "a record of 8,192 bytes", long + long, "found front b 8192 10 5 both"
    yield "a record of 8,192 bytes, its last byte changed", \
        copy(a=held(9, 0), b=held(10, 5, LONG, stored=LONG[:-1] + bytes([LONG[-1] ^ 128]))) + bad, "found front a 28 9 0 3"
    zero = copy(a=held(0, 0))
    yield "time zero", zero + zero, "found front a 28 0 0 both"
    far = copy(a=held(10, 5), b=held(2 ** 64 - 1, 999999999), size=2 ** 64 - 1, metadata=16384, reserved=65536)
    yield "the largest time, S, L and R", far + far, f"found front b 28 {2 ** 64 - 1} 999999999 both"
    noise = bytes((13 * i + 1) % 256 for i in range(64))
    full = copy(a=held(10, 5), after=[(0, noise), (SECTOR - 64, noise), (2 * SECTOR, noise), (8 * SECTOR - 64, noise),
                                      (OFFSETS["a"] + 28, noise), (OFFSETS["b"], noise), (COPY - 64, noise)])
    yield "other bytes in the header and past the record", full + full, "found front a 28 10 5 both"
    yield "the same in front only", full + GOOD, "found front a 28 10 5 both"


def main():
    stream, lines, names = b"", [], set()
    for name, dump, said in samples():
        assert answer(dump) == said, (name, said, answer(dump))
        assert name not in names, name
        names.add(name)
        stream += packed(name, dump, len(dump))
        lines.append(f"{name}: {said}")
    write("dump", [answer(GOOD + GOOD)], GOOD + GOOD)
    write("dump_samples", lines, stream)
    print(f"dumps: {len(names)} samples, {len(stream)} bytes")


if __name__ == "__main__":
    main()
