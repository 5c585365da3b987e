#!/usr/bin/env python3
"""Makes the sample mends and what must be printed for them, of the program mend_samples.

    python3 samples/mends.py [FOLDER]

Each sample states by hand what mending answers, and `mend` below works it out by the format's rules: where the two differ the
script stops. The stores are applied to a device of numbered sectors, from which the copies are read again; the script stops
unless they are then in step on the record that was found.

stdin: the samples, packed as `packed` in layout.py says, with the sizes of the front and of the back copy. The front begins at
byte 0 of a pair, the back where a whole front ends.
"""
from layout import (AREA_SECTORS, COPY, HEADER_SECTORS, LONG, OFFSETS, OTHER, RECORD, SECTOR, UNUSED, WAYS, Found, block, broken,
                    copy, crc32, discover, held, in_sectors, laid, line, packed, places, present, read, write)

SMALL = {"size": 2097152, "metadata": 2040, "reserved": 0}
EVEN = {"size": 2097154, "metadata": 2044, "reserved": 3}
LARGE = {"size": 2 ** 40 + 3, "metadata": 16384, "reserved": 65536}
LARGEST = {"size": 2 ** 64 - 1, "metadata": 2042, "reserved": 1}
# What the program lends for a store holds these bytes before.
LENT = b"\xee"


# The rules.

def in_step(front, back):
    """Both blocks accepted, identity equal, in each copy the used entry with the later time whole, and both present
    records of the same time and bytes."""
    if len(front) != COPY or len(back) != COPY:
        return False
    seen = []
    for data in (front, back):
        refused, fields = read(data)
        if refused or not fields.used():
            return False
        found = present(data, fields)
        if found is None or found[:2] != fields.used()[0]:
            return False
        seen.append((fields.identity, found.time, found.record))
    return seen[0] == seen[1]


def mend(front, back):
    """What mending answers; the kept side and its device numbers; the stores: group, sector, bytes."""
    found = discover(front, back)
    if not isinstance(found, Found):
        return line(found), None, []
    if in_step(front, back):
        return "in step", None, []
    side, area = found.side, found.present.area
    fields = read({"front": front, "back": back}[side])[1]
    # If the kept copy's later entry is not whole, one last store blanks that entry.
    later = fields.used()[0][1]
    stores = rewrite(side, fields, area, found.present.record, None if later == area else later)
    return f"stores {len(stores)}", (side, fields.identity[0]), stores


def rewrite(side, fields, area, record, blank):
    """The stores that keep a side, whose block has these fields, with a record in an area."""
    where = places(fields.identity[0])
    other = {"front": "back", "back": "front"}[side]
    # Its signature block with both entries unused, then the record in area a, then its block with that entry.
    stores = [(0, where[other]["block"], block(*fields.identity))]
    stores += [(1, where[other]["a"] + i, data) for i, data in enumerate(in_sectors(record))]
    stores += [(2, where[other]["block"], block(*fields.identity, a=fields.entries[area]))]
    if blank:
        stores += [(3, where[side]["block"], block(*fields.identity, **{**fields.entries, blank: UNUSED}))]
    return stores


def mended(front, back, kept, stores):
    """The copies after the stores, by way of a device of numbered sectors."""
    if not stores:
        return front, back
    parts = (("header", HEADER_SECTORS), ("a", AREA_SECTORS), ("b", AREA_SECTORS))
    numbers = {side: [lie[part] + i for part, n in parts for i in range(n)] for side, lie in places(kept[1]).items()}
    device = {}
    for side, data in (("front", front), ("back", back)):
        for i, sector in enumerate(numbers[side]):
            assert sector not in device
            device[sector] = data[i * SECTOR:(i + 1) * SECTOR]
    for _, sector, data in stores:
        assert sector in device and len(data) == SECTOR
        device[sector] = data
    return tuple(b"".join(device[sector] for sector in numbers[side]) for side in ("front", "back"))


def flush(stores, i):
    """A flush belongs after the last store of each group."""
    return " flush" if [group for group, _, _ in stores[i:i + 2]] != 2 * [stores[i][0]] else ""


def lines_of(m, stores):
    """What is printed of a mend: its answer, its stores, and what comes after the last: 23, or 1 for a copy of another size."""
    yield m
    for i, (group, sector, data) in enumerate(stores):
        yield f"store {i} {group} {sector} {crc32(data):08x}{flush(stores, i)}"
    yield f"store {len(stores)} 4 refused {1 if m == 'refused 1' else 23} {crc32(LENT * SECTOR):08x}"


# The samples: name, front, back, which copy is kept and what mending answers.

def dense(n):
    """A record of n bytes with no form, none of them zero."""
    return bytes((11 * i + i // 251) % 255 + 1 for i in range(n))


def sparse(n):
    """A record of n bytes, most of them zero, each sector different and none ending in zero."""
    data = bytearray(n)
    for i in range(0, n, SECTOR):
        data[i] = i // SECTOR + 1
        data[min(i + SECTOR, n) - 1] = 255 - i // SECTOR
    return bytes(data)


NOISE = bytes(13 * i + 1 for i in range(16))
# Bytes around records of 28 bytes: in the header, in a record's own sector, past it and at the end of the copy. No mend
# changes them but for those in the sector that it stores, which become zeros, and no mend stores them elsewhere.
AROUND = [(0, NOISE), (2 * SECTOR, NOISE), (8 * SECTOR - 16, NOISE), (OFFSETS["a"] + 28, NOISE),
          (OFFSETS["a"] + SECTOR, NOISE), (OFFSETS["b"] - 16, NOISE), (OFFSETS["b"] + 28, NOISE), (COPY - 16, NOISE)]


def both_ways(name, one, two, said):
    yield f"{name}, back mended", one, two, f"keep front, {said}"
    yield f"{name}, front mended", two, one, f"keep back, {said}"


def in_step_already():
    good = copy(a=held(10, 5))
    other = copy(a=held(9, 0, OTHER), b=held(10, 5))
    torn = copy(a=held(10, 5), b=broken(9, 0, OTHER))
    zero = copy(a=held(0, 0))
    long = copy(b=held(10, 5, sparse(8192)), **LARGE)
    yield "in step", good, good, "in step"
    yield "in step, in a and in b", good, other, "in step"
    yield "in step, the earlier entry not whole", torn, torn, "in step"
    yield "in step, the earlier entry not whole in one", good, torn, "in step"
    yield "in step, time zero", zero, zero, "in step"
    yield "in step, 8,192 bytes on a large device", long, long, "in step"
    yield "in step, other bytes around", copy(a=held(10, 5), after=AROUND), good, "in step"


def other_refused():
    """One copy's block is refused, by each number from 2 to 9."""
    good = copy(a=held(9, 5), after=AROUND)
    seen = set()
    for n, name, odd in WAYS:
        if n in seen and name not in ("no block at all", "two entries of one time"):
            continue
        seen.add(n)
        bad = copy(**{"a": held(10, 5, OTHER), **odd})
        assert read(bad)[0] == n, name
        yield from both_ways(f"block refused by {n}, {name}", good, bad, "stores 3")
    assert seen == set(range(2, 10))
    # Nothing of the refused block is taken over, and other sectors of its copy stay.
    odd = copy(a=held(11, 0), b=held(12, 0), uuid=b"0" * 32, pool=b"f" * 32, sealed=False, after=AROUND, **LARGE)
    yield from both_ways("block refused, another device's", copy(b=held(10, 5), **EVEN), odd, "stores 3")
    yield from both_ways("block refused, all bytes 0", good, bytes(COPY), "stores 3")


def other_behind():
    """Both blocks accepted; one copy's present record is earlier, or it has none."""
    good = copy(a=held(10, 5))
    newer = copy(a=held(10, 5), b=held(11, 0, OTHER))
    yield from both_ways("earlier by a second", newer, good, "stores 3")
    yield from both_ways("earlier by a nanosecond, the same bytes", copy(a=held(10, 6)), good, "stores 3")
    yield from both_ways("earlier by a second, more nanoseconds", copy(a=held(11, 0)),
                         copy(a=held(10, 999999999), b=held(9, 0)), "stores 3")
    yield from both_ways("no used entry", good, copy(after=AROUND), "stores 3")
    none = copy(a=broken(12, 0), b=broken(11, 0, OTHER))
    yield from both_ways("no whole area, both entries used", good, none, "stores 3")
    yield from both_ways("no whole area, entry a unused", newer, copy(b=broken(11, 0, OTHER)), "stores 3")
    yield from both_ways("no whole area, entry b unused", newer, copy(a=broken(12, 0)), "stores 3")


def later_torn():
    """A later entry that is not whole."""
    good = copy(a=held(10, 5))
    torn = copy(a=held(10, 5), b=broken(11, 0, OTHER))
    mirror = copy(a=broken(10, 6, OTHER), b=held(10, 5), after=AROUND[2:3])
    # One record in both: the front is kept.
    yield "later entry b not whole in the kept copy", torn, good, "keep front, stores 4"
    yield "later entry a not whole in the kept copy", mirror, good, "keep front, stores 4"
    yield "later entry b not whole in the other copy", good, torn, "keep front, stores 3"
    yield "later entry a not whole in the other copy", good, mirror, "keep front, stores 3"
    yield "later entry b not whole in both", torn, torn, "keep front, stores 4"
    yield "later entry a not whole in both", mirror, mirror, "keep front, stores 4"
    yield "later entry a not whole in one, b in the other", mirror, torn, "keep front, stores 4"
    newer = copy(a=held(10, 5), b=held(11, 0, OTHER))
    yield from both_ways("later entry not whole, whole in the kept copy", newer, torn, "stores 3")
    bad = copy(a=held(12, 0), sealed=False)
    yield from both_ways("later entry not whole, other block refused", torn, bad, "stores 4")
    yield from both_ways("later entry not whole, other block unused", mirror, copy(), "stores 4")
    far = copy(a=broken(2 ** 64 - 1, 999999999), b=held(10, 6))
    yield from both_ways("later entry not whole, other copy earlier", far, good, "stores 4")
    # The area has the record's bytes and the entry another length: not whole either.
    short = copy(a=held(10, 5), b=held(11, 0, OTHER, used=27))
    yield from both_ways("later entry a byte short, other copy earlier", short, copy(a=held(9, 0)), "stores 4")


def times():
    zero = copy(a=held(0, 0))
    yield from both_ways("time zero, other block refused", zero, copy(sealed=False), "stores 3")
    yield from both_ways("time zero, other entries unused", copy(b=held(0, 0)), copy(), "stores 3")
    yield from both_ways("time zero, later entry not whole", copy(a=held(0, 0), b=broken(0, 1, OTHER)),
                         copy(a=broken(5, 5)), "stores 4")
    top = copy(b=held(2 ** 64 - 1, 999999999))
    yield from both_ways("the largest time", top, copy(a=held(2 ** 64 - 1, 999999998)), "stores 3")


def lengths():
    """Records of no form; the other copy has another record in area a."""
    for n, k in ((1, 1), (511, 1), (512, 1), (513, 2), (1024, 2), (1025, 3)):
        data = dense(n)
        said = f"stores {k + 2}"
        yield f"{n} bytes in a, back mended", copy(a=held(10, 5, data)), copy(a=held(9, 5)), f"keep front, {said}"
        yield f"{n} bytes in b, front mended", copy(a=held(9, 5)), copy(b=held(10, 5, data)), f"keep back, {said}"
    # The area has other bytes right after the record: they are not stored.
    full = copy(a=held(10, 5, sparse(513)), after=[(OFFSETS["a"] + 513, NOISE)])
    yield from both_ways("513 bytes with others behind", full, copy(), "stores 4")
    for n, k in ((7680, 15), (7681, 16), (8191, 16), (8192, 16)):
        yield from both_ways(f"{n} bytes in a", copy(a=held(10, 5, sparse(n))), copy(sealed=False), f"stores {k + 2}")
    torn = copy(a=broken(11, 0), b=held(10, 5, sparse(8192)))
    yield from both_ways("8192 bytes in b, later entry not whole", torn, copy(b=held(9, 0)), "stores 19")
    yield "8192 dense bytes in b, front mended", copy(a=held(9, 5)), copy(b=held(10, 5, LONG)), "keep back, stores 18"
    # A long record in the other copy's area a: only the sectors that the found one fills are rewritten.
    yield from both_ways("one sector over sixteen", copy(b=held(10, 5)), copy(a=held(9, 0, sparse(8192))), "stores 3")


def devices():
    for name, device in (("smallest device", SMALL), ("L 2044", EVEN), ("large device", LARGE), ("largest S", LARGEST)):
        kept = copy(a=broken(12, 0, OTHER), b=held(11, 0, sparse(1500)), **device)
        yield from both_ways(f"{name}", kept, copy(a=held(10, 5), **device), "stores 6")


def refused():
    good = copy(a=held(10, 5))
    bad = copy(a=held(10, 5), sealed=False)
    for name, front, back in (("front a byte short", good[:-1], good), ("back a byte short", good, good[:-1]),
                              ("back a byte long", good, good + b"\x00"), ("both a byte short", good[:-1], bad[:-1]),
                              ("no back", good, b""), ("no front", b"", good)):
        yield name, front, back, "refused 1"
    yield "both blocks refused", bad, copy(size=0), "refused 10"
    yield "all bytes zero", bytes(COPY), bytes(COPY), "refused 10"
    for name, odd in (("S", {"size": 2097153}), ("L", {"metadata": 2042}), ("R", {"reserved": 1}),
                      ("the pool UUID", {"pool": b"0" * 32}), ("the device UUID", {"uuid": b"0" * 32})):
        yield f"{name} differs", good, copy(a=held(10, 5), **odd), "refused 11"
    yield "R differs, no record", copy(), copy(reserved=1), "refused 11"
    yield "no used entry", copy(), copy(), "refused 12"
    none = copy(a=broken(10, 5), b=broken(11, 0, OTHER))
    yield "no whole area", none, none, "refused 12"
    yield "no whole area, other block refused", bad, none, "refused 12"
    yield "two records of one time", good, copy(a=held(10, 5, OTHER)), "refused 13"
    yield "two records of one time, one longer", copy(b=held(10, 5, RECORD + b"\x00")), good, "refused 13"
    yield "two records of one time, later entries not whole", copy(a=held(10, 5), b=broken(11, 0)), \
        copy(a=broken(11, 0), b=held(10, 5, OTHER)), "refused 13"


def last():
    """The pair with which the calls of `odd_calls` are made: the front has `dense(800)` in area b."""
    yield "the last pair", copy(b=held(10, 5, dense(800))), copy(a=held(9, 0)), "keep front, stores 4"


def samples():
    for part in (in_step_already, other_refused, other_behind, later_torn, times, lengths, devices, refused, last):
        yield from part()


def made_up(side, kept, area, n, blank=None, number=0, device=0):
    """The stores of a plan that the program makes up itself: it keeps this copy, whose area gives the record's n bytes. The format says
    nothing of it; the library's promise says that a plan's store is refused with 15 where the entry's length is none, with 1 where it is
    not the plan's, and a store that is there with 7 where the kept copy's L is not allowed."""
    fields = read(kept)[1]
    used = fields.entries[area][2]
    assert number == (15 if used == 0 else 1 if used != n else 0) and device == (7 if fields.identity[0][1] % 2 else 0)
    stores = rewrite(side, fields, area, kept[OFFSETS[area]:OFFSETS[area] + n], blank)
    still = f"{crc32(LENT * SECTOR):08x}"
    yield f"stores {len(stores)}"
    for i, (group, sector, data) in enumerate(stores):
        refused = number or device
        yield f"store {i} {group} " + (f"refused {refused} {still}" if refused else f"{sector} {crc32(data):08x}") + flush(stores, i)
    yield f"store {len(stores)} 4 refused {number or 23} {still}"


def main():
    stream, lines, names, said = b"", [], set(), set()
    for name, front, back, stated in samples():
        assert name not in names and len(front) <= COPY, name
        names.add(name)
        stream += packed(name, front.ljust(COPY, b"\0") + back, len(front), len(back))
        m, kept, stores = mend(front, back)
        assert stated == (f"keep {kept[0]}, {m}" if kept else m), (name, stated, m, kept)
        said.add(m)
        lines.append(name)
        lines += lines_of(m, stores)
        after = mended(front, back, kept, stores)
        if not m.startswith("refused"):
            # In step on the record that was found, and both copies accepted.
            was, now = discover(front, back), discover(*after)
            assert in_step(*after) and now.other == 0 and mend(*after)[0] == "in step"
            assert (now.present.time, now.present.record) == (was.present.time, was.present.record)
        lines.append(line(discover(*after)))
        lines.append(f"copies {'in step' if in_step(*after) else 'not in step'} {crc32(after[0]):08x} {crc32(after[1]):08x}")
        lines.append(mend(*after)[0])
    assert {"in step", "refused 1", "refused 10", "refused 11", "refused 12", "refused 13", "stores 3", "stores 4",
            "stores 5", "stores 18", "stores 19"} <= said
    # Stores 0, 1 and 99 of that pair's mend, and store 0 where there is none, with too few and too many bytes.
    for i in (0, 1, 99, 0, 0):
        lines += [f"lent {n} for {i} refused 1 {crc32(LENT * n):08x}" for n in (1, SECTOR - 1, SECTOR + 1)]
    # A last store that is not needed; the older record; a length that is not the entry's; an area with no record; an L that is odd.
    lines += made_up("front", front, "b", 800, blank="a")
    lines += made_up("back", back, "a", 28)
    lines += made_up("front", front, "b", 799, number=1)
    lines += made_up("front", front, "a", 800, number=15)
    lines += made_up("front", laid(front, [(SECTOR + 160, b"\xf9")]), "b", 800, device=7)
    write("mend_samples", lines, stream)
    print(f"mends: {len(names)} samples, {len(stream)} bytes, {len(lines)} lines")


if __name__ == "__main__":
    main()
