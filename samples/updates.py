#!/usr/bin/env python3
"""Makes the sample updates and what must be printed for them, of the program update_samples.

    python3 samples/updates.py [FOLDER]

The two copies are in step on one record, which the front holds in area a and the back in area b. stdin: the front copy, the back
copy, then for each update seconds in 8 bytes, nanoseconds in 4, the record's length in 2, and the record, every number
little-endian.
"""
from layout import (COPY, ENTRY_OFFSETS, MOST_NANOSECONDS, OFFSETS, RECORD, RECORD_LIMIT, SECTOR, beside, copy, crc32, data_range,
                    held, in_sectors, laid, number, places, record, record_refusal, seal, write)

DEVICE = SIZE, METADATA, RESERVED = 2097154, 2044, 3
FIRST, END = data_range(DEVICE)
TIME = (10, 5)


def refusal(time, data):
    """The number of an update of copies that are in step; 0 for none."""
    if time[1] > MOST_NANOSECONDS:
        return 9
    if time <= TIME:
        return 14
    return record_refusal(DEVICE, data)


def new_block(block, area, time, data):
    """The block with that area's entry and the CRC changed."""
    seconds, nanoseconds, used, crc = held(*time, data).entry
    entry = number(seconds, 8) + number(nanoseconds, 4) + number(used, 4) + number(crc, 4)
    return seal(laid(block, [(ENTRY_OFFSETS[area], entry)])[4:])


def stores(front, back, time, data):
    """The 2k + 2 stores: group, sector, bytes."""
    group = 0
    for side, whole, area in (("front", front, "b"), ("back", back, "a")):
        where = places(DEVICE)[side]
        for i, content in enumerate(in_sectors(data)):
            yield group, where[area] + i, content
        yield group + 1, where["block"], new_block(whole[SECTOR:2 * SECTOR], area, time, data)
        group += 2


def store_refusal(count, number, data):
    """The number of a store, for slices of the right size; 0 for none."""
    if not 1 <= len(data) <= RECORD_LIMIT:
        return 15
    return 0 if number < count else 23


def main():
    device = {"size": SIZE, "metadata": METADATA, "reserved": RESERVED}
    held_record = record((2, FIRST, 100))
    front = copy(held(*TIME, held_record), held(9, 999999999, RECORD), **device)
    back = copy(held(3, 0, RECORD), held(*TIME, held_record), **device)
    good = record((1, FIRST, 7), (4, END - 1, 1))
    many = [(1 + i % 4, FIRST + 3 * i, 1 + i % 3) for i in range(409)]
    full, marked = record(*many), record(*many, mark=7)
    even = record(*((3, END - 5 * (i + 1), 5) for i in range(102)))
    assert len(full) == 8188 and len(marked) == 8192 and len(even) == 2048
    updates = [
        ((10, 6), good),
        ((11, 0), record()),
        ((2 ** 64 - 1, 999999999), even),
        ((10, 5), good),
        ((10, 4), good),
        ((9, 7), good),
        ((11, 1000000000), good),
        ((0, 1000000000), b""),
        ((11, 0), b""),
        ((11, 0), bytes(8193)),
        ((11, 0), good[:-1]),
        ((11, 0), record((2, FIRST, 1), kind=17)),
        ((11, 0), record((2, FIRST, 1), kind=18)),
        ((11, 0), record((2, FIRST, 1), mark=0, kind=16)),
        ((11, 1), record((2, FIRST, 1), mark=2 ** 32 - 1)),
        ((11, 2), record(mark=0)[:11]),
        ((11, 0), record((5, FIRST, 1))),
        ((11, 0), record((2, FIRST, 1), block_size=129)),
        ((11, 0), record((2, FIRST - 1, 1))),
        ((11, 0), record((2, END, 1))),
        ((11, 0), record((2, FIRST, 0))),
        ((11, 0), record((2, 2 ** 64 - 1, 2 ** 64 - 1))),
        ((11, 0), record((2, FIRST, 2), (2, FIRST + 1, 1))),
        ((11, 0), record((1, FIRST + 20, 1), (2, FIRST + 5, 2), (3, FIRST, 9), (4, FIRST + 6, 3))),
        ((11, 4), marked),
        ((11, 5), full),
    ]
    stream, lines = front + back, []
    for time, data in updates:
        stream += number(time[0], 8) + number(time[1], 4) + number(len(data), 2) + data
        n = refusal(time, data)
        if n:
            lines.append(" ".join(map(str, ["refused", n] + beside(n, data))))
            continue
        made = list(stores(front, back, time, data))
        lines.append(f"stores {len(made)}")
        lines += [f"store {i} {group} {sector} {crc32(content):08x}" for i, (group, sector, content) in enumerate(made)]
        for i, lent in ((len(made), data), (len(made), b""), (0, front[:RECORD_LIMIT + 1])):
            lines.append(f"refused {store_refusal(len(made), i, lent)}")
    lines += ["refused 1", "refused 16"]
    touched = laid(front, [(OFFSETS["b"], b"touch".ljust(SECTOR, b"\0"))])
    for n, data in ((0, touched), (15, touched), (1, touched[:-1])):
        lines.append(f"laid {n} {crc32(data):08x}")
    assert back[OFFSETS["b"]] != 7
    write("update_samples", lines, stream)
    print(f"updates: {len(updates)} samples, {len(stream)} bytes")


if __name__ == "__main__":
    main()
