#!/usr/bin/env python3
"""Makes the samples of the program block_samples: its stdin and the stdout that it must print.

    python3 samples/blocks.py [FOLDER]

Each sample says by itself what must come of it, and the reader in layout.py must come to the same before a byte is written.

stdin: for each sample a length of two bytes, lowest first, then that many bytes; the length 65,535 ends the list.
stdout: a line for each sample, then a line for each device's places, then a line for each refusal number.
"""
import layout
from layout import (LEAST_METADATA, LEAST_SIZE, MOST_METADATA, MOST_NANOSECONDS, MOST_RESERVED, MOST_SIZE, RECORD_LIMIT,
                    SIGNATURE, UNUSED, block_faults, data_range, device_refusal, fields_of, number, places, seal, write)

POOL = b"0123456789abcdef0f1e2d3c4b5a6978"
UUID = b"fedcba9876543210a1b2c3d4e5f60789"


# Making blocks

def block(s=LEAST_SIZE, l=LEAST_METADATA, r=0, pool=POOL, uuid=UUID, **fields):
    return layout.block((s, l, r), pool, uuid, **fields)


def changed(whole, at, value):
    """The block with another byte at an offset, and its CRC anew."""
    assert whole[at] != value
    return seal(layout.laid(whole, [(at, bytes([value]))])[4:])


def spoiled(whole, at, bits):
    """The block with bits of a byte flipped, and its CRC left as it was."""
    return layout.laid(whole, [(at, bytes([whole[at] ^ bits]))])


# The line of a block

def entry_text(e):
    return "-" if e == UNUSED else "%d.%d:%d:%08x" % e


def line(b):
    found = block_faults(b)
    if found:
        return "refused %d" % found[0]
    f = fields_of(b)
    device, pool, uuid = f.identity
    names = (pool.decode("ascii"), uuid.decode("ascii"), *(entry_text(f.entries[area]) for area in "ab"))
    return "accepted %d %d %d %s same" % (*device, " ".join(names))


# The samples: pairs of bytes and what must come of them, 0 for accepted

def accepted():
    first, second = (10, 4, 28, 0x1234ABCD), (10, 5, 508, 0x00000001)
    whole = [
        dict(),
        dict(a=first),
        dict(b=first),
        dict(a=first, b=second),
        dict(a=second, b=first),
        # S at its limits, and with its lower half zero
        dict(s=LEAST_SIZE + 1),
        dict(s=2**32),
        dict(s=2**63),
        dict(s=MOST_SIZE),
        # L and R at their limits
        dict(l=LEAST_METADATA + 2),
        dict(l=MOST_METADATA - 2),
        dict(l=MOST_METADATA),
        dict(r=1),
        dict(r=MOST_RESERVED),
        dict(l=MOST_METADATA, r=MOST_RESERVED),
        dict(s=MOST_SIZE, l=MOST_METADATA, r=MOST_RESERVED, a=(2**64 - 1, MOST_NANOSECONDS, RECORD_LIMIT, 2**32 - 1),
             b=(2**64 - 1, 0, 1, 0)),
        # used bytes and nanoseconds at their limits
        dict(a=(0, 0, 1, 0)),
        dict(b=(0, 0, 1, 0)),
        dict(a=(7, MOST_NANOSECONDS, RECORD_LIMIT, 0xFFFFFFFF)),
        dict(b=(7, MOST_NANOSECONDS, RECORD_LIMIT, 0xFFFFFFFF)),
        dict(a=(1, 0, 1, 5), b=(1, MOST_NANOSECONDS, RECORD_LIMIT, 5)),
        # one time in seconds but not in nanoseconds, and the other way round
        dict(a=(77, 1, 100, 9), b=(77, 0, 100, 9)),
        dict(a=(76, 3, 100, 9), b=(77, 3, 100, 9)),
        dict(a=(2**32, 3, 100, 9), b=(0, 3, 100, 9)),
        # the outermost digits
        dict(pool=b"0" * 32, uuid=b"9" * 32),
        dict(pool=b"a" * 32, uuid=b"f" * 32),
    ]
    return [(block(**f), 0) for f in whole]


def sizes():
    good = block()
    return [
        (b"", 1),
        (good[:1], 1),
        (good[:4], 1),
        (good[:511], 1),
        (good + b"\0", 1),
        (good + good, 1),
    ]


def signatures():
    good = block()
    each = [(changed(good, 4 + i, SIGNATURE[i] ^ 1), 2) for i in range(16)]
    return each + [(block(signature=bytes(16)), 2), (block(signature=SIGNATURE[::-1]), 2), (bytes(512), 2)]


def checksums():
    good = block(a=(10, 5, 28, 0x1234ABCD))
    wrong = [spoiled(good, i, 1) for i in range(4)] + [spoiled(good, 3, 0x80)]
    # one bit of a covered byte; the last of them also breaks a zero field
    wrong += [spoiled(good, 20, 1), spoiled(good, 27, 0x80), spoiled(good, 96, 1), spoiled(good, 112, 0x10), spoiled(good, 511, 1)]
    crc = good[:4]
    wrong.append(crc[::-1] + good[4:])
    wrong.append(bytes(x ^ 255 for x in crc) + good[4:])
    wrong.append(bytes(4) + good[4:])
    # the older polynomial
    wrong.append(seal(good[4:], layout.OLDER_POLYNOMIAL))
    return [(b, 3) for b in wrong]


def device_sizes():
    return [(block(s=s), 4) for s in (LEAST_SIZE - 1, 0, 1)]


def zero_fields():
    good = block(a=(10, 5, 28, 0x1234ABCD), b=(10, 4, 28, 0x1234ABCD))
    ends = ((28, 31), (116, 127), (148, 159), (168, 511))
    each = [(changed(good, at, value), 5) for pair in ends for at, value in zip(pair, (1, 0x80))]
    return each + [(changed(good, at, 0xFF), 5) for at in (122, 150, 340)]


def uuids():
    each = []
    for at in (32, 63, 64, 95):
        for x in b"AFg/:`":
            each.append((changed(block(), at, x), 6))
    return each + [(changed(block(), 47, 0), 6), (changed(block(), 80, 0xFF), 6)]


def metadata_sizes():
    return [(block(l=l), 7) for l in (2038, 2039, 2041, 16383, 16385, 16386, 0, 2**32 - 2, 2**16 + 2040)]


def reserved_sizes():
    return [(block(r=r), 8) for r in (65537, 2**17, 2**32 - 1)]


def entries():
    wrong = []
    for area in "ab":
        for e in (
            (10, 1000000000, 28, 5),
            (10, 2**32 - 1, 28, 5),
            (10, 0, 0, 0),
            (0, 5, 0, 0),
            (0, 0, 0, 5),
            (10, 5, 8193, 5),
            (10, 5, 2**32 - 1, 5),
            (10, 5, 2**16 + 1, 5),
        ):
            wrong.append({area: e})
    # one entry right, the other not
    wrong.append(dict(a=(10, 5, 28, 5), b=(11, 5, 8193, 5)))
    wrong.append(dict(a=(10, 1000000000, 28, 5), b=(11, 5, 28, 5)))
    # two used entries of one time, alike and not, and the earliest and the latest
    wrong.append(dict(a=(10, 5, 28, 5), b=(10, 5, 28, 5)))
    wrong.append(dict(a=(10, 5, 28, 5), b=(10, 5, 508, 6)))
    wrong.append(dict(a=(0, 0, 1, 5), b=(0, 0, 1, 6)))
    wrong.append(dict(a=(2**64 - 1, MOST_NANOSECONDS, 1, 5), b=(2**64 - 1, MOST_NANOSECONDS, 1, 6)))
    return [(block(**f), 9) for f in wrong]


# What breaks a rule of 4 to 9, as fields.
BREAKS = {
    4: dict(s=LEAST_SIZE - 1),
    5: dict(flags=1),
    6: dict(uuid=b"F" + UUID[1:]),
    7: dict(l=LEAST_METADATA + 1),
    8: dict(r=MOST_RESERVED + 1),
    9: dict(a=(10, 1000000000, 28, 5)),
}


def breaking(numbers):
    """A block that breaks just the rules with these numbers, of 2 to 9."""
    fields = {}
    for n in numbers:
        fields.update(BREAKS.get(n, {}))
    if 2 in numbers:
        fields["signature"] = SIGNATURE[:15] + b"H"
    b = block(**fields)
    if 3 in numbers:
        b = spoiled(b, 0, 1)
    assert block_faults(b) == sorted(numbers)
    return b


def several():
    """Each two rules of 2 to 9 together, each with all that follow it, and all of them in a slice of the wrong size."""
    two = [(breaking([i, j]), i) for i in range(2, 10) for j in range(i + 1, 10)]
    more = [(breaking(list(range(i, 10))), i) for i in range(2, 10)]
    return two + more + [(breaking(list(range(2, 10)))[:511], 1)]


def samples():
    return (
        accepted() + sizes() + signatures() + checksums() + device_sizes() + zero_fields() + uuids() + metadata_sizes()
        + reserved_sizes() + entries() + several()
    )


# Places: docs/FORMAT.md, 'Where things lie', with the device numbers of its examples

DEVICES = [
    (LEAST_SIZE, LEAST_METADATA, 0),
    (LEAST_SIZE - 1, LEAST_METADATA, 0),
    (LEAST_SIZE, 2041, 0),
    (LEAST_SIZE, 2038, 0),
    (LEAST_SIZE, MOST_METADATA, MOST_RESERVED),
    (LEAST_SIZE, MOST_METADATA, MOST_RESERVED + 1),
    (MOST_SIZE, LEAST_METADATA, 0),
    (MOST_SIZE, MOST_METADATA, MOST_RESERVED),
]


def places_text(*device):
    n = device_refusal(device)
    head = "places %d %d %d" % device
    if n:
        return "%s refused %d" % (head, n)
    parts = [(side, where.values()) for side, where in places(device).items()] + [("data", data_range(device))]
    return head + "".join(" %s %s" % (name, " ".join(map(str, numbers))) for name, numbers in parts)


def examples():
    """Examples 1, 2, 3, 5 and 6 of the format and the number of example 4, as docs/FORMAT.md has them."""
    text = places_text(LEAST_SIZE, LEAST_METADATA, 0).split()
    assert text[11:16] == ["2097144", "2097145", "2095104", "2096124", "2095104"]
    assert text[17:] == ["2048", "2095104"] and 2095104 - 2048 == 2093056
    assert places_text(2097151, 2040, 0).endswith("refused 4")
    assert places_text(2097152, 2041, 0).endswith("refused 7") and places_text(2097152, 2038, 0).endswith("refused 7")
    assert "refused" not in places_text(2097152, 16384, 65536)


# What each refusal number says: the table of docs/FORMAT.md, 'Refusal numbers', without the values of the limits

WORDS = {
    0: "nothing is refused",
    1: "a lent slice has the wrong size, or is too small for the answer",
    2: "the 16 signature bytes differ",
    3: "the block's CRC differs",
    4: "S too small",
    5: "flags or a zero field not zero",
    6: "a UUID byte not allowed",
    7: "L not allowed",
    8: "R not allowed",
    9: "an area entry breaks a limit, or both used entries have one time",
    10: "neither copy's block is accepted",
    11: "both accepted; S, L, R or a UUID differ",
    12: "no whole record in any accepted copy",
    13: "the newest whole records of the two copies have one time and different bytes",
    14: "update time not later than the present record's",
    15: "record length 0 or over the limit",
    16: "update asked while the copies are not in step",
    17: "record malformed, or a kind not known",
    18: "a segment empty or not wholly in the data range; or 0 sectors asked for",
    19: "two segments share a sector",
    20: "no free run is long enough",
    21: "the record already holds the most segments",
    22: "no segment has that position",
    23: "no store has that number",
    24: "moving the head would lose its low water mark",
}


def words_text(n):
    return "%d %s" % (n, WORDS.get(n, "a number that is not known"))


def main():
    examples()
    given, wanted = b"", []
    for b, n in samples():
        assert (block_faults(b) or [0])[0] == n, (n, block_faults(b))
        given += number(len(b), 2) + b
        wanted.append(line(b))
    given += number(65535, 2)
    count = len(wanted)
    wanted += [places_text(*d) for d in DEVICES]
    wanted += [words_text(n) for n in [*range(31), 255]]
    write("block_samples", wanted, given)
    print("blocks: %d samples, %d bytes; %d lines" % (count, len(given), len(wanted)))


if __name__ == "__main__":
    main()
