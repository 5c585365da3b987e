"""The format's layout, for the scripts that make the samples: the checksum, signature blocks, copies, records and where
things lie, made and read; then what the samples of more than one script are made of.

Written from that document alone; nothing is taken from the library. A device is its three numbers: S, L, R. An entry is
seconds, nanoseconds, used bytes and CRC. A segment is kind, start and sectors.

A script writes below crates/, or below a folder that is its first argument.
"""
import struct
import sys
from functools import cache
from pathlib import Path
from typing import NamedTuple

SECTOR = 512
HEADER_SECTORS = 8
RECORD_LIMIT = 8192
AREA_SECTORS = RECORD_LIMIT // SECTOR
# A copy as it is lent: the header, then the first sectors of area a and of area b.
OFFSETS = {"a": HEADER_SECTORS * SECTOR, "b": HEADER_SECTORS * SECTOR + RECORD_LIMIT}
COPY = HEADER_SECTORS * SECTOR + 2 * RECORD_LIMIT

LEAST_SIZE, MOST_SIZE = 2097152, 2 ** 64 - 1
LEAST_METADATA, MOST_METADATA = 2040, 16384
MOST_RESERVED = 65536
MOST_NANOSECONDS = 999999999
LEAST_BLOCK_SIZE, MOST_BLOCK_SIZE = 128, 2097152
KINDS = (1, 2, 3, 4)
# The kinds of heads: with the data block size; with that and the low water mark. The length and the kind stand before them.
PLAIN, MARKED = 16, 17
HEADS = {PLAIN: struct.Struct("<HHI"), MARKED: struct.Struct("<HHII")}
MOST_SEGMENTS = {kind: (RECORD_LIMIT - fields.size) // 20 for kind, fields in HEADS.items()}


# The checksum. Everything that has one comes from this polynomial, the checksum's table in the source too.

POLYNOMIAL = 0x82F63B78
# That of the drives and dumps made before; only samples of what is refused have it.
OLDER_POLYNOMIAL = 0xEDB88320
ONES = 0xFFFFFFFF


def shifted(register, n, polynomial=POLYNOMIAL):
    """The register after n bits have left it at its low end; for each that is 1, the polynomial is added."""
    for _ in range(n):
        register = (register >> 1) ^ (polynomial if register & 1 else 0)
    return register


@cache
def shifted_bytes(polynomial):
    return [shifted(byte, 8, polynomial) for byte in range(256)]


@cache
def crc32(data, polynomial=POLYNOMIAL):
    register, table = ONES, shifted_bytes(polynomial)
    for byte in data:
        register = (register >> 8) ^ table[(register ^ byte) & 255]
    return register ^ ONES


# Where things lie

def data_range(device):
    size, metadata, reserved = device
    return 8 + metadata + reserved, size - 8 - metadata - reserved


def places(device):
    """For each copy the first sectors of its header, block, areas and reserved space."""
    size, metadata, reserved = device
    return {
        "front": {"header": 0, "block": 1, "a": 8, "b": 8 + metadata // 2, "reserved": 8 + metadata},
        "back": {"header": size - 8, "block": size - 7, "a": size - 8 - metadata, "b": size - 8 - metadata // 2,
                 "reserved": size - 8 - metadata - reserved},
    }


def metadata_allowed(metadata):
    return metadata % 2 == 0 and LEAST_METADATA <= metadata <= MOST_METADATA


def device_refusal(device):
    """The number of device numbers; 0 for none."""
    size, metadata, reserved = device
    if size < LEAST_SIZE:
        return 4
    if not metadata_allowed(metadata):
        return 7
    return 8 if reserved > MOST_RESERVED else 0


# The signature block

SIGNATURE = bytes.fromhex("21 53 74 72 61 30 74 69 73 86 ff 02 5e 41 72 68")
# All but the CRC: signature, S, flags, two UUIDs, entry a, zeros, entry b, zeros, L, R, zeros.
BODY = struct.Struct("<16sQI32s32sQIII12sQIII12sII344s")
assert BODY.size == SECTOR - 4
ENTRY_OFFSETS = {"a": 96, "b": 128}
UNUSED = (0, 0, 0, 0)


def number(value, width):
    return value.to_bytes(width, "little")


def seal(body, polynomial=POLYNOMIAL):
    """The block with these bytes 4 to 511 and their CRC."""
    return number(crc32(body, polynomial), 4) + body


def block(device, pool, uuid, a=UNUSED, b=UNUSED, flags=0, signature=SIGNATURE):
    size, metadata, reserved = device
    return seal(BODY.pack(signature, size, flags, pool, uuid, *a, bytes(12), *b, bytes(12), metadata, reserved, bytes(344)))


class Fields(NamedTuple):
    """What a block says. `identity` is what two copies of one device have in common."""
    identity: tuple
    entries: dict
    flags: int
    signature: bytes
    zeros: bytes

    def used(self):
        """The used entries: time and area, the later first."""
        return sorted(((e[:2], area) for area, e in self.entries.items() if e != UNUSED), reverse=True)


def fields_of(b):
    f = BODY.unpack(b[4:])
    identity = ((f[1], f[15], f[16]), f[3], f[4])
    return Fields(identity, {"a": f[5:9], "b": f[10:14]}, f[2], f[0], f[9] + f[14] + f[17])


def uuid_allowed(uuid):
    return all(byte in b"0123456789abcdef" for byte in uuid)


def entry_allowed(e):
    seconds, nanoseconds, used, crc = e
    return e == UNUSED or (1 <= used <= RECORD_LIMIT and nanoseconds <= MOST_NANOSECONDS)


def block_faults(b):
    """Each of 1 to 9 that applies to these bytes, ascending."""
    if len(b) != SECTOR:
        return [1]
    f = fields_of(b)
    (size, metadata, reserved), pool, uuid = f.identity
    times = [time for time, _ in f.used()]
    broken = {
        2: f.signature != SIGNATURE,
        3: b[:4] != number(crc32(b[4:]), 4),
        4: size < LEAST_SIZE,
        5: f.flags != 0 or any(f.zeros),
        6: not uuid_allowed(pool + uuid),
        7: not metadata_allowed(metadata),
        8: reserved > MOST_RESERVED,
        9: not all(map(entry_allowed, f.entries.values())) or len(set(times)) < len(times),
    }
    return [n for n in sorted(broken) if broken[n]]


def read(copy):
    """The number that the block of a copy is refused with, 0 for none; and what it says."""
    b = copy[SECTOR:2 * SECTOR]
    return (block_faults(b) or [0])[0], fields_of(b)


# The segment record

def item(kind, start, sectors):
    return struct.pack("<HHQQ", 20, kind, start, sectors)


def head(block_size=128, mark=None, kind=None):
    """A head with a mark, or without; a kind that is named stands in place of its own."""
    fields = HEADS[PLAIN if mark is None else MARKED]
    kind = kind or (PLAIN if mark is None else MARKED)
    return fields.pack(fields.size, kind, block_size, *([] if mark is None else [mark]))


def record(*segments, **of_head):
    return head(**of_head) + b"".join(item(*s) for s in segments)


def parse_head(data):
    """Kind, block size, mark (0 for none) and bytes, or None."""
    if len(data) < 4 or (kind := struct.unpack_from("<HH", data)[1]) not in HEADS or len(data) < HEADS[kind].size:
        return None
    length, kind, size, *mark = HEADS[kind].unpack_from(data)
    if length != HEADS[kind].size or size % 128 or not LEAST_BLOCK_SIZE <= size <= MOST_BLOCK_SIZE:
        return None
    return kind, size, (mark or [0])[0], length


def parse(data):
    """The head, as parse_head has it, and the segments, or None for 17."""
    head = parse_head(data)
    if head is None:
        return None
    segments = []
    for at in range(head[3], len(data), 20):
        if len(data) - at < 20:
            return None
        length, kind, start, sectors = struct.unpack_from("<HHQQ", data, at)
        if length != 20 or kind not in KINDS:
            return None
        segments.append((kind, start, sectors))
    return head, segments


def record_refusal(device, data):
    """The number of a record on a device, whose numbers are allowed; 0 for none."""
    if not 1 <= len(data) <= RECORD_LIMIT:
        return 15
    if parse(data) is None:
        return 17
    segments = parse(data)[1]
    first, end = data_range(device)
    if any(n == 0 or s < first or s + n > end for _, s, n in segments):
        return 18
    taken = sorted((s, s + n) for _, s, n in segments)
    return 19 if any(a[1] > b[0] for a, b in zip(taken, taken[1:])) else 0


def beside(n, data):
    """What stands beside the number n of a call that takes a record: for 19 alone the two segments that clash."""
    if n != 19:
        return []
    held = list(enumerate(parse(data)[1]))
    return next([i, j] for i, (_, a, m) in held for j, (_, b, n) in held if i < j and max(a, b) < min(a + m, b + n))


def in_sectors(data):
    """A record as it is stored: sector by sector, the last one filled with zeros."""
    return [data[at:at + SECTOR].ljust(SECTOR, b"\0") for at in range(0, len(data), SECTOR)]


# Discovery

class Present(NamedTuple):
    """A copy's whole area with the later time."""
    time: tuple
    area: str
    record: bytes


class Found(NamedTuple):
    side: str
    present: Present
    # the other copy's refusal number; 0 where both are accepted
    other: int


def present(copy, fields):
    for time, area in fields.used():
        used, crc = fields.entries[area][2:]
        data = copy[OFFSETS[area]:OFFSETS[area] + used]
        if crc32(data) == crc:
            return Present(time, area, data)
    return None


def discover(front, back):
    """What discovery answers: a refusal number, or Found."""
    if len(front) != COPY or len(back) != COPY:
        return 1
    copies = {"front": front, "back": back}
    numbers, fields = {}, {}
    for side, data in copies.items():
        numbers[side], fields[side] = read(data)
    accepted = [side for side in copies if not numbers[side]]
    if not accepted:
        return 10
    if len(accepted) == 2 and fields["front"].identity != fields["back"].identity:
        return 11
    found = [(side, present(copies[side], fields[side])) for side in accepted]
    found = [(side, p) for side, p in found if p]
    if not found:
        return 12
    if len(found) == 2 and found[0][1].time == found[1][1].time and found[0][1].record != found[1][1].record:
        return 13
    # the first of the latest, so that the front goes before the back
    side, p = max(found, key=lambda f: f[1].time)
    return Found(side, p, max(numbers.values()))


def line(answer):
    """The dump program's line for what discovery answers."""
    if isinstance(answer, int):
        return f"refused {answer}"
    side, (time, area, data), other = answer
    return f"found {side} {area} {len(data)} {time[0]} {time[1]} {other or 'both'}"


# What samples are made of

SMALL = (LEAST_SIZE, LEAST_METADATA, 0)
POOL = b"0123456789abcdef0123456789abcdef"
UUID = b"fedcba98765432100123456789abcdef"
# The printed record: block size 128, a data segment of 100 sectors at 2,048.
RECORD = bytes.fromhex("08 00 10 00 80 00 00 00 14 00 02 00 00 08 00 00 00 00 00 00 64 00 00 00 00 00 00 00")
assert RECORD == record((2, 2048, 100))
OTHER = record((2, 2048, 101))
LONG = bytes((7 * i + i // 256 + 1) % 256 for i in range(RECORD_LIMIT))


class Area(NamedTuple):
    """An area: its entry, and what is stored in it."""
    entry: tuple
    stored: bytes


def held(seconds, nanoseconds, data=RECORD, used=None, stored=None, polynomial=POLYNOMIAL):
    """An area that holds a record; or with other used bytes, or other bytes stored, than its entry should have."""
    entry = (seconds, nanoseconds, len(data) if used is None else used, crc32(data, polynomial))
    return Area(entry, data if stored is None else stored)


def broken(seconds, nanoseconds, data=RECORD):
    """An area whose bytes do not match its entry."""
    return held(seconds, nanoseconds, data, stored=bytes([data[0] ^ 1]) + data[1:])


NO_AREA = Area(UNUSED, b"")


def laid(data, parts):
    """The bytes with parts laid over them: pairs of offset and bytes."""
    data = bytearray(data)
    for at, part in parts:
        assert at + len(part) <= len(data)
        data[at:at + len(part)] = part
    return bytes(data)


def copy(a=NO_AREA, b=NO_AREA, size=LEAST_SIZE, metadata=LEAST_METADATA, reserved=0, pool=POOL, uuid=UUID, lay=(),
         sealed=True, after=(), polynomial=POLYNOMIAL, **odd):
    """A copy. `lay` is laid over the block before it is sealed, `after` over the copy at the end."""
    whole = seal(laid(block((size, metadata, reserved), pool, uuid, a.entry, b.entry, **odd), lay)[4:], polynomial)
    if not sealed:
        whole = laid(whole, [(0, bytes([whole[0] ^ 1]))])
    parts = [(SECTOR, whole), (OFFSETS["a"], a.stored), (OFFSETS["b"], b.stored)]
    return laid(bytes(COPY), parts + list(after))


# Ways to have a block refused, each with its number, for a copy with held(10, 5) in area a.
WAYS = [
    (2, "another first signature byte", {"signature": b"\x20" + SIGNATURE[1:]}),
    (2, "another last signature byte", {"signature": SIGNATURE[:15] + b"\x69"}),
    (2, "no block at all", {"after": [(SECTOR, bytes(SECTOR))]}),
    (3, "another checksum", {"sealed": False}),
    (3, "its last byte changed", {"after": [(2 * SECTOR - 1, b"\x01")]}),
    (4, "S one too small", {"size": 2097151}),
    (4, "S zero", {"size": 0}),
    (5, "a flag", {"flags": 1 << 31}),
    (5, "byte 116", {"lay": [(116, b"\x01")]}),
    (5, "byte 127", {"lay": [(127, b"\x01")]}),
    (5, "byte 148", {"lay": [(148, b"\x01")]}),
    (5, "byte 159", {"lay": [(159, b"\x01")]}),
    (5, "byte 168", {"lay": [(168, b"\x01")]}),
    (5, "byte 511", {"lay": [(511, b"\x80")]}),
    (6, "a pool UUID with a capital", {"pool": b"A" + POOL[1:]}),
    (6, "a device UUID with a g", {"uuid": UUID[:31] + b"g"}),
    (7, "L odd", {"metadata": 2041}),
    (7, "L too small", {"metadata": 2038}),
    (7, "L too large", {"metadata": 16386}),
    (8, "R too large", {"reserved": 65537}),
    (9, "too many nanoseconds", {"a": held(10, 1000000000)}),
    (9, "no used bytes", {"a": held(10, 5, used=0)}),
    (9, "too many used bytes", {"a": held(10, 5, used=8193)}),
    (9, "two entries of one time", {"b": held(10, 5, OTHER)}),
    (9, "entry b out of its limits", {"b": held(9, 4000000000)}),
    (2, "signature and checksum wrong", {"signature": bytes(16), "sealed": False}),
    (3, "checksum and S wrong", {"size": 1, "sealed": False}),
    (4, "S and a flag wrong", {"size": 1, "flags": 1}),
    (5, "a zero field and L wrong", {"lay": [(28, b"\x01")], "metadata": 0}),
]


# Files

# The most bytes that a program reads.
INPUT_BYTES = 131072


def patches(data):
    """Offsets and bytes that make the data out of zeros; short gaps are kept."""
    found, at = [], 0
    while at < len(data):
        if data[at] == 0:
            at += 1
            continue
        end = at + 1
        while end < len(data) and any(data[end:end + 5]):
            end += 1
        found.append((at, data[at:end]))
        at = end
    return found


def packed(name, data, *sizes):
    """A packed sample, every number of 2 bytes, little-endian: the length of its name, the name, sizes, the number of its patches, and
    for each patch its offset, its length and its bytes. The data is zeros with the patches laid over."""
    parts = patches(data)
    assert laid(bytes(len(data)), parts) == data, name
    text = name.encode("ascii")
    return (number(len(text), 2) + text + b"".join(number(size, 2) for size in sizes) + number(len(parts), 2)
            + b"".join(number(at, 2) + number(len(part), 2) + part for at, part in parts))


def write(program, lines, stdin=None):
    """Writes the lines that a program has to print, and what it reads."""
    below = Path(sys.argv[1]) if len(sys.argv) > 1 else Path(__file__).resolve().parent.parent / "crates"
    folder = below / program
    folder.mkdir(parents=True, exist_ok=True)
    (folder / "stdout").write_bytes("".join(text + "\n" for text in lines).encode("ascii"))
    if stdin is not None:
        assert len(stdin) <= INPUT_BYTES, (program, len(stdin))
        (folder / "stdin").write_bytes(stdin)
