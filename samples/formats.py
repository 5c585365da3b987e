#!/usr/bin/env python3
"""Makes the sample formats and what must be printed for them, of the program format_samples.

    python3 samples/formats.py [FOLDER]

Each sample states its refusal number by hand, and `refusal` below works it out a second time by the format's rules: where the
two differ the script stops.

A sample, every number little-endian: the sizes of the two copies that are lent, 2 bytes each; S in 8, L in 4, R in 4; seconds
in 8, nanoseconds in 4; the lengths of the pool UUID, the block device UUID and the record, 2 bytes each; then these three.
Before each sample the front copy holds the first bytes of the whole input, and the back copy those from byte 7 on.
"""
from layout import (COPY, LEAST_SIZE, MOST_NANOSECONDS, MOST_RESERVED, POOL, RECORD, SMALL, UUID, beside, copy, crc32,
                    data_range, discover, held, line, metadata_allowed, number, record, record_refusal, uuid_allowed, write)

LARGE = (2 ** 40 + 3, 16384, 65536)
BACK_FROM = 7


def many(n, device):
    """A record of n segments with gaps, the last one at the end of the data range."""
    first, end = data_range(device)
    return record(*((1 + i % 4, first + 4 * i, 1 + i % 3) for i in range(n - 1)), (2, end - 9, 9))


def refusal(front, back, device, pool, uuid, time, data):
    """The lowest number that applies; 0 for none."""
    size, metadata, reserved = device
    if (front, back, len(pool), len(uuid)) != (COPY, COPY, 32, 32):
        return 1
    if size < LEAST_SIZE:
        return 4
    if not uuid_allowed(pool + uuid):
        return 6
    if not metadata_allowed(metadata):
        return 7
    if reserved > MOST_RESERVED:
        return 8
    if time[1] > MOST_NANOSECONDS:
        return 9
    return record_refusal(device, data)


def samples():
    """Number, then what differs from a format that is not refused."""
    first, end = data_range(SMALL)
    yield 0, {"data": record(), "time": (0, 0)}
    yield 0, {"data": RECORD}
    yield 0, {"data": many(25, LARGE), "device": LARGE, "time": (2 ** 64 - 1, 999999999)}
    yield 0, {"data": many(26, LARGE), "device": LARGE, "pool": UUID, "uuid": POOL}
    yield 0, {"data": many(409, SMALL), "time": (1, 2)}
    yield 0, {"data": record((2, first, 1), mark=1000)}
    yield 0, {"data": record(mark=0)}
    yield 0, {"data": record((3, first, end - first), block_size=2097152), "pool": b"0" * 32, "uuid": b"f" * 32}
    yield 0, {"device": (2 ** 64 - 1, 2040, 1), "data": record((1, 2049, 1), (4, 2 ** 64 - 2050 - 8, 1))}
    for size in (0, COPY - 1, COPY + 1, 2 * COPY):
        yield 1, {"front": size}
        yield 1, {"back": size}
    yield 1, {"front": COPY - 1, "back": COPY + 1}
    for short in (b"", POOL[:31], POOL + b"0"):
        yield 1, {"pool": short}
        yield 1, {"uuid": short}
    yield 1, {"pool": POOL[:31], "uuid": UUID + b"0"}
    yield 1, {"front": COPY - 1, "device": (0, 0, 65537), "pool": b"x" * 32, "time": (0, 10 ** 9), "data": b""}
    yield 4, {"device": (2097151, 2040, 0)}
    yield 4, {"device": (0, 2040, 0)}
    yield 4, {"device": (0, 0, 65537), "pool": b"x" * 32, "time": (0, 10 ** 9), "data": b""}
    for byte in b"/:`gA":
        yield 6, {"pool": bytes([byte]) + POOL[1:]}
        yield 6, {"uuid": UUID[:31] + bytes([byte])}
    yield 6, {"device": (2097152, 0, 65537), "pool": b"x" * 32, "time": (0, 10 ** 9), "data": b""}
    for metadata in (0, 2038, 2041, 16383, 16386):
        yield 7, {"device": (2097152, metadata, 0)}
    yield 7, {"device": (2097152, 0, 65537), "time": (0, 10 ** 9), "data": b""}
    yield 8, {"device": (2097152, 2040, 65537)}
    yield 8, {"device": (2097152, 2040, 2 ** 32 - 1), "time": (0, 10 ** 9), "data": b""}
    yield 9, {"time": (10, 10 ** 9)}
    yield 9, {"time": (0, 2 ** 32 - 1), "data": b""}
    yield 15, {"data": b""}
    yield 15, {"data": bytes(8193)}
    yield 17, {"data": RECORD[:-1]}
    yield 17, {"data": RECORD + b"\x00"}
    yield 17, {"data": record()[:7]}
    yield 17, {"data": record((2, first, 1), kind=17)}
    yield 17, {"data": record((2, first, 1), mark=0, kind=18)}
    yield 17, {"data": record((5, first - 1, 1))}
    yield 17, {"data": record((2, first, 1), block_size=129)}
    yield 18, {"data": record((2, first - 1, 1))}
    yield 18, {"data": record((2, end, 1))}
    yield 18, {"data": record((2, first, 0))}
    yield 18, {"data": record((2, 2 ** 64 - 1, 2 ** 64 - 1))}
    yield 18, {"data": record((2, first, 2), (2, first, 2), (2, end - 1, 2))}
    yield 18, {"device": (2097152, 2040, 1), "data": RECORD}
    yield 19, {"data": record((2, 2048, 100), (2, 2147, 1))}
    yield 19, {"data": record((1, first + 9, 1), (4, first, 3), (3, first, 10))}
    yield 0, {"data": record((2, 2048, 100), (2, 2148, 1))}


def main():
    usual = {"front": COPY, "back": COPY, "device": SMALL, "pool": POOL, "uuid": UUID, "time": (10, 5), "data": RECORD}
    stated = [(n, {**usual, **odd}) for n, odd in samples()]
    stream = b""
    for _, x in stated:
        stream += number(x["front"], 2) + number(x["back"], 2)
        stream += number(x["device"][0], 8) + number(x["device"][1], 4) + number(x["device"][2], 4)
        stream += number(x["time"][0], 8) + number(x["time"][1], 4)
        stream += b"".join(number(len(x[name]), 2) for name in ("pool", "uuid", "data"))
        stream += x["pool"] + x["uuid"] + x["data"]
    assert COPY + BACK_FROM <= len(stream)
    lines, lengths = [], set()
    for n, x in stated:
        assert refusal(**x) == n, (n, refusal(**x), x)
        front = stream[:x["front"]].ljust(x["front"], b"\0")
        back = stream[BACK_FROM:][:x["back"]].ljust(x["back"], b"\0")
        if n == 0:
            size, metadata, reserved = x["device"]
            front = back = copy(held(*x["time"], x["data"]), size=size, metadata=metadata, reserved=reserved, pool=x["pool"],
                                uuid=x["uuid"])
            lengths.add(len(x["data"]))
        named = " ".join(map(str, [n] + beside(n, x["data"])))
        lines.append(f"{named} {crc32(front):08x} {crc32(back):08x} {line(discover(front, back))}")
    assert {8, 28, 508, 528, 8188} <= lengths, lengths
    assert {n for n, _ in stated} == {0, 1, 4, 6, 7, 8, 9, 15, 17, 18, 19}
    write("format_samples", lines, stream)
    print(f"formats: {len(lines)} samples, {len(stream)} bytes")


if __name__ == "__main__":
    main()
