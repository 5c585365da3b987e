#!/usr/bin/env python3
"""Works out what must be printed by the program check_values.

    python3 samples/values.py [FOLDER]

It takes the checksums and the numbers of the same bytes as crates/check_values/src/main.rt. The script stops where a checksum
is not the one that is published for its polynomial.
"""
from layout import OLDER_POLYNOMIAL, POLYNOMIAL, crc32, laid, number, write

FOX = b"The quick brown fox jumps over the lazy dog"
ASCENDING = bytes(range(32))
# The read command of RFC 3720, appendix B.4.
READ = bytes.fromhex("01 c0 00 00 00 00 00 00 00 00 00 00 00 00 00 00 14 00 00 00 00 00 04 00 00 00 00 14 00 00 00 18"
                     "28 00 00 00 00 00 00 00 02 00 00 00 00 00 00 00")
# What the checksum is taken of: the bytes and their name; then, for each polynomial, the check values that others have published.
SUMMED = {
    b"": "the empty string",
    b"a": "a",
    b"abc": "abc",
    b"123456789": "123456789",
    b"message digest": "message digest",
    FOX: FOX.decode("ascii"),
    bytes(32): "32 bytes of 0x00",
    b"\xff" * 32: "32 bytes of 0xff",
    ASCENDING: "32 bytes ascending from 0x00",
    ASCENDING[::-1]: "32 bytes descending to 0x00",
    READ: "a read command of 48 bytes",
}
PUBLISHED = {
    0x82F63B78: {
        b"": 0x00000000,
        b"a": 0xC1D04330,
        b"abc": 0x364B3FB7,
        b"123456789": 0xE3069283,
        b"message digest": 0x02BD79D0,
        FOX: 0x22620404,
        bytes(32): 0x8A9136AA,
        b"\xff" * 32: 0x62A8AB43,
        ASCENDING: 0x46DD794E,
        ASCENDING[::-1]: 0x113FDB5C,
        READ: 0xD9963A56,
    },
    0xEDB88320: {
        b"": 0x00000000,
        b"a": 0xE8B7BE43,
        b"abc": 0x352441C2,
        b"123456789": 0xCBF43926,
        b"message digest": 0x20159D7F,
        FOX: 0x414FA339,
        bytes(32): 0x190A55AD,
        b"\xff" * 32: 0xFF6CAB0B,
        ASCENDING: 0x91267E8A,
        ASCENDING[::-1]: 0x9AB0EF72,
    },
}
TEN = bytes(range(1, 11))
FAR = 2 ** 64 - 1
lines = []


def say(value, name, digits=8):
    lines.append(f"{value:0{digits}x} {name}")


def read(data, at, width):
    """The number of that many bytes at an offset; bytes past the end count as zero."""
    return int.from_bytes(data[at:at + width], "little")


def checksums():
    for data, name in SUMMED.items():
        say(crc32(data), name)
    for _ in range(len(b"123456789") + 1):
        say(crc32(b"123456789"), "123456789 in two pieces")


def numbers():
    for at in (0, 2, 9, 10, FAR):
        for width in (2, 4, 8):
            say(read(TEN, at, width), f"{width} bytes read", max(8, 2 * width))
    for at in (0, 6, 7, FAR):
        fits = at + 4 <= 10
        data = laid(bytes(10), [(at, number(0x04030201, 4))] if fits else [])
        say(0 if fits else 1, "answered")
        say(read(data, 0, 8), "first 8 of 10 bytes after a write of 4", 16)
        say(read(data, 2, 8), "last 8 of 10 bytes after a write of 4", 16)


def main():
    for polynomial in (POLYNOMIAL, OLDER_POLYNOMIAL):
        assert polynomial in PUBLISHED, f"no check values are here for the polynomial {polynomial:#010x}"
        for data, value in PUBLISHED[polynomial].items():
            assert crc32(data, polynomial) == value, (data, f"{crc32(data, polynomial):08x}", f"{value:08x}")
    assert PUBLISHED[POLYNOMIAL].keys() == SUMMED.keys()
    checksums()
    numbers()
    write("check_values", lines)
    print(f"values: {len(lines)} lines")


if __name__ == "__main__":
    main()
