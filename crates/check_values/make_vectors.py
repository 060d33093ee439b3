#!/usr/bin/env python3
"""Writes this crate's stdin, the messages, and its stdout, the length and the checksum of each.

The checksum is worked out from its definition, with no table: the message, taken as one binary number with the first byte highest, times
2^16, is divided by 0x18005 over the field of two elements, one bit after the other. The remainder is the checksum.
"""
import pathlib

DIVISOR = 0x18005


def checksum(message):
    left = int.from_bytes(message, "big") << 16
    for bit in reversed(range(8 * len(message))):
        if left >> (bit + 16) & 1:
            left ^= DIVISOR << bit
    return left


def pattern(length):
    """Bytes with no short period, the same on every run."""
    state, out = 1, bytearray()
    for _ in range(length):
        state = (state * 1103515245 + 12345) % 2**31
        out.append(state >> 16 & 0xFF)
    return bytes(out)


def messages():
    yield b"123456789"
    yield b""
    for byte in range(256):
        yield bytes([byte])
    yield bytes(range(256))
    block = pattern(700)
    # from 40 bytes on eight at a time: each number of bytes may be left over
    for length in [*range(1, 65), *range(120, 700, 60), 699, 700]:
        yield block[:length]


def main():
    assert checksum(b"123456789") == 0xFEE8
    folder = pathlib.Path(__file__).resolve().parent
    with open(folder / "stdin", "wb") as read, open(folder / "stdout", "w") as written:
        for message in messages():
            read.write(len(message).to_bytes(2, "big") + message)
            written.write(f"{len(message)} {checksum(message):04x}\n")


if __name__ == "__main__":
    main()
