#!/usr/bin/env python3
"""What crc_bench must write, by zlib's CRC-32: python3 expected.py > stdout"""
import zlib

PATTERNS = {
    "zeros": lambda i: 0,
    "ones": lambda i: 255,
    "count": lambda i: i % 256,
    "mixed": lambda i: (i % 256 * 167 + i // 256 * 59 + 13) % 256,
}


def line(name, n, data):
    print(name, n, "%08x" % zlib.crc32(data))


def pattern(name, n):
    return bytes(PATTERNS[name](i) for i in range(n))


line("digits", 9, b"123456789")
for name in PATTERNS:
    for n in range(601):
        line(name, n, pattern(name, n))
for n in range(601):
    line("block", n, pattern("mixed", n)[:508])
for n in range(601):
    data = pattern("mixed", n)
    print("cut", n, "%08x" % zlib.crc32(data[n % 7:], zlib.crc32(data[:n % 7])))
