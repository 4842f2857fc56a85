#!/usr/bin/env python3
"""Makes the dump of the program `memories` and works out what the program must print, from the dump alone.

It shares nothing with the program: sizes are divided by hand, the checksum is Python's own zlib.adler32, and the
refusals are those of docs/refusals.md. Run it from the repository's root; it rewrites both files, and `git diff`
then shows whether anything differs from what is stored.
"""
import struct
import zlib

SIZE = 4 * 4096 + 3


def dump():
    words = [0x0800_0000 + 4 * i + 1 for i in range(256)]           # a table of vectors
    words += [0] * 512                                              # memory that was never written
    text = b"the quick brown fox jumps over the lazy dog. " * 64
    words += [struct.unpack_from("<I", text, 4 * i)[0] for i in range(len(text) // 4)]
    state = 0x2545F491
    while len(words) < SIZE // 4:                                   # and noise (xorshift32)
        state ^= state << 13 & 0xFFFFFFFF
        state ^= state >> 17
        state ^= state << 5 & 0xFFFFFFFF
        words.append(state)
    return b"".join(struct.pack("<I", w) for w in words) + b"\x5a\x9c\xe1"


def report(data):
    n = len(data) // 4
    whole, rest = data[:4 * n], data[4 * n:]
    check = "%08x" % zlib.adler32(whole)
    spell = lambda bs: " ".join("%02x" % b for b in bs)
    lines = [
        f"dump: {len(data)} bytes, {n} words, left over: {spell(rest)}",
        f"moved into word memory through one cache: {n} words",
        f"moved into byte memory through two caches: {n} words",
        "differences between dump and word memory: 0",
        "differences between dump and byte memory: 0",
        f"checksum of the dump: {check}",
        f"checksum of word memory: {check}",
        f"checksum of byte memory: {check}",
        f"left over in byte memory: {spell(b'%c' % 0xEE * len(rest))}",
    ]
    for kind in ("word memory", "byte memory", "second-level cache"):
        for a in (n, 2 ** 32 - 1):
            lines.append(f"{kind}: read of {a}: no 4, write of {a}: no 4")
    lines += [
        "opening 0 bytes: no 17",
        "opening 3 bytes: no 17",
        "opening 16388 bytes: no 17",
        "opening 0 words: no 17",
        "opening 4097 words: no 17",
    ]
    return "".join(line + "\n" for line in lines)


data = dump()
assert len(data) == SIZE
open("crates/memories/data/dump.bin", "wb").write(data)
open("crates/memories/stdout", "w").write(report(data))
