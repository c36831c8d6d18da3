#!/usr/bin/env python3
"""Writes a module of WebAssembly 3.0 with about so many megabytes of code: module.py MEGABYTES FILE.

Functions of a few hundred instructions each, with blocks, branches, memory, vectors, calls and constants, of the kinds
that compilers write. It is for timing the reader; the types of its code do not have to fit.
"""
import random
import sys

from spelling import number, section, vector


def instruction(random):
    choice = random.randrange(10)
    local = number(random.randrange(8))
    return [
        b"\x20" + local,
        b"\x21" + local,
        b"\x41" + number(random.randrange(64)),
        b"\x6a",
        b"\x28\x02" + number(random.randrange(4096)),
        b"\x36\x02" + number(random.randrange(4096)),
        b"\x02\x40\x20\x00\x0d\x00\x0b",
        b"\x10" + number(random.randrange(100)),
        b"\xfd\x0c" + bytes(16),
        b"\x0e\x02\x00\x00\x00",
    ][choice]


def body(random):
    code = b"\x01\x08\x7f" + b"".join(instruction(random) for _ in range(400)) + b"\x0b"
    return number(len(code)) + code


def main():
    wanted = int(sys.argv[1]) * 1_000_000
    bodies = []
    size = 0
    seeded = random.Random(1)
    while size < wanted:
        bodies.append(body(seeded))
        size += len(bodies[-1])
    module = b"\0asm\x01\0\0\0"
    module += section(1, vector([b"\x60\x01\x7f\x01\x7f"]))
    module += section(3, vector([b"\x00"] * len(bodies)))
    module += section(5, vector([b"\x00\x01"]))
    module += section(10, vector(bodies))
    with open(sys.argv[2], "wb") as file:
        file.write(module)


main()
