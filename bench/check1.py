#!/usr/bin/env python3
"""Times `./wasm1 check1` against wasm-validate of wabt: check1.py DIRECTORY [MEGABYTES].

Writes typed modules of WebAssembly 1.0 into the directory: one of so many megabytes (8 where none is said) with many
functions of ordinary code, and hostile ones of one kind each. Then runs both programs on each and prints their CPU time
in seconds and its ratio. Where wasm-validate is not on the path, only the first is timed.
"""
import random

from spelling import number, section, vector
from timing import compared

I32 = b"\x7f"
END = b"\x0b"


def sized(code):
    return number(len(code)) + code


# Type 0 takes and gives nothing, type 1 takes an i32 and gives one.
TYPES = section(1, vector([b"\x60\0\0", b"\x60\x01\x7f\x01\x7f"]))


def module(funcs, bodies, exports=()):
    out = b"\0asm\x01\0\0\0" + TYPES + section(3, vector([number(ty) for ty in funcs]))
    out += section(5, vector([b"\0\x01"]))
    if exports:
        out += section(7, vector(list(exports)))
    return out + section(10, vector([sized(body) for body in bodies]))


# Each piece takes nothing and leaves nothing, over a parameter and seven locals of type i32.
def piece(random):
    a, b = number(random.randrange(8)), number(random.randrange(8))
    at = number(random.randrange(4096))
    small = number(random.randrange(64))
    return [
        b"\x20" + a + b"\x41" + small + b"\x6a\x21" + b,
        b"\x20" + a + b"\x28\x02" + at + b"\x21" + b,
        b"\x20" + a + b"\x20" + b + b"\x36\x02" + at,
        b"\x02\x40\x20" + a + b"\x0d\x00\x20" + b + b"\x10" + number(random.randrange(100)) + b"\x1a\x0b",
        b"\x03\x40\x20" + a + b"\x45\x0d\x00\x0b",
        b"\x20" + a + b"\x04\x7f\x20" + b + b"\x05\x41" + small + b"\x0b\x21" + a,
        b"\x20" + a + b"\x20" + b + b"\x20" + a + b"\x1b\x1a",
        b"\x20" + a + b"\xac\x42" + small + b"\x7e\xa7\x21" + b,
        b"\x02\x40\x02\x40\x20" + a + b"\x0e\x02\x00\x01\x00\x0b\x0b",
        b"\x20" + a + b"\x20" + b + b"\x48\x22" + a + b"\x1a",
    ][random.randrange(10)]


def ordinary(megabytes):
    seeded = random.Random(1)
    bodies, size = [], 0
    while size < megabytes * 1_000_000 or len(bodies) < 100:
        code = b"\x01\x07\x7f" + b"".join(piece(seeded) for _ in range(120)) + b"\x20\0" + END
        bodies.append(code)
        size += len(code)
    return module([1] * len(bodies), bodies)


def plain(count, exports=()):
    return module([0] * count, [b"\0" + END] * count, exports)


def files(megabytes):
    names = [sized(b"n%d" % k) + b"\0\0" for k in range(300_000)]
    deep = b"\0" + b"\x02\x40" * 2_499 + END * 2_500
    table = b"\0" + b"\x41\0\x0e" + vector([b"\0"] * 100_000) + b"\0" + END
    dead = b"\0" + b"\x00" + b"\x6a" * 1_000_000 + b"\x1a" + END
    pushes = b"\0" + b"\x41\0" * 500_000 + b"\x1a" * 500_000 + END
    return {
        "ordinary": ordinary(megabytes),
        "exports": plain(1, names),
        "functions": plain(300_000),
        "labels": module([0], [table]),
        "locals": module([0], [b"\x01" + number(1_000_000) + I32 + END]),
        "nesting": module([0], [deep]),
        "dead": module([0], [dead]),
        "pushes": module([0], [pushes]),
    }


def main():
    for _ in compared("check1", files):
        pass


if __name__ == "__main__":
    main()
