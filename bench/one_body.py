#!/usr/bin/env python3
"""Measures how `./wasm1 check3` types one body: one_body.py DIRECTORY [MEGABYTES].

Writes typed modules of WebAssembly 3.0 into the directory, each with one body: ordinary code, and code of one kind each
that is large in one way. Each is written in a size and in four times that size; the larger ordinary body has so many
megabytes (8 where none is said). Each is checked, and checked once more with a float in its types, which is refused
after it was read and walked over once. Prints the CPU time of both in seconds, the ratio of the larger size to the
smaller one, which is about 4 where time is linear, and the most memory of both for a byte of code; what the first has
beside the second was needed to type the body.
"""
import random
import sys

from pathlib import Path

from check1 import END, I32, module, piece
from check3 import with_a_float
from spelling import number, vector
from timing import PROGRAM, timed


def ordinary(size):
    """About so many bytes of ordinary code, over a parameter and seven locals, which calls the first 100 functions."""
    seeded = random.Random(1)
    pieces, length = [], 0
    while length < size:
        pieces.append(piece(seeded))
        length += len(pieces[-1])
    return b"\x01\x07\x7f" + b"".join(pieces) + b"\x20\0" + END


def nesting(count):
    """So many blocks, 799 in one another at a time."""
    nest = b"\x02\x40" * 799 + END * 799
    return b"\0" + nest * (count // 799) + END


def labels(count):
    """A br_table of so many labels, which take an i32, in 100 blocks."""
    table = b"\x41\0\x41\0\x0e" + vector([number(k % 100) for k in range(count)]) + b"\0"
    return b"\0" + b"\x02\x7f" * 100 + table + END * 100 + b"\x1a" + END


def locals_used(count):
    """So many uses of 50,000 locals."""
    uses = b"".join(b"\x20" + number(k % 50_000) + b"\x21" + number((k * 7) % 50_000) for k in range(count))
    return b"\x01" + number(50_000) + I32 + uses + END


def height(count):
    """So many operands, one above the other, around a block at each hundredth."""
    pushes = b"".join(b"\x41\0\x02\x40" + END if k % 100 == 0 else b"\x41\0" for k in range(count))
    return b"\0" + pushes + b"\x1a" * count + END


def dead(count):
    """So many instructions that cannot be reached."""
    return b"\0" + b"\x00" + b"\x41\0\x1a" * (count // 2) + END


def dead_in_blocks(count):
    """So many blocks, each with code that cannot be reached behind a branch."""
    return b"\0" + (b"\x02\x40\x0c\0\x6a\x1a" + END) * count + END


KINDS = {
    "nesting": (nesting, 100_000),
    "labels": (labels, 250_000),
    "locals": (locals_used, 250_000),
    "height": (height, 250_000),
    "dead": (dead, 1_000_000),
    "dead in blocks": (dead_in_blocks, 250_000),
}


def checked(path, content, length):
    """Checks the content, with a float and without: the time and the memory for a byte of code of each."""
    path.write_bytes(content)
    status, typing, memory = timed([PROGRAM, "check3", str(path)])
    path.write_bytes(with_a_float(content))
    _, reading, read = timed([PROGRAM, "check3", str(path)])
    print(
        f"  {len(content)} bytes, status {status}, {typing:.3f} s, read alone {reading:.3f} s;"
        f" {memory / length:.1f} bytes a byte, read alone {read / length:.1f}"
    )
    return typing


def compared(path, name, small, large, others):
    """Checks modules with the bodies, and with so many other functions of type 1."""
    print(name)
    empty = [b"\0\x41\0" + END] * others
    first, second = (
        checked(path, module([1 if others else 0] + [1] * others, [body, *empty]), len(body)) for body in (small, large)
    )
    print(f"  ratio of times {second / max(first, 0.001):.2f}")


def main():
    directory = Path(sys.argv[1])
    directory.mkdir(parents=True, exist_ok=True)
    path = directory / "one_body.wasm"
    size = int(sys.argv[2] if len(sys.argv) > 2 else 8) * 1_000_000
    compared(path, "ordinary", ordinary(size // 4), ordinary(size), 99)
    for name, (body, count) in KINDS.items():
        compared(path, name, body(count), body(4 * count), 0)


if __name__ == "__main__":
    main()
