#!/usr/bin/env python3
"""Times `./wasm1 lower` against wasm-opt of binaryen, which reads and writes the same file: lower.py DIRECTORY [MEGABYTES].

Writes modules into the directory: one of so many megabytes (8 where none is said) with many functions of ordinary code
and sign extension, and ones with many parts of one kind each. Runs both programs on each, without any optimisation by
wasm-opt, and prints their CPU time in seconds, its ratio, and the most memory of `lower` for a byte of its input. Where
wasm-opt is not on the path, only the first is timed.
"""
import random
import shutil
import sys

from pathlib import Path

from check1 import END, module, piece, plain, sized
from spelling import number, section, vector
from timing import PROGRAM, timed

HEAD = b"\0asm\x01\0\0\0"


def ordinary(megabytes):
    """Functions of ordinary code, of which one instruction in some extends a sign."""
    seeded = random.Random(1)
    bodies, size = [], 0
    while size < megabytes * 1_000_000 or len(bodies) < 100:
        pieces = b"".join(piece(seeded) + b"\x20\0\xc0\x21\0" * (k % 16 == 0) for k in range(120))
        bodies.append(b"\x01\x07\x7f" + pieces + b"\x20\0" + END)
        size += len(bodies[-1])
    return module([1] * len(bodies), bodies)


def computed_globals(count):
    """Globals, each one more than the first, which is imported."""
    parts = HEAD + section(2, vector([sized(b"e") + sized(b"b") + b"\x03\x7f\0"]))
    return parts + section(6, vector([b"\x7f\x01\x23\0\x41\x01\x6a" + END] * count))


def data_segments(count):
    """Data segments of a byte, at sums of constants."""
    segments = [b"\0\x41" + number(k % 64) + b"\x41\x01\x6a" + END + b"\x01x" for k in range(count)]
    return HEAD + section(5, vector([b"\0\x01"])) + section(11, vector(segments))


def function_types(count):
    """Types of functions, all of them alike."""
    return HEAD + section(1, vector([b"\x60\x02\x7f\x7e\x01\x7f"] * count))


def files(megabytes):
    return {
        "ordinary": ordinary(megabytes),
        "half": ordinary(megabytes / 2),
        "functions": plain(99_000),
        "exports": plain(1, [sized(b"n%d" % k) + b"\0\0" for k in range(99_000)]),
        "types": function_types(99_000),
        "globals": computed_globals(99_000),
        "segments": data_segments(99_000),
        "nesting": module([0], [b"\0" + (b"\x02\x40" * 799 + END * 799) * 1_000 + END]),
    }


def main():
    directory = Path(sys.argv[1])
    directory.mkdir(parents=True, exist_ok=True)
    megabytes = int(sys.argv[2]) if len(sys.argv) > 2 else 8
    other = shutil.which("wasm-opt")
    for name, content in files(megabytes).items():
        path = directory / (name + ".wasm")
        path.write_bytes(content)
        status, ours, memory = timed([PROGRAM, "lower", str(path), str(directory / "out.wasm")])
        line = f"{name}: {len(content)} bytes, status {status}, {ours:.3f} s, {memory / len(content):.1f} bytes a byte"
        if other:
            words = [other, "--all-features", str(path), "-o", str(directory / "other.wasm")]
            status, theirs, _ = timed(words)
            line += f"; wasm-opt status {status}, {theirs:.3f} s, ratio {ours / max(theirs, 0.001):.2f}"
        print(line)


if __name__ == "__main__":
    main()
