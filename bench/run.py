#!/usr/bin/env python3
"""Times `./wasm1 run1` or `./wasm1 run3` against wasm-interp of wabt: run.py DIRECTORY [MILLIONS [run1|run3]].

Writes modules of WebAssembly 1.0 into the directory, which are modules of 3.0 too, each with one function `f` that runs so
many million instructions (100 where none is said): plain instructions in a loop, loads and stores, blocks and choices in
a loop, and calls. Then runs both programs on each and prints their CPU time in seconds and its ratio. Last it runs a
million calls in one another, growths of a memory by a page at a time, and under run3 ten million tail calls, by
`./wasm1` alone, and prints the time and the most memory of a small number of each and of the whole. Where wasm-interp is
not on the path, only the first is timed.
"""
import json
import shutil
import sys

from pathlib import Path

from spelling import number, section, vector
from timing import PROGRAM, timed

TURNS = str(2**62)
SCRIPT = {"version": 1, "globals": [], "replies": [], "grows": [], "items": [{"call": ["f", []]}]}

# Type 0 takes nothing and gives an i32, type 1 takes an i32 and gives one.
TYPES = section(1, vector([b"\x60\0\x01\x7f", b"\x60\x01\x7f\x01\x7f"]))
EXPORTS = section(7, vector([b"\x01f\0\0"]))

ADD, SUB, NE, EQZ, LT = b"\x6a", b"\x6b", b"\x47", b"\x45", b"\x49"
LOOP, BLOCK, IF, ELSE, END = b"\x03\x40", b"\x02\x40", b"\x04\x40", b"\x05", b"\x0b"
LOAD, STORE = b"\x28\x02\0", b"\x36\x02\0"


def signed(value):
    """A signed LEB128."""
    out = b""
    while not -64 <= value < 64:
        out += bytes([value & 127 | 128])
        value >>= 7
    return out + bytes([value & 127])


def const(value):
    return b"\x41" + signed(value)


def get(local):
    return b"\x20" + number(local)


def put(local):
    return b"\x21" + number(local)


def tee(local):
    return b"\x22" + number(local)


def br_if(label):
    return b"\x0d" + number(label)


def call(func):
    return b"\x10" + number(func)


def tail_call(func):
    return b"\x12" + number(func)


def function(locals_, code):
    body = vector([number(locals_) + b"\x7f"] if locals_ else []) + code + END
    return number(len(body)) + body


def module(types, bodies, memory=None):
    out = b"\0asm\x01\0\0\0" + TYPES + section(3, vector([number(ty) for ty in types]))
    if memory is not None:
        out += section(5, vector([memory]))
    return out + EXPORTS + section(10, vector(bodies))


# Runs the code as often as is said, by local 0, which it counts down.
def repeated(times, code):
    return const(times) + put(0) + LOOP + code + get(0) + const(1) + SUB + tee(0) + const(0) + NE + br_if(0) + END


def plain(millions):
    code = get(1) + get(0) + ADD + put(1)
    return module([0], [function(2, repeated(millions * 1_000_000 // 11, code) + get(1))])


def accesses(millions):
    code = const(8) + const(8) + LOAD + get(0) + ADD + STORE + const(16) + const(8) + LOAD + STORE
    return module([0], [function(2, repeated(millions * 1_000_000 // 17, code) + const(16) + LOAD)], b"\0\x01")


def choices(millions):
    odd = get(0) + const(1) + b"\x71"
    code = odd + IF + get(1) + const(3) + ADD + put(1) + ELSE + BLOCK + get(0) + EQZ + br_if(0) + get(1) + const(1) + ADD + put(1) + END + END
    return module([0], [function(2, repeated(millions * 1_000_000 // 16, code) + get(1))])


# Numbers of Fibonacci, by about three calls for each two numbers below.
def calls(millions):
    fib = get(0) + const(2) + LT + b"\x04\x7f" + get(0) + ELSE
    fib += get(0) + const(1) + SUB + call(1) + get(0) + const(2) + SUB + call(1) + ADD + END
    depth, before, last = 1, 1, 1
    while last < millions * 1_000_000 // 17:
        depth, before, last = depth + 1, last, before + last
    return module([0, 1], [function(0, const(depth) + call(1)), function(0, fib)])


# A function that calls itself so many times, in the way that is said.
def countdown(count, again):
    down = get(0) + EQZ + b"\x04\x7f" + const(7) + ELSE + get(0) + const(1) + SUB + again(1) + END
    return module([0, 1], [function(0, const(count) + call(1)), function(0, down)])


def nested(count):
    return countdown(count, call)


def tails(count):
    return countdown(count, tail_call)


def growths(count):
    return module([0], [function(2, repeated(count, const(1) + b"\x40\0" + put(1)) + get(1))], b"\0\x01")


def main():
    directory = Path(sys.argv[1])
    directory.mkdir(parents=True, exist_ok=True)
    millions = int(sys.argv[2]) if len(sys.argv) > 2 else 100
    command = sys.argv[3] if len(sys.argv) > 3 else "run1"
    script = directory / "script.json"
    script.write_text(json.dumps(SCRIPT))
    other = shutil.which("wasm-interp")
    for kind in (plain, accesses, choices, calls):
        path = directory / (kind.__name__ + ".wasm")
        path.write_bytes(kind(millions))
        status, ours, _ = timed([PROGRAM, command, str(path), str(script), TURNS])
        line = f"{kind.__name__}: status {status}, {ours:.3f} s"
        if other:
            status, theirs, _ = timed([other, str(path), "--run-all-exports"])
            line += f"; wasm-interp status {status}, {theirs:.3f} s, ratio {ours / max(theirs, 0.001):.2f}"
        print(line)
    large = [(nested, 1_000), (nested, 1_000_000), (growths, 100), (growths, 10_000)]
    if command == "run3":
        large += [(tails, 1_000), (tails, 10_000_000)]
    for kind, count in large:
        path = directory / (kind.__name__ + ".wasm")
        path.write_bytes(kind(count))
        status, ours, memory = timed([PROGRAM, command, str(path), str(script), TURNS])
        print(f"{kind.__name__} {count}: status {status}, {ours:.3f} s, {memory / 1_000_000:.1f} MB")


main()
