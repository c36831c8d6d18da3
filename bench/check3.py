#!/usr/bin/env python3
"""Times `./wasm1 check3` against wasm-validate of wabt: check3.py DIRECTORY [MEGABYTES].

Writes typed modules of WebAssembly 3.0 into the directory: one of so many megabytes (8 where none is said) with many
functions of ordinary code, and large ones of one kind each. Then runs both programs on each and prints their CPU time
in seconds and its ratio, and how many bytes of memory check3 had at most for each byte of the file. Where wasm-validate
is not on the path, only the first is timed. The ordinary module is timed once more with a float in its types, which is
refused after it was read and walked over once: the ratio to that is what checking costs beside reading.
"""
from check1 import END, I32, module, ordinary, plain, sized
from spelling import number, section, vector
from timing import PROGRAM, compared, timed

HEAD = b"\0asm\x01\0\0\0"


def names(count):
    """Names that differ in their last bytes alone."""
    return [sized(b"a name of some length" + b"%06d" % k) + b"\0\0" for k in range(count)]


def types(count):
    return HEAD + section(1, vector([b"\x60" + number(k % 9) + I32 * (k % 9) + b"\x01" + I32 for k in range(count)]))


def globals_in_a_row(count):
    first = I32 + b"\0\x41\x01" + END
    rest = [I32 + b"\0\x23" + number(k) + b"\x41\x01\x6a" + END for k in range(count - 1)]
    return HEAD + section(6, vector([first, *rest]))


def elements(count):
    head = HEAD + section(1, vector([b"\x60\0\0"])) + section(3, vector([b"\0"])) + section(4, vector([b"\x70\0\x0a"]))
    segments = section(9, vector([b"\0\x41" + number(k % 10) + END + vector([b"\0"]) for k in range(count)]))
    return head + segments + section(10, vector([sized(b"\0" + END)]))


def files(megabytes):
    deep = b"\0" + b"\x02\x40" * 799 + END * 800
    return {
        "ordinary": ordinary(megabytes),
        "exports": plain(1, names(100_000)),
        "types": types(100_000),
        "globals": globals_in_a_row(100_000),
        "elements": elements(100_000),
        "functions": plain(100_000),
        "nesting": module([0], [deep]),
        "locals": module([0], [b"\x01" + number(50_000) + I32 + END]),
    }


def with_a_float(content):
    """The same with a type more, [f32] -> [], in front of all else."""
    old = section(1, vector([b"\x60\0\0", b"\x60\x01\x7f\x01\x7f"]))
    new = section(1, vector([b"\x60\0\0", b"\x60\x01\x7f\x01\x7f", b"\x60\x01\x7d\0"]))
    return content.replace(old, new, 1)


def main():
    for name, path, content, ours in compared("check3", files):
        if name == "ordinary":
            path.write_bytes(with_a_float(content))
            status, reading, _ = timed([PROGRAM, "check3", str(path)])
            print(f"  read alone: status {status}, {reading:.3f} s, ratio {ours / max(reading, 0.001):.2f}")


if __name__ == "__main__":
    main()
