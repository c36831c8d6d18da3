"""Spells numbers, vectors and sections of WebAssembly modules."""


def number(n):
    out = bytearray()
    while True:
        low = n & 127
        n >>= 7
        if n:
            out.append(low | 128)
        else:
            out.append(low)
            return bytes(out)


def vector(items):
    return number(len(items)) + b"".join(items)


def section(id, payload):
    return bytes([id]) + number(len(payload)) + payload
