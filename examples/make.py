#!/usr/bin/env python3
"""Makes the example texts, by the rules of docs/FORMAT.md and of the typical values in the gauge maker's manual.

Usage: python3 examples/make.py [DIRECTORY]. The CR LF example is objcopy's (Debian package binutils); it is left out without it.
"""
import pathlib
import shutil
import struct
import subprocess
import sys
import tempfile

# X is 1 at 16,384 Hz from the offset, where the manual's X is 163.84.
ONE_HERTZ = 65536
MULTIPLIER = 2**26
STRETCH = 163.84

# The manual prints the first two coefficients and the last; those between are made up, of like size.
PRESSURE = [
    [1.10390186144e01, -1.28452244351e-01, 1.3e-04, -2.0e-07],
    [9.15e01, 1.9e-02, -1.1e-05, 4.0e-09],
    [-1.55e-02, 3.1e-06, 8.0e-09, -5.0e-12],
    [8.0e-06, 2.0e-09, -3.0e-12, -2.91212554073e-14],
]
TEMPERATURE = [[2.51641904936e01, -7.27120283063e-01, 1.2e-04, -6.78716126821e-07]]


def identity(serial):
    return struct.pack("<IHBBiiii", serial, 2003, 9, 8, 25, 175, 12, 20000)


def coefficient_set(rows):
    pressure_order, temperature_order = len(rows) - 1, len(rows[0]) - 1

    def prescale(order, hertz):
        return struct.pack("<IQ", MULTIPLIER, hertz * ONE_HERTZ) if order else bytes(12)

    head = bytes([1, 1, pressure_order, temperature_order])
    head += prescale(pressure_order, 21982) + prescale(temperature_order, 58020)
    scaled = [
        round(c * STRETCH ** (i + j) * 65536) for i, row in enumerate(rows) for j, c in enumerate(row)
    ]
    return head + b"".join(struct.pack("<q", c) for c in scaled)


def typical_sections(serial):
    return {1: identity(serial), 2: coefficient_set(PRESSURE), 3: coefficient_set(TEMPERATURE)}


def image(sections):
    """The image of sections: a body for each kind."""
    offset = 2 + 8 * len(sections)
    contents, bodies = bytes([0x51, len(sections)]), b""
    for kind in sorted(sections):
        body = sections[kind]
        contents += struct.pack("<BBHHH", kind, 0, offset, len(body), sum(body) % 65536)
        bodies += body
        offset += len(body)
    return contents + bodies


def record(address, record_type, data):
    """The line of a record, with its checksum and its line end."""
    fields = bytes([len(data)]) + struct.pack(">H", address) + bytes([record_type]) + data
    return ":" + (fields + bytes([-sum(fields) % 256])).hex().upper() + "\n"


def text(data):
    """The text of an image: records of 16 bytes, a shorter one for the rest, the end record."""
    starts = range(0, len(data), 16)
    return "".join(record(start, 0, data[start : start + 16]) for start in starts) + record(0, 1, b"")


def main():
    folder = pathlib.Path(sys.argv[1] if len(sys.argv) > 1 else pathlib.Path(__file__).parent)
    typical = typical_sections(157879)
    bar = struct.pack("<BBBBIq", 2, 0, 0, 0, 18507980, 0)
    texts = {
        "typical": text(image(typical)),
        "trimmed": text(image({**typical, 4: bar})),
        "noted": text(image({**typical, 129: b"SPB002-20-177"})),
        "kind200": text(image({**typical, 200: b"\x01\x02\x03"})),
        "kind100": text(image({**typical, 100: b"\x01\x02\x03"})),
    }
    # one digit of the third record has another value
    lines = texts["typical"].split("\n")
    lines[2] = lines[2][:9] + ("8" if lines[2][9] != "8" else "9") + lines[2][10:]
    texts["damaged"] = "\n".join(lines)
    for name, content in texts.items():
        (folder / (name + ".hex")).write_bytes(content.encode("ascii"))
    if shutil.which("objcopy"):
        with tempfile.TemporaryDirectory() as scratch:
            binary = pathlib.Path(scratch) / "image.bin"
            binary.write_bytes(image(typical))
            out = folder / "objcopy.hex"
            subprocess.run(["objcopy", "-I", "binary", "-O", "ihex", binary, out], check=True)


if __name__ == "__main__":
    main()
