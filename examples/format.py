#!/usr/bin/env python3
"""The example of docs/FORMAT.md: a small image with a section of each kind, its text, and a reading worked out in whole numbers.

Usage: python3 examples/format.py WORD, which prints
    text       the HEX text, as in examples/format.hex
    said       what examples/panel.c says of it, as in examples/panel.said
or a part of docs/FORMAT.md:
    stored     the fit, and the numbers that are stored for it
    dump       the bytes of the image, each field with its place and what it says
    reading    a reading, step by step
    builder    the functions of examples/make.py that make an image and its text
"""
import inspect
import struct
import sys
from fractions import Fraction

import make
import worked

# ---- the gauge: a fit in decimal numbers, and what is stored for it

# Hz: the offset, and how far from it X is 1
PRESSURE_SCALE = (22000, 20000)
TEMPERATURE_SCALE = (58000, 17500)

# row i and column j: the coefficient of (FP - 22,000 Hz)^i (FT - 58,000 Hz)^j, in psi for the first set and in °C for the second
FITS = {
    "pressure": [["11.25", "-0.00125"], ["0.9125", "0.000002"], ["-0.000001", "0.00000000001"]],
    "temperature": [["25.5", "-0.0073", "0.00000001"]],
}
MEASURED_IN = {"pressure": "psi", "temperature": "°C"}
UNITS = {1: "psi", 2: "bar", 3: "kPa"}


def whole(fraction):
    return worked.rounded(fraction.numerator, fraction.denominator)


def prescale(order, scale):
    """Multiplier, offset, and the Hz for which X grows by 1."""
    if order == 0:
        return 0, 0, Fraction(1)
    offset, reach = scale
    multiplier = whole(Fraction(2**40, reach))
    return multiplier, offset * 65536, Fraction(2**40, multiplier)


def stored_set(fit):
    np, nt = len(fit) - 1, len(fit[0]) - 1
    mp, fp0, pressure_reach = prescale(np, PRESSURE_SCALE)
    mt, ft0, temperature_reach = prescale(nt, TEMPERATURE_SCALE)
    numbers = {"pressure prescale algorithm": 1, "temperature prescale algorithm": 1, "NP": np, "NT": nt}
    numbers.update({"MP": mp, "FP0": fp0, "MT": mt, "FT0": ft0})
    for i, row in enumerate(fit):
        for j, coefficient in enumerate(row):
            numbers["ABCDE"[i] + str(j)] = whole(Fraction(coefficient) * pressure_reach**i * temperature_reach**j * 65536)
    return numbers


GAUGE = {
    "identity": {"serial": 260117, "year": 2026, "month": 2, "day": 17, "TMIN": -10, "TMAX": 150, "PMIN": 0, "PMAX": 16000},
    "pressure": stored_set(FITS["pressure"]),
    "temperature": stored_set(FITS["temperature"]),
    # psi to bar, and an atmosphere taken off
    "trim": {"unit": 2, "span": whole(Fraction("0.06894757293168") * 2**28), "zero": whole(Fraction("-1.01325") * 65536)},
}
UNIT = UNITS[GAUGE["trim"]["unit"]]
NOTE = "example of FORMAT.md"

# as in examples/panel.c: pressure NS, NR, temperature NS, NR
COUNTS = (10000, 2847876, 10000, 1352875)

# ---- the bytes: each field with its letter in Python's struct, which says size and sign

IDENTITY_FIELDS = [("serial", "I"), ("year", "H"), ("month", "B"), ("day", "B"), ("TMIN", "i"), ("TMAX", "i"), ("PMIN", "i"), ("PMAX", "i")]
SET_HEAD_FIELDS = [("pressure prescale algorithm", "B"), ("temperature prescale algorithm", "B"), ("NP", "B"), ("NT", "B")]
SET_HEAD_FIELDS += [("MP", "I"), ("FP0", "Q"), ("MT", "I"), ("FT0", "Q")]
TRIM_FIELDS = [("unit", "B"), ("reserved", "B"), ("reserved", "B"), ("reserved", "B"), ("span", "I"), ("zero", "q")]


def set_fields(numbers):
    return SET_HEAD_FIELDS + [(name, "q") for name in numbers if name[0] in "ABCDE"]


FIELDS = {
    1: ("identity", IDENTITY_FIELDS),
    2: ("pressure", set_fields(GAUGE["pressure"])),
    3: ("temperature", set_fields(GAUGE["temperature"])),
    4: ("trim", TRIM_FIELDS),
}
TITLES = {1: "identity", 2: "pressure set", 3: "temperature set", 4: "trim", 129: "note"}


def body(kind):
    part, fields = FIELDS[kind]
    return b"".join(struct.pack("<" + letter, GAUGE[part].get(name, 0)) for name, letter in fields)


IMAGE = make.image({**{kind: body(kind) for kind in FIELDS}, 129: NOTE.encode("ascii")})

# ---- what is printed


def meaning(part, name, value):
    """What a number says in the units of its trade; nothing where it says that itself."""
    if name in ("FP0", "FT0"):
        return f"{value / 65536:,.3f} Hz" if value else "its order is 0"
    if name in ("MP", "MT"):
        return f"X is 1 at {2**40 / value:,.3f} Hz from the offset" if value else "its order is 0"
    if name[0] in "ABCDE":
        row, column = "ABCDE".index(name[0]), int(name[1])
        return f"{value / 65536:,.4f} {MEASURED_IN[part]}" + " × XP" * row + " × XT" * column
    return {
        "unit": UNIT,
        "span": f"{value / 2**28:.10f} {UNIT} for 1 psi",
        "zero": f"{value / 65536:,.4f} {UNIT}",
        "TMIN": "°C",
        "TMAX": "°C",
        "PMIN": "psi",
        "PMAX": "psi",
    }.get(name, "")


def dump_line(place, inner, data, words):
    print(f"{place:5}  {inner:>7}  {data.hex(' ').upper():23}  {words}".rstrip())


def dump_fields(kind, offset):
    part, fields = FIELDS[kind]
    inner = 0
    for name, letter in fields:
        data = IMAGE[offset + inner : offset + inner + struct.calcsize("<" + letter)]
        (value,) = struct.unpack("<" + letter, data)
        says = meaning(part, name, value)
        number = str(value) if name in ("serial", "year") else f"{value:,}"
        joined = " " if says in ("°C", "psi") else ": "
        words = f"{name} {number}" + (joined + says if says else "")
        dump_line(offset + inner, inner, data, words)
        inner += len(data)


def print_dump():
    print("place  in body  bytes                    what it says")
    count = IMAGE[1]
    dump_line(0, "", IMAGE[:1], "the first byte of every image")
    dump_line(1, "", IMAGE[1:2], f"{count} contents lines")
    lines = []
    for line in range(count):
        data = IMAGE[2 + 8 * line : 10 + 8 * line]
        kind, _, offset, length, total = struct.unpack("<BBHHH", data)
        dump_line(2 + 8 * line, "", data, f"line {line}: kind {kind}, reserved 0, offset {offset}, length {length}, sum {total:,}")
        lines.append((kind, offset, length))
    for kind, offset, length in lines:
        print(f"\nkind {kind}, {TITLES[kind]}")
        if kind in FIELDS:
            dump_fields(kind, offset)
        else:
            for inner in range(0, length, 8):
                data = IMAGE[offset + inner : offset + min(inner + 8, length)]
                dump_line(offset + inner, inner, data, f'"{data.decode("ascii")}"')


def print_text():
    print(make.text(IMAGE), end="")


def print_stored():
    print("| number | in the fit | stored |\n|---|---|---|")
    for name, (offset, reach) in (("P", PRESSURE_SCALE), ("T", TEMPERATURE_SCALE)):
        numbers = GAUGE["pressure"]
        print(f"| F{name}0 | {offset:,} Hz | {numbers[f'F{name}0']:,} |")
        print(f"| M{name} | X is 1 at {reach:,} Hz from the offset | {numbers['M' + name]:,} |")
    for part, fit in FITS.items():
        for i, row in enumerate(fit):
            for j, coefficient in enumerate(row):
                name = "ABCDE"[i] + str(j)
                term = coefficient + f" × (FP - {PRESSURE_SCALE[0]:,})" * i + f" × (FT - {TEMPERATURE_SCALE[0]:,})" * j
                print(f"| {part} {name} | {term} {MEASURED_IN[part]} | {GAUGE[part][name]:,} |")


def fitted(part):
    """What the fit itself gives for the counts."""
    fp, ft = (Fraction(7200000 * ns, nr) for ns, nr in (COUNTS[:2], COUNTS[2:]))
    return sum(
        Fraction(coefficient) * (fp - PRESSURE_SCALE[0]) ** i * (ft - TEMPERATURE_SCALE[0]) ** j
        for i, row in enumerate(FITS[part])
        for j, coefficient in enumerate(row)
    )


def print_reading():
    pressure, shown, temperature, _, mark = worked.reading(GAUGE, COUNTS)
    identity = GAUGE["identity"]
    print("The frequencies, rounded up where twice the remainder is NR or more:\n")
    worked.print_frequencies(COUNTS)
    print("\nThe prescale. The temperature set has NP 0, so its XP is not worked out:\n")
    worked.print_prescales(GAUGE, COUNTS)
    print("\nThe pressure set: rows A, B and C by XT, then the rows by XP, from C to A:\n")
    worked.print_set(GAUGE, COUNTS, "pressure")
    print(f"\nThe pressure is {pressure:,}, in 1/65,536 psi: {pressure / 65536:,.4f} psi.", end=" ")
    print(f"The fit itself gives {float(fitted('pressure')):,.4f} psi. The temperature set has one row:\n")
    worked.print_set(GAUGE, COUNTS, "temperature")
    print(f"\nThe temperature is {temperature:,}, in 1/65,536 °C: {temperature / 65536:,.4f} °C.", end=" ")
    print(f"The fit itself gives {float(fitted('temperature')):,.4f} °C.", end=" ")
    print(f"The temperature lies within {identity['TMIN']} to {identity['TMAX']} °C, and the pressure", end=" ")
    print(f"within {identity['PMIN']:,} to {identity['PMAX']:,} psi, so the mark is {mark}. The trim:\n")
    worked.print_trim(GAUGE, COUNTS)
    print(f"\nThe panel shows {shown:,}, in 1/65,536 {UNIT}: {shown / 65536:,.3f} {UNIT}.")


def print_said():
    _, shown, temperature, _, mark = worked.reading(GAUGE, COUNTS)
    print(f"format: pressure {shown / 65536:.3f} {UNIT} temperature {temperature / 65536:.3f} C mark {mark}")


def print_builder():
    print("\n\n".join(inspect.getsource(function).rstrip() for function in (make.image, make.record, make.text)))


WORDS = {
    "text": print_text,
    "said": print_said,
    "stored": print_stored,
    "dump": print_dump,
    "reading": print_reading,
    "builder": print_builder,
}

if __name__ == "__main__":
    if len(sys.argv) != 2 or sys.argv[1] not in WORDS:
        sys.exit(__doc__)
    WORDS[sys.argv[1]]()
