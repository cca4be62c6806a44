#!/usr/bin/env python3
"""A calibration image in which every number matters, and its readings, worked out in whole numbers by the rules of docs/FORMAT.md.

Usage: python3 examples/worked.py WORD, which prints
    image      the bytes as antt lists, as they stand in crates/paper/specs/WorkedImage.antt
    readings   the readings as the rows of a table, as they stand in crates/promises/specs/WorkedReadings.antt
    errors     how many readings change with an easy error, or with one more or one less in a number of the image
or a table of docs/WORKED.md:
    frequencies, prescales, pressure, temperature, trim    the steps of the first reading
    polynomial                                             the steps of the example of the polynomial
    shown, refused                                         all readings, and all refusals
"""
import sys

IDENTITY = {"serial": 305419896, "year": 2003, "month": 9, "day": 8, "TMIN": -20, "TMAX": 150, "PMIN": 15, "PMAX": 16000}
PRESSURE_SET = {
    "NP": 2, "NT": 1, "MP": 82828532, "FP0": 2169253945, "MT": 89478488, "FT0": 4607185121,
    "A0": 600215845, "A1": -21517296, "B0": -3750121295, "B1": 13902608, "C0": 5400630114, "C1": -7451088,
}
TEMPERATURE_SET = {
    "NP": 1, "NT": 2, "MP": 76770112, "FP0": 3191600777, "MT": 78260032, "FT0": 4338745331,
    "A0": 8923140, "A1": -391211614, "A2": -2904355136, "B0": 9730054, "B1": -6004100, "B2": 2318784,
}
TRIM = {"unit": 2, "span": 18511216, "zero": -66404}
NOTE = "well 12, spare"
GAUGE = {"identity": IDENTITY, "pressure": PRESSURE_SET, "temperature": TEMPERATURE_SET, "trim": TRIM}

# Name, what it shows, and the counts: pressure NS, NR, temperature NS, NR. The counts were searched for: sensor cycles upward
# until some number of reference cycles gives a frequency with the X that is wanted.
READINGS = [
    ("inside", "inside all limits", 40000, 7003827, 66600, 7247344),
    ("lowest", "pressure exactly PMIN, temperature exactly TMIN", 39334, 7273131, 66378, 7205570),
    ("hottest", "temperature exactly TMAX", 42064, 7508401, 66103, 7219644),
    ("highest", "pressure exactly PMAX; the trim's product is a half", 43602, 7186339, 66314, 7197400),
    ("too-cold", "temperature one unit below TMIN", 43024, 7487079, 33004, 3579926),
    ("too-hot", "temperature one unit above TMAX", 20000, 3523463, 66202, 7228409),
    ("too-low", "pressure one unit below PMIN", 19502, 3606089, 60007, 6515906),
    ("too-high", "pressure one unit above PMAX", 21837, 3599120, 33262, 3613459),
    ("too-high-and-hot", "pressure one unit above PMAX, temperature one unit above TMAX", 43202, 7120580, 66231, 7221635),
    ("below-zero", "pressure -128 psi; the trim's product is a half below zero", 38801, 7199087, 66016, 7170756),
    ("half-frequencies", "both frequencies are halves", 195001, 33554432, 618774, 67108864),
    ("half-x-pressure", "XP and XT of the pressure set are halves", 40439, 7051232, 66093, 6396435),
    ("half-x-temperature", "XP and XT of the temperature set are halves below zero", 40015, 7203427, 66411, 7394062),
    ("half-sums-pressure", "every product of the pressure set is a half", 40043, 6696138, 66186, 7211979),
    ("half-sums-temperature", "every product of the temperature set is a half", 40107, 6951807, 66067, 7173208),
    ("x-at-limits", "the pressure set's XT is -(2^24 + 1/2), the temperature set's XP is -2^24", 34224, 7167782, 51199, 6354416),
    ("pressure-limit", "pressure exactly 2^31", 45800, 7142510, 66008, 7171008),
    ("temperature-limit", "temperature exactly -2^31", 42000, 7363009, 77008, 7164357),
]
# but for the last, each has a second fault, whose number would come later
REFUSED = [
    ("no-sensor", "no cycles at all", 0, 0, 0, 0),
    ("many-sensor", "1,048,577 sensor cycles on the temperature channel, and no reference", 40000, 7003827, 1048577, 0),
    ("no-reference", "no reference cycles on the pressure channel, and no sensor cycles on the other", 40000, 0, 0, 7247344),
    ("no-reference-temperature", "no reference cycles on the temperature channel, and the pressure set's XP beyond 2^24", 1, 72, 66600, 0),
    ("frequency-high", "the lowest F above 6,553,600,000 that counts can give, and no cycles on the other channel", 1048576, 75497471, 0, 0),
    ("frequency-low", "F of the temperature channel 655,359,999, and the pressure set's XP beyond 2^24", 1, 72, 606815, 436906801),
    ("pressure-xp", "the pressure set's XP is 2^24 + 1, and its XT beyond 2^24", 46008, 7143061, 84000, 7200000),
    ("pressure-xt", "the pressure set's XT is 2^24 + 1/2, and the temperature set's XP beyond 2^24", 34000, 7200000, 82325, 7177066),
    ("temperature-xp", "the temperature set's XP is -(2^24 + 1), and its XT beyond 2^24", 34002, 7121287, 81000, 7173431),
    ("temperature-xt", "the temperature set's XT is 2^24 + 1, and its result would be beyond 2^31", 40000, 7003827, 80018, 7178875),
    ("pressure-beyond", "pressure 2^31 + 1, and the temperature set's XT beyond 2^24", 46002, 7168270, 81006, 7115965),
    ("temperature-beyond", "temperature -(2^31 + 1)", 41003, 6920928, 77526, 7212363),
]

# ---- from counts to a reading


class Refused(Exception):
    pass


def ask(holds, number, detail):
    if not holds:
        raise Refused(number, detail)


def rounded(n, d):
    return (2 * n + d) // (2 * d)


def frequency(channel, ns, nr):
    ask(1 <= ns <= 1048576, 21, channel)
    ask(nr != 0, 22, channel)
    f = rounded(7200000 * 65536 * ns, nr)
    ask(655360000 <= f <= 6553600000, 23, channel)
    return f


def prescaled(detail, multiplier, offset, f):
    x = rounded(multiplier * (f - offset), 2**32)
    ask(abs(x) <= 2**24, 24, detail)
    return x


def step(term, running, x):
    return term + rounded(running * x, 2**24)


def summed(kind, x, terms):
    running = terms[-1]
    ask(abs(running) <= 500000000000, 25, kind)
    for term in reversed(terms[:-1]):
        running = step(term, running, x)
        ask(abs(running) <= 500000000000, 25, kind)
    return running


def rows(numbers):
    return [[numbers[row + str(column)] for column in range(numbers["NT"] + 1)] for row in "ABCDE"[: numbers["NP"] + 1]]


def set_result(kind, first, numbers, fp, ft):
    xp = prescaled(first, numbers["MP"], numbers["FP0"], fp)
    xt = prescaled(first + 1, numbers["MT"], numbers["FT0"], ft)
    result = summed(kind, xp, [summed(kind, xt, row) for row in rows(numbers)])
    ask(abs(result) <= 2**31, 26, kind)
    return result


def outside(z, low, high):
    return z < low * 65536 or z > high * 65536


def mark(identity, pressure, temperature):
    return outside(temperature, identity["TMIN"], identity["TMAX"]) + 2 * outside(pressure, identity["PMIN"], identity["PMAX"])


def trimmed(trim, pressure):
    return trim["zero"] + rounded(trim["span"] * pressure, 2**28)


def reading(gauge, counts):
    """Pressure before trim, shown pressure, temperature, unit, mark; or number and detail."""
    try:
        fp, ft = frequency(1, *counts[:2]), frequency(2, *counts[2:])
        pressure = set_result(2, 1, gauge["pressure"], fp, ft)
        temperature = set_result(3, 3, gauge["temperature"], fp, ft)
    except Refused as refusal:
        return refusal.args
    shown, unit = (trimmed(gauge["trim"], pressure), gauge["trim"]["unit"]) if "trim" in gauge else (pressure, 1)
    return pressure, shown, temperature, unit, mark(gauge["identity"], pressure, temperature)


# ---- the bytes: a list of fields, each with what it says


def field(name, n, size):
    return f"{name} {n:,}", (n % 256**size).to_bytes(size, "little")


def set_fields(numbers):
    head = ("both prescale algorithms 1, NP {NP}, NT {NT}".format(**numbers), bytes([1, 1, numbers["NP"], numbers["NT"]]))
    scales = [field(name, numbers[name], size) for name, size in (("MP", 4), ("FP0", 8), ("MT", 4), ("FT0", 8))]
    return [head, *scales, *(field(name, n, 8) for name, n in numbers.items() if name[0] in "ABCDE")]


def bodies_fields():
    year, month, day = (IDENTITY[name] for name in ("year", "month", "day"))
    date = (f"year {year}, month {month}, day {day}", year.to_bytes(2, "little") + bytes([month, day]))
    limits = [field(name, IDENTITY[name], 4) for name in ("TMIN", "TMAX", "PMIN", "PMAX")]
    return {
        1: [field("serial", IDENTITY["serial"], 4), date, *limits],
        2: set_fields(PRESSURE_SET),
        3: set_fields(TEMPERATURE_SET),
        4: [("unit 2, bar", bytes([TRIM["unit"], 0, 0, 0])), field("span", TRIM["span"], 4), field("zero", TRIM["zero"], 8)],
        129: [(NOTE, NOTE.encode("ascii"))],
    }


def contents_fields(bodies):
    place = 2 + 8 * len(bodies)
    lines = [(f"{len(bodies)} lines", bytes([0x51, len(bodies)]))]
    for kind, fields in bodies.items():
        body = b"".join(data for _, data in fields)
        words = f"kind {kind} at {place}, {len(body)} bytes of sum {sum(body):,}"
        numbers = ((kind, 1), (0, 1), (place, 2), (len(body), 2), (sum(body) % 65536, 2))
        lines.append((words, b"".join(n.to_bytes(size, "little") for n, size in numbers)))
        place += len(body)
    return lines


# ---- what is printed


def antt_list(name, words, fields):
    lines = [f"-- {words}", f"abbrev pub {name} : List ℕ", f"{name} ="]
    for i, (says, data) in enumerate(fields):
        lines.append(f"    -- {says}")
        lines.append("    " + ("∷ " if i else "") + " ∷ ".join(f"0x{byte:02X}" for byte in data))
    return "\n".join(lines + ["    ∷ []", ""])


def print_image():
    bodies = bodies_fields()
    print(antt_list("identityBytes", "kind 1, identity", bodies[1]))
    print(antt_list("pressureBytes", "kind 2, pressure set", bodies[2]))
    print(antt_list("temperatureBytes", "kind 3, temperature set", bodies[3]))
    print(antt_list("trimBytes", "kind 4, trim", bodies[4]))
    print(antt_list("noteBytes", "kind 129, note", bodies[129]))
    print(antt_list("fiveLines", "the contents of all five", contents_fields(bodies)))
    print(antt_list("threeLines", "the contents of the first three", contents_fields({kind: bodies[kind] for kind in (1, 2, 3)})))


def signed(n):
    return f"pos {n}" if n >= 0 else f"negℤ (pos {-n})"


def print_readings():
    for name, words, *counts in READINGS:
        pressure, shown, temperature, unit, marked = reading(GAUGE, counts)
        print(f"    -- {name}: {words}; {shown / 65536:,.3f} bar, {pressure / 65536:,.3f} psi, {temperature / 65536:,.3f} °C")
        print(f"    ∷ shows (counted {' '.join(map(str, counts))}) ({signed(shown)}) ({signed(pressure)}) ({signed(temperature)}) {marked}")
    for name, words, *counts in REFUSED:
        print(f"    -- {name}: {words}")
        print("    ∷ refuses (counted {}) {} {}".format(" ".join(map(str, counts)), *reading(GAUGE, counts)))


def quotient(n, d):
    """A quotient rounded to three places, and to a whole number."""
    thousandths = rounded(1000 * n, d)
    sign = "-" if thousandths < 0 else ""
    return f"{sign}{abs(thousandths) // 1000:,}.{abs(thousandths) % 1000:03} | {rounded(n, d):,}"


def print_sum(x, terms, names):
    """The steps of one sum as rows of a table; gives back the sum."""
    running = terms[-1]
    for term, name in reversed(list(zip(terms[:-1], names[:-1]))):
        product = running * x
        print(f"| {running:,} × {x:,} | {product:,} | {quotient(product, 2**24)} | {name} {term:,} | {step(term, running, x):,} |")
        running = step(term, running, x)
    return running


def print_grid(xp, xt, grid):
    print("| running sum × X | product | / 2^24 | rounded | plus | running sum |\n|---|---|---|---|---|---|")
    names = [[f"{row}{column}" for column in range(len(grid[0]))] for row in "ABCDE"[: len(grid)]]
    sums = [print_sum(xt, terms, name) for terms, name in zip(grid, names)]
    print_sum(xp, sums, [f"row {name[0][0]}" for name in names])


def print_frequencies(counts):
    print("| channel | NS | NR | 7,200,000 × 65,536 × NS | / NR | remainder | F |\n|---|---|---|---|---|---|---|")
    for channel, name in ((1, "pressure"), (2, "temperature")):
        ns, nr = counts[2 * channel - 2 : 2 * channel]
        n = 7200000 * 65536 * ns
        print(f"| {name} | {ns:,} | {nr:,} | {n:,} | {n // nr:,} | {n % nr:,} | {frequency(channel, ns, nr):,} |")


def print_prescales(gauge, counts):
    fp, ft = frequency(1, *counts[:2]), frequency(2, *counts[2:])
    print("| set | F | F0 | F - F0 | M | M × (F - F0) | / 2^32 | X |\n|---|---|---|---|---|---|---|---|")
    for name in ("pressure", "temperature"):
        numbers = gauge[name]
        for x, f, order, multiplier, offset in (("XP", fp, "NP", "MP", "FP0"), ("XT", ft, "NT", "MT", "FT0")):
            if numbers[order]:
                m, f0 = numbers[multiplier], numbers[offset]
                print(f"| {name} {x} | {f:,} | {f0:,} | {f - f0:,} | {m:,} | {m * (f - f0):,} | {quotient(m * (f - f0), 2**32)} |")


def print_set(gauge, counts, name):
    numbers, first = gauge[name], {"pressure": 1, "temperature": 3}[name]
    xp = prescaled(first, numbers["MP"], numbers["FP0"], frequency(1, *counts[:2]))
    xt = prescaled(first + 1, numbers["MT"], numbers["FT0"], frequency(2, *counts[2:]))
    print_grid(xp, xt, rows(numbers))


def print_trim(gauge, counts):
    pressure, shown, *_ = reading(gauge, counts)
    span, zero = gauge["trim"]["span"], gauge["trim"]["zero"]
    product = span * pressure
    print("| span × pressure | product | / 2^28 | rounded | plus | shown pressure |\n|---|---|---|---|---|---|")
    print(f"| {span:,} × {pressure:,} | {product:,} | {quotient(product, 2**28)} | zero {zero:,} | {shown:,} |")


def print_shown():
    print("| reading | pressure NS, NR | temperature NS, NR | pressure before trim | shown, bar | temperature | mark | what it shows |")
    print("|---|---|---|---|---|---|---|---|")
    for name, words, *counts in READINGS:
        pressure, shown, temperature, _, marked = reading(GAUGE, counts)
        places = "{:,}, {:,} | {:,}, {:,}".format(*counts)
        print(f"| `{name}` | {places} | {pressure:,} | {shown:,} | {temperature:,} | {marked} | {words} |")


def print_refused():
    print("| refused | pressure NS, NR | temperature NS, NR | number, detail | why |\n|---|---|---|---|---|")
    for name, words, *counts in REFUSED:
        places = "{:,}, {:,} | {:,}, {:,}".format(*counts)
        print("| `{}` | {} | {} {} | {} |".format(name, places, *reading(GAUGE, counts), words))


# ---- what an error changes: a function of this file put in another's place

EASY_ERRORS = [
    ("quotients cut off toward zero", "rounded", lambda n, d: n // d if n >= 0 else -(-n // d)),
    ("quotients cut off downward", "rounded", lambda n, d: n // d),
    ("halves downward", "rounded", lambda n, d: -((d - 2 * n) // (2 * d))),
    ("halves away from zero", "rounded", lambda n, d: (2 * n + d) // (2 * d) if n >= 0 else -((d - 2 * n) // (2 * d))),
    ("sensor and reference cycles exchanged", "frequency", lambda channel, ns, nr, right=frequency: right(channel, nr, ns)),
    ("a sum's first term taken for its last", "summed", lambda kind, x, terms, right=summed: right(kind, x, terms[::-1])),
    ("only the first row", "rows", lambda numbers, right=rows: right(numbers)[:1]),
    ("A1 read as B0", "rows", lambda numbers, right=rows: [list(row) for row in zip(*right(numbers))]),
    ("a limit itself outside", "outside", lambda z, low, high: not low * 65536 < z < high * 65536),
    ("mark of the pressure after trim", "mark", lambda i, pressure, *t, right=mark: right(i, trimmed(TRIM, pressure), *t)),
    ("zero added before the span", "trimmed", lambda trim, p: rounded(trim["span"] * (p + trim["zero"]), 2**28)),
]


def all_answers(gauge):
    untrimmed = {name: numbers for name, numbers in gauge.items() if name != "trim"}
    asked = [(gauge, row) for row in READINGS + REFUSED] + [(untrimmed, row) for row in READINGS]
    return [reading(image, counts)[-4:] for image, (_, _, *counts) in asked]


def print_errors():
    right = all_answers(GAUGE)

    def changed(answers):
        return sum(a != b for a, b in zip(answers, right))

    for words, name, wrong in EASY_ERRORS:
        kept, globals()[name] = globals()[name], wrong
        print(f"{words}: {changed(all_answers(GAUGE))} of {len(right)} answers change")
        globals()[name] = kept
    for part, numbers in GAUGE.items():
        for key in numbers:
            if key not in ("serial", "year", "month", "day", "NP", "NT"):
                more, less = (changed(all_answers({**GAUGE, part: {**numbers, key: numbers[key] + by}})) for by in (1, -1))
                print(f"{part} {key}: one more changes {more}, one less {less}")


FIRST = READINGS[0][2:]
WORDS = {
    "image": print_image,
    "readings": print_readings,
    "frequencies": lambda: print_frequencies(FIRST),
    "prescales": lambda: print_prescales(GAUGE, FIRST),
    "pressure": lambda: print_set(GAUGE, FIRST, "pressure"),
    "temperature": lambda: print_set(GAUGE, FIRST, "temperature"),
    "trim": lambda: print_trim(GAUGE, FIRST),
    "polynomial": lambda: print_grid(2**23, -(2**23), [[6553600, 65536], [131072, 3]]),
    "shown": print_shown,
    "refused": print_refused,
    "errors": print_errors,
}

if __name__ == "__main__":
    if len(sys.argv) != 2 or sys.argv[1] not in WORDS:
        sys.exit(__doc__)
    WORDS[sys.argv[1]]()
