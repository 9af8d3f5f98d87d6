#!/usr/bin/env python3
"""The expected output of crates/weight_cases, worked out from documents 01 and 02 alone.

Units, rounding, the ten characters, the two ranges and typed numbers are written here a second
time, in exact fractions and in text. This file shares nothing with the Rattle code but the list of
cases, which each line of the output repeats.

    tests/weight_cases.py            print the list
    tests/weight_cases.py --check    compare it with crates/weight_cases/stdout; exit status 1 if
                                     they differ
"""
import difflib
import math
import pathlib
import re
import sys
from fractions import Fraction

EXPECTED = pathlib.Path(__file__).resolve().parent.parent / "crates" / "weight_cases" / "stdout"

# ---- document 01, "The profile" and "Weights"

# The line on units, with document 02, No. 5: text and nanograms.
UNITS = {
    "g": 1_000_000_000,
    "mg": 1_000_000,
    "ct": 200_000_000,
    "oz": 28_349_523_125,
    "ozt": 31_103_476_800,
    "GN": 64_798_910,
    "dwt": 1_555_173_840,
    "kg": 1_000_000_000_000,
    "lb": 453_592_370_000,
}
STEPS = (1, 2, 5)
MOST_DECIMALS = 6
WIDTH = 10
BLANK = " " * WIDTH

# Document 02, No. 7: the coarse range has one decimal fewer than the two or more of the fine one.
COARSE_DECIMALS = range(1, MOST_DECIMALS)

# Limits of the library, beyond those of the documents: nets that are rounded, typed micrograms that
# any profile can take, and the most that U and C of a profile give together.
NET_LIMIT = 5_000_000_000
LARGEST_CAPACITY = 1_000_000_000
LARGEST_REACH = 2_000_000_000


def allowed(unit, decimals, step):
    return decimals <= MOST_DECIMALS and step in STEPS and step * UNITS[unit] >= 1000 * 10**decimals


def nearest(x):
    """The whole number nearest to x, a tie away from zero."""
    size = math.floor(abs(x) + Fraction(1, 2))
    return size if x >= 0 else -size


def printed_number(unit, decimals, step, net):
    """net x 1,000 x 10^d / unit, rounded to the nearest multiple of k."""
    return step * nearest(Fraction(net * 1000 * 10**decimals, UNITS[unit]) / step)


def number_text(decimals, places):
    digits = str(abs(places)).rjust(decimals + 1, "0")
    if decimals > 0:
        digits = digits[:-decimals] + "." + digits[-decimals:]
    return ("-" if places < 0 else "") + digits


def field(decimals, places, coarse=False):
    """The ten characters, coarse nine and a space, or None where they are too few."""
    text = number_text(decimals, places)
    if coarse:
        text += " "
    fits = decimals in COARSE_DECIMALS if coarse else decimals <= MOST_DECIMALS
    return text.rjust(WIDTH) if fits and len(text) <= WIDTH else None


def printed(unit, decimals, step, net, coarse=False):
    """The field of a net, with the decimals of its range."""
    if not allowed(unit, decimals, step) or abs(net) > NET_LIMIT:
        return None
    return field(decimals, printed_number(unit, decimals, step, net), coarse)


def read_field(text):
    """Decimals, last places and whether it is coarse, or None."""
    coarse = text.endswith(" ")
    number = text[:-1] if coarse else text
    form = re.fullmatch(r" *(-?)(0|[1-9][0-9]*)(?:\.([0-9]{1,6}))?", number)
    if len(text) != WIDTH or form is None:
        return None
    sign, whole, decimals = form.group(1), form.group(2), form.group(3) or ""
    places = int(sign + whole + decimals)
    if sign and places == 0 or coarse and len(decimals) not in COARSE_DECIMALS:
        return None
    return len(decimals), places, coarse


def typed_micrograms(unit, text):
    """The exact micrograms, or None."""
    if len(text) > WIDTH or not re.fullmatch(r"[0-9]+(\.[0-9]{1,6})?", text):
        return None
    return Fraction(text) * UNITS[unit] / 1000


# ---- document 02, No. 7


def ranged(decimals, coarse):
    """The decimals of a range: above F the step is ten times larger."""
    return max(decimals - 1, 0) if coarse else decimals


def in_range(fine, unit, decimals, step, deciding, net):
    """The field of a net, in the range of the weight that decides."""
    coarse = deciding > fine
    return printed(unit, ranged(decimals, coarse), step, net, coarse)


def fits_coarse(unit, decimals, step, size):
    """Whether every net from -size up is printed coarse too; the farthest decides."""
    if decimals < 2 or not allowed(unit, decimals, step) or size > LARGEST_REACH:
        return False
    return printed(unit, ranged(decimals, True), step, -size, True) is not None


# ---- the lines

lines = []


def in_brackets(cells):
    return " no" if cells is None else f" [{cells}]"


def range_word(coarse):
    return " coarse" if coarse else ""


def named_resolution(unit, decimals, step, coarse=False):
    word = "allowed" if allowed(unit, decimals, step) else "refused"
    return f"{unit:3} {decimals} {step}{range_word(coarse)} {word}"


def signed_pair(size):
    """The numbers of this size, held to 64 bits."""
    return min(size, 2**63 - 1), max(-size, -(2**63))


def both_signs(unit, decimals, step, size, coarse=False):
    fields = (printed(unit, decimals, step, net, coarse) for net in signed_pair(size))
    return "".join(in_brackets(cells) for cells in fields)


def net(unit, decimals, step, size, coarse=False):
    resolution = unit, ranged(decimals, coarse), step
    fields = both_signs(*resolution, size, coarse)
    lines.append(f"net {named_resolution(*resolution, coarse)} {size}{fields}")


def net_coarse(unit, decimals, step, size):
    net(unit, decimals, step, size, True)


def in_force(fine, unit, decimals, step, deciding, net):
    given = f"range {fine} {named_resolution(unit, decimals, step)}"
    cells = in_range(fine, unit, decimals, step, deciding, net)
    lines.append(given + "".join(map(in_brackets, (field(0, deciding), field(0, net), cells))))


def fit(unit, decimals, step, size):
    word = "yes" if fits_coarse(unit, decimals, step, size) else "no"
    lines.append(f"fits {named_resolution(unit, decimals, step)} {size} {word}")


def tie(unit, decimals, step, size):
    sizes = (max(size - 1, 0), size, size + 1)
    fields = "".join(both_signs(unit, decimals, step, near) for near in sizes)
    lines.append(f"tie {named_resolution(unit, decimals, step)} {size}{fields}")


def half_up(exact):
    """The nearest whole number, a tie upwards."""
    return math.floor(exact + Fraction(1, 2))


def amount(exact):
    """What a typed number is stored as."""
    if exact is None:
        return " no"
    rounded = half_up(exact)
    return " too large" if rounded > LARGEST_CAPACITY else in_brackets(field(0, rounded))


def typed(unit, text):
    lines.append(f'typed {unit:3} "{text}"{amount(typed_micrograms(unit, text))}')


def preset_micrograms(unit, decimals, step, text):
    """The exact micrograms of the nearest display step, or None."""
    exact = typed_micrograms(unit, text)
    if exact is None or not allowed(unit, decimals, step):
        return None
    display_step = Fraction(step * UNITS[unit], 1000 * 10**decimals)
    return half_up(exact / display_step) * display_step


def preset(unit, decimals, step, text):
    exact = preset_micrograms(unit, decimals, step, text)
    lines.append(f'preset {named_resolution(unit, decimals, step)} "{text}"{amount(exact)}')


def tare_micrograms(capacity, fine, unit, decimals, step, text):
    """As above; a number above F is rounded to the coarse step, if F is below C."""
    exact = typed_micrograms(unit, text)
    coarse = exact is not None and fine < capacity and exact > fine
    return preset_micrograms(unit, ranged(decimals, coarse), step, text)


def tare_answer(capacity, fine, unit, decimals, step, exact):
    """The field of TA's answer, in the range of the stored tare, or L."""
    if exact is None or half_up(exact) > capacity:
        return " L"
    return in_brackets(in_range(fine, unit, decimals, step, half_up(exact), half_up(exact)))


def tare(capacity, fine, unit, decimals, step, text):
    exact = tare_micrograms(capacity, fine, unit, decimals, step, text)
    answer = tare_answer(capacity, fine, unit, decimals, step, exact)
    given = f'tare {capacity} {fine} {named_resolution(unit, decimals, step)} "{text}"'
    lines.append(given + amount(exact) + answer)


def found(text):
    answer = read_field(text)
    if answer is None:
        return " no"
    decimals, places, coarse = answer
    return f" {decimals}{in_brackets(field(0, places))}{range_word(coarse)}"


def written(decimals, size, coarse=False):
    line = f"written {decimals}{range_word(coarse)} {size}"
    for places in signed_pair(size):
        cells = field(decimals, places, coarse)
        refused = " no" if cells is None else ""
        line += refused + in_brackets(cells or BLANK) + found(cells or BLANK)
    lines.append(line)


def read(text):
    lines.append(f'read "{text}"{found(text)}')


# ---- the cases


def unit_cases():
    for unit, nanograms in UNITS.items():
        lines.append(f"unit {unit:3} {len(unit)} {nanograms}")
    for text in [*UNITS, "", "G", "gn", "KG", "g ", " g", "m", "dw", "ozt ", "oztt", "DWT", "k", "lbs"]:
        lines.append(f'named {text if text in UNITS else "no":3} "{text}"')


def bench_cases():
    """Document 01, "Bench cases": the number, its unit, decimals, step and net."""
    for text, *case in [
        ("14.2560", "g", 4, 1, 14_256_049),
        ("14.2561", "g", 4, 1, 14_256_050),
        ("0.0000", "g", 4, 1, -49),
        ("-0.0001", "g", 4, 1, -50),
        ("0.0000", "g", 4, 5, 249),
        ("0.0005", "g", 4, 5, 250),
        ("0.000", "ct", 3, 1, 99),
        ("0.001", "ct", 3, 1, 100),
        ("1.00000", "oz", 5, 1, 28_349_523),
        ("220.0000", "g", 4, 1, 220_000_000),
        ("220.0000", "g", 4, 1, 220_000_001),
        ("-1.0000", "g", 4, 1, -1_000_000),
        ("-1.0000", "g", 4, 1, -1_000_001),
        ("10.0001", "g", 4, 1, 10_000_050),
        ("100.0000", "g", 4, 1, 100_000_000),
        ("-99999.999", "mg", 3, 1, -99_999_999),
        (None, "mg", 3, 1, -100_000_000),
        (None, "GN", 5, 1, 64_798_910),
        ("1000.00000", "GN", 5, 2, 64_798_910),
    ]:
        assert printed(*case) == (text and text.rjust(WIDTH)), case
        net(*case[:3], abs(case[3]))


def request_cases():
    """Document 02, No. 5: one load in the eight other units, d 2, k 1."""
    for text, unit in [
        ("71.28", "ct"),
        ("0.01", "kg"),
        ("0.03", "lb"),
        ("0.50", "oz"),
        ("0.46", "ozt"),
        ("220.00", "GN"),
        ("9.17", "dwt"),
        ("14256.05", "mg"),
    ]:
        assert printed(unit, 2, 1, 14_256_050) == text.rjust(WIDTH), unit
        net(unit, 2, 1, 14_256_050)


# The weights in grams that sources 003 and 000 print in commands and answers, each once.
MANUAL = """4875.2
    0.00 1.23 5.25 10.00 12.34 15.00 20.00 67.89
    100.00 100.12 114.87 115.23 117.57 129.07 129.08 129.09 200.00 200.01 2000.00
    0.256 14.256 100.000 100.123 123.456 70.0000 200.1234"""


def manual_cases():
    for text in MANUAL.split():
        decimals, micrograms = len(text.partition(".")[2]), Fraction(text) * 1_000_000
        assert printed("g", decimals, 1, int(micrograms)) == text.rjust(WIDTH), text
        net("g", decimals, 1, int(micrograms))


def range_cases():
    for size in [
        0, 1, 10**9,
        2**31 - 1, 2**31, 2**31 + 2 * 10**9,
        NET_LIMIT - 1, NET_LIMIT, NET_LIMIT + 1,
        2**63 - 1, 2**63,
    ]:
        net("g", 4, 1, size)
    for size in (0, 1):
        net("g", 6, 1, size)
    for resolution in [
        ("mg", 0, 1),
        ("ct", 4, 1),
        ("oz", 6, 1),
        ("ozt", 0, 5),
        ("GN", 4, 1),
        ("dwt", 4, 2),
        ("kg", 6, 1),
        ("lb", 6, 5),
    ]:
        net(*resolution, NET_LIMIT)
        net(*resolution, NET_LIMIT + 1)


def last_that_fits(unit, decimals, step, sign, coarse=False):
    """The largest size whose field fits, by halving; the width only grows with the size."""
    resolution = unit, ranged(decimals, coarse), step
    low, high = 0, NET_LIMIT
    assert printed(*resolution, sign * high, coarse) is None
    while high - low > 1:
        middle = (low + high) // 2
        if printed(*resolution, sign * middle, coarse) is None:
            high = middle
        else:
            low = middle
    return low


def width_cases():
    for unit, decimals, step, signs in [
        ("g", 6, 1, (1, -1)),
        ("mg", 3, 1, (1, -1)),
        ("mg", 2, 1, (-1,)),
        ("ct", 6, 5, (1, -1)),
        ("ct", 5, 1, (1, -1)),
        ("ct", 4, 2, (-1,)),
        ("oz", 6, 1, (-1,)),
        ("ozt", 6, 1, (-1,)),
        ("GN", 5, 2, (1, -1)),
        ("GN", 4, 1, (-1,)),
        ("dwt", 6, 1, (1, -1)),
        ("dwt", 5, 5, (-1,)),
    ]:
        for sign in signs:
            last = last_that_fits(unit, decimals, step, sign)
            net(unit, decimals, step, last)
            net(unit, decimals, step, last + 1)


def resolution_cases():
    for decimals in (6, 7, 255):
        net("g", decimals, 1, 1_000_000)
    for step in (0, 3, 4, 6, 10, 255):
        net("g", 4, step, 1_000_000)
    for unit, decimals, step in [
        ("mg", 3, 1),
        ("mg", 4, 5),
        ("ct", 6, 2),
        ("ct", 6, 5),
        ("oz", 7, 5),
        ("ozt", 7, 5),
        ("GN", 5, 1),
        ("GN", 5, 2),
        ("kg", 6, 1),
        ("kg", 7, 1),
        ("lb", 6, 1),
        ("lb", 7, 5),
    ]:
        net(unit, decimals, step, 1_000_000)


def range_in_force_cases():
    """Document 02, No. 7: profile A with a fine limit, what decides and what is printed."""
    limit = 100_000_000
    for text, fine, deciding, net in [
        # Above F is strict, in micrograms.
        ("100.0000", limit, 100_000_000, 100_000_000),
        ("100.000 ", limit, 100_000_001, 100_000_001),
        # Gross decides, net is printed; in a tare answer the tare decides.
        ("150.000 ", limit, 150_000_000, 150_000_000),
        ("0.001 ", limit, 150_000_500, 500),
        ("-140.0000", limit, 10_000_000, -140_000_000),
        ("50.0000", limit, 50_000_000, 50_000_000),
        # F 0, C - 1 and C.
        ("0.0000", 0, 0, 0),
        ("0.0000", 0, -1, -1),
        ("0.000 ", 0, 1, 1),
        ("0.003 ", 0, 3_000, 3_000),
        ("220.000 ", 219_999_999, 220_000_000, 220_000_000),
        ("220.0000", 219_999_999, 219_999_999, 219_999_999),
        ("220.0000", 220_000_000, 220_000_000, 220_000_000),
        # Limits and weights that no profile has.
        ("4294.9673", 2**32 - 1, 2**32 - 1, 2**32 - 1),
        ("4294.967 ", 2**32 - 1, 2**32, 2**32),
    ]:
        case = fine, "g", 4, 1, deciding, net
        assert in_range(*case) == text.rjust(WIDTH), case
        in_force(*case)


def coarse_cases():
    """One rounding, to multiples of 10 k."""
    for text, weight in [("0.001 ", 1_450), ("0.001 ", 500), ("-0.001 ", -500), ("0.000 ", -499)]:
        assert printed("g", 3, 1, weight, True) == text.rjust(WIDTH), weight
    for step, sizes in [
        (1, (0, 1, 499, 500, 1_449, 1_450, 1_499, 1_500, 140_000_499, 140_000_500)),
        (2, (999, 1_000, 2_999, 3_000)),
        (5, (2_499, 2_500, 7_499, 7_500)),
    ]:
        for size in sizes:
            net_coarse("g", 4, step, size)
    for unit in UNITS:
        net_coarse(unit, 2, 1, 14_256_050)
    for size in (NET_LIMIT, NET_LIMIT + 1):
        net_coarse("g", 4, 1, size)
    # Decimals: what remains of 0 to 7, and of 255.
    for decimals in (*range(8), 255):
        net_coarse("g", decimals, 1, 1_000_000)
    # A coarse step of a microgram, under a fine one that is too small; a step that is none.
    net_coarse("mg", 4, 1, 1_000_000)
    net_coarse("mg", 5, 1, 1_000_000)
    net_coarse("g", 4, 3, 1_000_000)


def coarse_width_cases():
    for unit, decimals, step, signs in [
        ("g", 6, 1, (1, -1)),
        ("g", 5, 2, (-1,)),
        ("mg", 3, 1, (1, -1)),
        ("mg", 2, 5, (-1,)),
        ("ct", 6, 5, (1, -1)),
        ("ct", 5, 1, (1, -1)),
        ("oz", 6, 1, (-1,)),
        ("ozt", 6, 2, (-1,)),
        ("GN", 5, 2, (1, -1)),
        ("GN", 4, 1, (-1,)),
        ("dwt", 6, 1, (1, -1)),
        ("dwt", 5, 5, (-1,)),
    ]:
        for sign in signs:
            last = last_that_fits(unit, decimals, step, sign, True)
            net_coarse(unit, decimals, step, last)
            net_coarse(unit, decimals, step, last + 1)


def fit_cases():
    for unit, decimals, step in [
        ("mg", 3, 1),
        ("mg", 3, 5),
        ("mg", 2, 2),
        ("g", 6, 1),
        ("g", 5, 5),
        ("ct", 6, 5),
        ("ct", 5, 1),
        ("ct", 4, 2),
        ("GN", 5, 2),
        ("GN", 4, 1),
        ("dwt", 6, 1),
        ("dwt", 5, 5),
    ]:
        last = last_that_fits(unit, decimals, step, -1, True)
        assert fits_coarse(unit, decimals, step, last), unit
        fit(unit, decimals, step, last)
        fit(unit, decimals, step, last + 1)
    # The farthest net that a profile can have, in every unit with 0 to 7 decimals.
    for unit in UNITS:
        for decimals in range(8):
            fit(unit, decimals, 1, LARGEST_REACH)
    fit("g", 2, 1, LARGEST_REACH + 1)
    fit("g", 2, 1, 2**32 - 1)
    fit("g", 2, 1, 0)
    # Decimals and steps that no profile has; steps below a microgram.
    for unit, decimals, step in [("g", 1, 1), ("g", 0, 5), ("g", 255, 1), ("g", 4, 0), ("g", 4, 3)]:
        assert not fits_coarse(unit, decimals, step, 0)
        fit(unit, decimals, step, 0)
    for unit, decimals, step in [("mg", 4, 5), ("ct", 6, 2), ("GN", 5, 1)]:
        assert not allowed(unit, decimals, step)
        fit(unit, decimals, step, 0)


def tie_cases():
    tied = set()
    for unit in UNITS:
        for step in STEPS:
            for decimals in range(MOST_DECIMALS + 1):
                for halves in (1, 25):
                    middle = Fraction(halves * step * UNITS[unit], 2 * 1000 * 10**decimals)
                    tie(unit, decimals, step, math.floor(middle))
                    if middle.denominator == 1 and allowed(unit, decimals, step):
                        tied.add((unit, step))
    # An odd number of half steps of oz and GN is never whole: k x unit has too few factors of two.
    assert tied == {(unit, step) for unit in UNITS for step in STEPS if unit not in ("oz", "GN")}


def typed_cases():
    for text in [
        # Document 01's bench cases of TA, as SR reads them.
        "100.00", "-1", "220.000001", "1.",
        # 0 to 11 characters.
        "", "5", "50", "5.0", "50.0", "50.00", "50.000", "50.0000", "50.00000", "50.000000",
        "050.000000", "0050.000000",
        # Zeros before and after the point, 6 and 7 decimals.
        "0", "000.000001", "0.123456", "0.1234567",
        # At most one point, with digits on both sides.
        ".5", ".", "5..0", "5.0.0", "5.0.", ".5.0",
        # Other characters.
        "+5", " 5", "5 ", "5 0", "5,0", "5/0", "5:0", "5e1", "5.-1", "five",
    ]:
        typed("g", text)


def typed_tie_cases():
    for unit, texts in [
        ("mg", "0.000499 0.0005! 0.000501 0.002499 0.0025! 123.4565!"),
        ("oz", "3.999999 4! 4.000001 12!"),
        ("ozt", "0.312499 0.3125! 0.312501"),
        ("GN", "49.999999 50! 50.000001 150.000000!"),
        ("dwt", "6.249999 6.25! 6.250001 18.75!"),
        ("lb", "0.049999 0.05! 0.050001 0.15!"),
        ("g", "0.000001"),
        ("ct", "0.000001 0.000002 0.000003"),
        ("kg", "0.000001 0.999999"),
    ]:
        for text in texts.split():
            exact = typed_micrograms(unit, text.rstrip("!"))
            assert (exact % 1 == Fraction(1, 2)) == text.endswith("!"), (unit, text)
            typed(unit, text.rstrip("!"))


def largest_typed(unit):
    """The largest text of ten characters that is not too large, and the next one."""
    whole = str(LARGEST_CAPACITY * 1000 // UNITS[unit])
    decimals = min(MOST_DECIMALS, WIDTH - 1 - len(whole))
    places = (2 * LARGEST_CAPACITY + 1) * 1000 * 10**decimals // (2 * UNITS[unit]) + 2
    too_large = LARGEST_CAPACITY + Fraction(1, 2)
    while typed_micrograms(unit, number_text(decimals, places)) >= too_large:
        places -= 1
    return [number_text(decimals, places), number_text(decimals, places + 1)]


def typed_large_cases():
    for unit in UNITS:
        for text in [*largest_typed(unit), "999.999999", "9999999999"]:
            typed(unit, text)


def presets(unit, decimals, step, texts):
    for text in texts.split():
        preset(unit, decimals, step, text)


def preset_bench_cases():
    """Document 01, "Bench cases"."""
    presets("g", 4, 1, "100.00 -1 220.000001 1.")


def preset_request_cases():
    """Document 02, No. 3, and its corners."""
    presets("g", 4, 1, "220.000049 220.00005 0.00005 0.000049")
    presets("g", 4, 5, "0.00025 0.000249")
    presets("g", 0, 5, "1002.4 1002.5")
    presets("oz", 0, 5, "37.4 37.5")
    presets("oz", 5, 1, "4 1.000005 1.000004")
    # With No. 5.
    presets("oz", 2, 1, "4")
    presets("kg", 2, 1, "0.224 0.225 0.004")
    # No number; no profile's resolution.
    presets("g", 4, 1, "00000000001")
    for unit, decimals, step in [("g", 4, 0), ("g", 4, 3), ("GN", 5, 1), ("oz", 7, 5)]:
        assert not allowed(unit, decimals, step)
        preset(unit, decimals, step, "1")


def preset_first_tie_cases():
    for unit in UNITS:
        presets(unit, 2, 1, "1.005 1.004999 9999999999")
        presets(unit, 2, 2, "1.01 1.009999 9999999999")
        presets(unit, 2, 5, "1.025 1.024999 9999999999")
        presets(unit, 0, 5, "2.5 2.499999 9999999999")


def preset_second_tie_cases():
    for unit, decimals, texts in [
        ("oz", 5, "4! 3.999995! 4.000004! 3.999994"),
        ("ozt", 5, "0.3125! 0.312495! 0.312504! 0.312494"),
        ("GN", 4, "50! 49.99995! 50.00004! 49.99994"),
        ("dwt", 4, "6.25! 6.24995! 6.25004! 6.24994"),
        ("lb", 5, "0.05! 0.049995! 0.050004! 0.049994"),
        ("mg", 3, "0.0005 0.000499"),
    ]:
        for text in texts.split():
            exact = preset_micrograms(unit, decimals, 1, text.rstrip("!"))
            assert (exact % 1 == Fraction(1, 2)) == text.endswith("!"), (unit, text)
            preset(unit, decimals, 1, text.rstrip("!"))


def tares(capacity, fine, unit, decimals, step, texts):
    for text in texts.split():
        tare(capacity, fine, unit, decimals, step, text)


def tare_request_cases():
    """Document 02, No. 7: profile A with a fine limit, and what TA answers."""
    capacity = 220_000_000
    for fine, text, answer in [
        (100_000_000, "100", "100.0000"),
        (100_000_000, "100.00004", "100.0000"),
        (100_000_000, "100.0004", "100.0000"),
        (100_000_000, "100.0005", "100.001 "),
        (100_000_000, "220.0004", "220.000 "),
        (100_000_000, "220.0005", None),
        (100_000_000, "99.99995", "100.0000"),
        (100_000_000, "50", "50.0000"),
        (capacity, "220.0004", None),
        (capacity, "220.00004", "220.0000"),
        (capacity, "100.0004", "100.0004"),
        # The typed number itself is compared, before any rounding.
        (100_000_050, "100.00005", "100.000 "),
        (100_000_050, "100.000051", "100.0000"),
        (capacity - 1, "219.999999", "220.000 "),
        (capacity - 1, "220.0004", "220.000 "),
        (capacity - 1, "219.99994", "219.9999"),
        # F 0: every number but 0 is above it.
        (0, "0", "0.0000"),
        (0, "0.000001", "0.0000"),
        (0, "0.0004", "0.0000"),
        (0, "0.0005", "0.001 "),
        (0, "1.", None),
    ]:
        case = capacity, fine, "g", 4, 1
        cells = None if answer is None else answer.rjust(WIDTH)
        exact = tare_micrograms(*case, text)
        assert tare_answer(*case, exact) == (" L" if cells is None else in_brackets(cells)), text
        tare(*case, text)
    # Ties of the coarse steps 20 and 50.
    tares(capacity, 100_000_000, "g", 4, 2, "100.000999 100.001")
    tares(capacity, 100_000_000, "g", 4, 5, "100.002499 100.0025")
    # No resolution of a profile.
    tares(capacity, 100_000_000, "g", 4, 3, "1 100.0005")


def tare_unit_cases():
    # An ounce is above F by an eighth of a microgram, and its stored tare is not.
    for fine in (28_349_522, 28_349_523, 28_349_524):
        tares(220_000_000, fine, "oz", 5, 1, "1.00000 1.00004 1.00005 0.99999")
    tares(LARGEST_CAPACITY, 453_592_370, "lb", 5, 1, "1 1.00004 1.00005 0.99999")
    tares(LARGEST_CAPACITY, 500_000_000, "kg", 6, 1, "0.5 0.500004 0.500005 1 1.000001")


def tare_large_cases():
    """No product passes 64 bits."""
    largest = "9999999999 9999.99999 999.999999"
    for unit in UNITS:
        tares(LARGEST_CAPACITY, 0, unit, 2, 1, largest + " 0.000001")
        tares(LARGEST_CAPACITY, LARGEST_CAPACITY - 1, unit, 2, 1, largest)
    # Either side of the largest number whose product with the unit has 63 bits.
    for unit, places in [("kg", 9_223_372), ("lb", 20_334_054)]:
        assert places * UNITS[unit] < 2**63 <= (places + 1) * UNITS[unit]
        for value in (places, places + 1):
            tare(LARGEST_CAPACITY, 0, unit, 5, 1, number_text(MOST_DECIMALS, value))


def lengths(decimals, coarse=False):
    """Either side of each place where the text gets longer."""
    written(decimals, 0, coarse)
    for power in range(1, 10):
        written(decimals, 10**power - 1, coarse)
        written(decimals, 10**power, coarse)


def written_cases():
    for decimals in range(MOST_DECIMALS + 2):
        lengths(decimals)
    for decimals, size in [
        (0, 10**10 - 1),
        (0, 10**10),
        (0, 2**63 - 1),
        (0, 2**63),
        (6, 2**63),
        (4, 142_560),
        (4, 1_234_567_890),
        (0, 1_000_000_001),
        (0, 9_000_000_000),
        (0, 9_080_706_054),
        (6, 908_070_605),
        (255, 1),
    ]:
        written(decimals, size)


def coarse_written_cases():
    for decimals in range(MOST_DECIMALS + 1):
        lengths(decimals, True)
    for decimals, size in [
        (1, 48_752),
        (3, 150_000),
        (5, 2**63 - 1),
        (5, 2**63),
        (7, 1),
        (255, 1),
    ]:
        written(decimals, size, True)


def coarse_read_cases():
    for text in [
        "4875.2", "150.000", "14.256", "0.0", "0.1", "-0.1", "-0.001",
        "0.00001", "-0.00001", "999.99999", "-99.99999", "9999999.9", "-999999.9",
    ]:
        assert read_field(text.rjust(WIDTH - 1) + " ") is not None, text
        read(text.rjust(WIDTH - 1) + " ")


def coarse_other_cases():
    for text in [
        "      150 ",
        "        0 ",
        " 99999999 ",
        "       -1 ",
        " 0.000001 ",
        "-0.000001 ",
        "   -0.000 ",
        "     -0.0 ",
        "     00.5 ",
        "     01.5 ",
        "       5. ",
        "       .5 ",
        "      -.5 ",
        "     1.5  ",
        "    1 5.0 ",
        "    +1.50 ",
        "      1,5 ",
        "    1.5.0 ",
        "     1.5 0",
        "    4875.2 ",
        "  4875.2 ",
    ]:
        assert read_field(text) is None, text
        read(text)


def read_cases():
    for text in [
        "0", "7", "-7",
        "9999999999", "-999999999", "1000000000",
        "0.0", "0.1", "-0.1",
        "14.2560", "-14.2560",
        "0.000001", "-0.000001",
        "999.999999", "-99.999999",
        "99999999.9", "-9999999.9",
    ]:
        assert read_field(text.rjust(WIDTH)) is not None, text
        read(text.rjust(WIDTH))


def other_cases():
    for text in [
        "",
        "          ",
        "  14.2560",
        "    14.2560",
        "  014.2560",
        "        00",
        "        01",
        "     00.10",
        "       -01",
        "    -0.000",
        "        -0",
        "         -",
        "         .",
        "        -.",
        "        1.",
        "        .5",
        "       -.5",
        " 0.1234567",
        "1.12345678",
        "     1.2.3",
        "     1..23",
        "   14. 256",
        "   1 4.256",
        "  - 14.256",
        "  --14.256",
        "   14.-256",
        "   14.256-",
        "   +14.256",
        "0000000014",
        "     14/25",
        "     14:25",
        "    \t14.25",
        "    14.25g",
    ]:
        assert read_field(text) is None, text
        read(text)


def expected():
    unit_cases()
    bench_cases()
    request_cases()
    manual_cases()
    range_cases()
    width_cases()
    resolution_cases()
    coarse_cases()
    coarse_width_cases()
    range_in_force_cases()
    fit_cases()
    tie_cases()
    typed_cases()
    typed_tie_cases()
    typed_large_cases()
    preset_bench_cases()
    preset_request_cases()
    preset_first_tie_cases()
    preset_second_tie_cases()
    tare_request_cases()
    tare_unit_cases()
    tare_large_cases()
    written_cases()
    read_cases()
    other_cases()
    coarse_written_cases()
    coarse_read_cases()
    coarse_other_cases()
    return "".join(line + "\n" for line in lines)


def check():
    want, have = expected(), EXPECTED.read_text("latin-1")
    for line in difflib.unified_diff(
        have.splitlines(),
        want.splitlines(),
        str(EXPECTED),
        "tests/weight_cases.py",
        lineterm="",
        n=0,
    ):
        print(line)
    if have != want:
        sys.exit("weight_cases: crates/weight_cases/stdout is not what the documents give")
    print(f"ok: the {len(lines)} lines of crates/weight_cases/stdout are what the documents give")


if __name__ == "__main__":
    if sys.argv[1:] == ["--check"]:
        check()
    elif not sys.argv[1:]:
        sys.stdout.buffer.write(expected().encode("latin-1"))
    else:
        sys.exit(__doc__)
