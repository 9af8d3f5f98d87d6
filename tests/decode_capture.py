"""The stored input of crates/decode: every form of answer line, forms damaged by one byte, and
what the manuals print.

    python3 tests/decode_capture.py > crates/decode/stdin

The functions stand in the order of document 01, with what document 02 adds beside it; `CAPTURE`, at
the end, is the order in which they write. docs/MANUAL-LINES.md says why the reader refuses some of
the manuals' lines.
"""
import sys

# ---- the pieces of a capture

capture = []


def raw(*pieces):
    capture.extend(pieces)


def lines(*answers):
    for answer in answers:
        raw(answer + "\r\n")


def weight(head, number, unit="g"):
    """The number right aligned in ten characters."""
    return f"{head} {number:>10} {unit}"


def coarse(head, number, unit="g"):
    """The number right aligned in nine characters, and a space as the tenth (No. 7)."""
    return f"{head} {number:>9}  {unit}"


# ---- "Commands carried"

LEVEL_0 = "I0 I1 I2 I3 I4 I5 S SI SIR Z ZI @".split()
LEVEL_1 = "D DW SR T TA TAC TI".split()
LEVEL_2 = ["M21"]
LEVELS = {**dict.fromkeys(LEVEL_0, 0), **dict.fromkeys(LEVEL_1, 1), **dict.fromkeys(LEVEL_2, 2)}

# ---- "The profile"

# With their codes in M21.
CODES = {"g": 0, "mg": 3, "ct": 5, "oz": 8, "ozt": 9, "GN": 10, "dwt": 11, "kg": 1, "lb": 7}
TEXT_LENGTHS = {"I2": 40, "I3": 40, "I4": 20, "I5": 20}


def texts():
    for name, most in TEXT_LENGTHS.items():
        # The lengths: none, one, the most and its neighbours.
        for size in (0, 1, most - 1, most, most + 1):
            lines(f'{name} A "{("0123456789" * 5)[:size]}"')
        # A quote in the text, and quotes that are missing.
        lines(f'{name} A "a"b"', f'{name} A """', f'{name} A "', f"{name} A ", f"{name} A a")
        # Something after the quotes, a space too many before them, another status.
        lines(f'{name} A "a" ', f'{name} A  "a"', f'{name} B "a"')
        # The bytes: 32 alone, 31, those at the ends of the range, CR and LF.
        lines(f'{name} A "  "', f'{name} A "\x1f"', f'{name} A " !#\x7f\x80\xff"')
        lines(f'{name} A "a\rb"', f'{name} A "a\nb"')


# ---- "Weights"

WEIGHT_HEADS = ["S S", "S D", "T S", "TI S", "TI D", "TA A"]


def weights_by_unit():
    # Every head with every unit; the units have 0 to 6 decimals in turn.
    for head in WEIGHT_HEADS:
        for place, unit in enumerate(CODES):
            lines(weight(head, f"{8:.{place % 7}f}", unit))


GOOD_NUMBERS = [
    # Zero, without a minus.
    "0", "0.0", "0.000000",
    # Below zero: good after S S and S D alone.
    "-0.000001", "-0.1", "-1",
    # Ten characters.
    "9999999999", "-999999999", "99999999.9", "999.999999", "-99.999999",
    # Zeros that are not leading ones.
    "10", "100000",
]
BAD_NUMBERS = [
    # A minus before zero.
    "-0", "-0.0",
    # Leading zeros.
    "00", "01", "00.1",
    # A point without digits on both sides.
    ".1", "1.", "-.1",
    # Signs.
    "--1", "+1",
    # Seven decimals.
    "1.0000000", "0.0000001",
    # Other characters, or good ones in the wrong place.
    "1,0", "1.0.0", "1 0", "- 1", "1-", "1.0  ", "0x1", "1e1",
    # Ten spaces.
    "",
]
BAD_UNITS = [
    # None of the nine, none at all, and with a space.
    "G", "t", "ug", "", " g", "g ",
    # In the other case.
    "mG", "gn", "Gn", "Kg", "KG", "LB",
    # A character more or less.
    "ctx", "o", "ozt ", "dwtt", "GNN", "k", "kgg", "lbs", "l",
]


def numbers():
    for number in GOOD_NUMBERS:
        for head in WEIGHT_HEADS:
            lines(weight(head, number))
    for number in BAD_NUMBERS:
        lines(weight("S S", number))


def bad_units():
    for unit in BAD_UNITS:
        lines(weight("S S", "1.0", unit))


def weight_spaces():
    # The number in eleven, ten and seven characters.
    lines("S S      1.0000 g", "S S      1.000 g", "S S   1.000 g")
    # A space too many before the status, the identification and the unit.
    lines("S  S     1.0000 g", " S S     1.0000 g", "S S     1.0000  g")
    # No space before the unit, and no unit.
    lines("S S     1.0000g", "S S     1.0000")


# ---- Document 02, No. 7: weights in the coarse range

GOOD_COARSE = [
    # One to five decimals, and nine characters.
    "0.0", "150.000", "4875.2", "0.00001", "9999999.9", "999.99999",
    # Below zero: good after S S and S D alone.
    "-0.001", "-0.1", "-999999.9", "-99.99999",
]
BAD_COARSE = [
    # No decimals, six, and seven.
    "0", "150", "99999999", "-1", "0.000001", "-0.000001", "0.0000001",
    # A minus before zero, leading zeros, points without digits, signs.
    "-0.000", "-0.0", "00.0", "01.5", ".5", "5.", "-.5", "+1.5", "--1.5",
    # Other characters, and nine spaces.
    "1,5", "1 5.0", "1.5 ", "1.5e1", "",
]


def coarse_numbers():
    for number in GOOD_COARSE:
        for head in WEIGHT_HEADS:
            lines(coarse(head, number))
    for number in BAD_COARSE:
        lines(coarse("S S", number))


def coarse_by_unit():
    # Every head with every unit; the units have 1 to 5 decimals in turn.
    for head in WEIGHT_HEADS:
        for place, unit in enumerate(CODES):
            lines(coarse(head, f"{8:.{1 + place % 5}f}", unit))
    for unit in BAD_UNITS:
        lines(coarse("S S", "1.0", unit))


def coarse_spaces():
    # The same number fine, coarse, with a space fewer, more and elsewhere, and with a zero for it.
    lines(weight("S S", "150.000"), coarse("S S", "150.000"))
    lines("S S   150.000 g", "S S    150.000  g", "S S  150.000   g", "S S  150.000  g")
    lines("S S   150.000   g", weight("S S", "150.0000"))
    # Ten characters before the space, and ten spaces.
    lines("S S 99999999.9  g", "S S -9999999.9  g", "S S            g")
    # Other heads.
    lines(coarse("S A", "1.5"), coarse("SI S", "1.5"), coarse("T D", "1.5"), coarse("ZI S", "1.5"))


# ---- "Receiving": the ends of lines


def odd_line_ends():
    # LF alone and CR alone, between two answers and before one.
    raw("Z A\nZ A\r\n", "Z A\rZ A\r\n", "\nZ A\r\n", "\rZ A\r\n")
    # A CR or an LF more before the end.
    raw("Z A\r\r\n", "Z A\n\r\n")
    # No answer at all.
    raw("\r\n\r\n", "\r\r\n", "\n\n\r\n")


def long_pieces():
    # Lengths about the longest answer, 64 and 128; a good line after each.
    for size in (47, 48, 49, 60, 61, 62, 63, 64, 65, 126, 127, 128, 200, 5000):
        lines("x" * size, 'I2 A "' + "y" * size + '"', "DW A")
    # A CR that ends nothing in the 63rd place, then 63, 64 and 65 bytes with CR LF.
    raw("z" * 62 + "\r", "z\r\n")
    lines("z" * 61, "z" * 62, "z" * 63)
    lines("TAC A")


def unfinished():
    # The last piece has no LF.
    raw("TAC A\r")


# ---- "Refusal numbers": the lines of the reader

STATUSES = "ABSDIL+-R"


def names_and_statuses():
    for name, level in LEVELS.items():
        # Each status alone.
        for status in STATUSES:
            lines(f"{name} {status}")
        # The name in I0's lines, at its own level and at the others.
        for status in "AB":
            for listed in (0, 1, 2):
                lines(f'I0 {status} {listed} "{name}"')
        # The name with a weight, with a text and with a number.
        lines(weight(name + " S", "1"), f'{name} A "x"', f"{name} A {level}")


def short_lines():
    # Names alone.
    lines("S", "ZI", "I0")
    # The errors with a character more or less, and others.
    lines("E", "ES ", " ES", "es", "EX", "ESL")
    # @ has no answer of its own; empty lines are none.
    lines("@ A", "", " ", "  ")


def near_sr():
    # SR's identification is S, and its level 1.
    lines("S L", "SR L", "SR I", "SR +", "SR A", "SRX I")
    lines(weight("SR S", "1.0"), weight("SR D", "1.0"))
    lines('I0 B 1 "SR"', 'I0 A 1 "SR"', 'I0 B 0 "SR"', 'I0 A 0 "SR"', 'I0 B 2 "SR"', 'I0 B 1 "SRU"')


def units_told():
    # Every number up to 30: the nine codes, and those that are none.
    for code in range(31):
        lines(f"M21 A 0 {code}")
    # Another display, another status, and none.
    for code in CODES.values():
        lines(f"M21 A 1 {code}", f"M21 B 0 {code}", f"M21 0 {code}")
    lines("M21 A 2 5", "M21 I 0 0", "M21 L 0 0", "M21 S 0 0", "M21 0 0")
    # Zeros and signs before a number; as much more as a byte or four hold.
    lines("M21 A 0 00", "M21 A 0 07", "M21 A 00 7", "M21 A 0 +7", "M21 A 0 -0", "M21 A 0 0.0")
    lines("M21 A 0 256", "M21 A 0 261", "M21 A 0 4294967296")
    # Something missing, more of it, spaces, other characters.
    lines("M21 A 0", "M21 A 0 ", "M21 A 7", "M21 A ", "M21", "M21 A 0 7 0", "M21 A 0 7x")
    lines("M21 A  0 7", "M21 A 0  7", "M21  A 0 7", "M21 A 0 7 ", " M21 A 0 7", "M21 A 07")
    lines("M21 A 0 x", "M21 A 0 g")
    lines('M21 A "0" 7', 'M21 A 0 "7"', "M21 A 0,7", "M21 A A 0 7")
    # Other names.
    lines("M2 A 0 7", "M211 A 0 7", "m21 A 0 7", "M20 A 0 7", "M22 A 0 7")
    lines("M2 A", "M211 A", "m21 A")


def bad_listings():
    # Status, name and level of I0's lines.
    lines('I0 C 0 "I0"')
    lines('I0 A 0 "i0"', 'I0 A 0 "I"', 'I0 A 0 "I00"', 'I0 A 0 ""')
    lines('I0 A 2 "S"', 'I0 A  "S"', 'I0 A 3 "M21"', 'I0 A 2 "M2"', 'I0 A 2 "M211"', 'I0 A 2 "m21"')
    # Their quotes, and a space after them.
    lines("I0 A 0 S", 'I0 A 0 "S', 'I0 A 0 S"', 'I0 A 0 "S" ')


# A line of each form.
FORMS = [
    weight("S S", "14.2561"),
    weight("S D", "-0.000001", "ozt"),
    weight("T S", "1.5", "dwt"),
    weight("TI S", "100", "ct"),
    weight("TI D", "0.25", "mg"),
    weight("TA A", "0", "GN"),
    weight("S S", "0.01", "kg"),
    weight("T S", "0.03", "lb"),
    coarse("S S", "150.000"),
    coarse("TA A", "0.5", "dwt"),
    "Z A", "TAC A", "D A", "DW A",
    "ZI S", "ZI D",
    "S +", "TI -", "TA L", "S L", "I3 I",
    "ES", "ET", "EL",
    'I0 B 0 "SIR"', 'I0 B 1 "SR"', 'I0 B 1 "TI"', 'I0 A 2 "M21"',
    "M21 A", "M21 I", "M21 L", "M21 A 0 0", "M21 A 0 11",
    'I1 A "0" "2.30" "2.20"',
    'I2 A "two words"', 'I5 A ""',
]


def other_byte(byte):
    return {"\r": "\n", "\n": "\r", " ": "_"}.get(byte, chr(ord(byte) ^ 1))


def damaged_forms():
    for form in FORMS:
        line = form + "\r\n"
        raw(line)
        for at, byte in enumerate(line):
            before, after = line[:at], line[at + 1:]
            # Changed, dropped and doubled.
            raw(before + other_byte(byte) + after, before + after, before + byte + byte + after)
            # A good line after a damaged end.
            if at >= len(form):
                lines("DW A")


# ---- "Proof each function owes": what the manuals print


def manual_003():
    # Weights, also in its own spacing, and the errors.
    lines(weight("S S", "0.256"), weight("S S", "4875.2"))
    lines("S S    4875.2 g", "S S    4875.2  g")
    lines("D A", "ES", "ET", "EL")
    # I0, with level 3, a letter O for the zero, and no quotes.
    lines('I0 B 0 "I0"', 'I0 B 0 "I1"', 'I0 B 0 "S"', 'I0 B 0 "Z"', 'I0 B 0 "@"')
    lines('I0 B 1 "D"', 'I0 B 1 "DW"')
    lines('I0 A 3 "I12"', 'IO B 0 "IO"', "I0 A 3 I12", "I0 I")
    # I1 to I5.
    lines('I1 A "01" "2.00" "2.00" "" ""', 'I1 A "0" "2.30" "2.20"', "I1 I")
    lines('I2 A "PR5002DR R-Standard 5100.90 g"', 'I2 A "AX204-Standard 220.0090 g"', "I2 I")
    lines('I3 A "1.05 1.1.1.17.7"', "I3 I")
    lines('I4 A "0123456789"', "I4 I")
    lines('I5 A "12345678A"', "I5 I")
    # S, SI and SIR.
    lines(weight("S S", "100.00"), "S I", "S +", "S -")
    lines(weight("S D", "129.07"), "S D 129.07 g")
    lines(weight("S D", "129.08"), weight("S S", "129.09"), weight("S S", "129.09"))
    lines(weight("S D", "114.87"))
    # Z, ZI and @.
    lines("Z A", "Z I", "Z +", "Z -")
    lines("ZI D", "ZI S", "ZI I", "ZI +", "ZI -")
    lines('I4 A "1114350697"')
    # D and DW.
    lines("D A", "D R", "D I", "D L")
    lines("DW A", "DW I")
    # SR.
    lines(weight("S S", "100.00"), weight("S D", "115.23"), weight("S S", "200.00"))
    lines("S I", "S L", "S +", "S -")
    # T, TA, TAC and TI.
    lines(weight("T S", "100.00"), "T I", "T +", "T -")
    lines(weight("TA A", "100.00"), "TA A 100.00 g", "TA I", "TA L")
    lines("TAC A", "TAC I")
    lines(weight("TI D", "117.57"), "TI I", "TI L", "TI +", "TI -")
    # M21, with the units of the display.
    lines("M21 A", "M21 I", "M21 L", "M21 B 0 0", "M21 B 1 3", "M21 A 2 5")
    # Others, with a command that is not carried.
    lines('I2 A "AX204 R Standard 220.0000 g"', "K A", "K C 5")
    lines(weight("T S", "70.0000"), "T S . . . . . 70.0000 g", weight("S S", "12.34", "lb"))


def manuals_000_and_004():
    # Weights and serial numbers, with fault lines and something after the unit.
    lines(weight("S S", "14.256"), "S S  Error 10b", "S S   Error 1t", 'I4 A "B021002593"')
    lines(weight("S S", "152.38"), "S D   1234.563 g 23", 'I4 A "B123456789"')
    # I1, I2, I3 and I5.
    lines('I1 A "0123" "2.00" "2.20" "1.00" "1.50"', 'I2 A "WMS404C-L WMS-Bridge 410.0090 g"')
    lines('I3 A "4.10 10.28.0.493.142"', 'I5 A "12121306C"')
    # Weights.
    lines(weight("S D", "103.04"), weight("S D", "123.34", "mg"))
    lines(weight("S S", "12.34"), weight("S S", "67.89"))
    lines(weight("S D", "115.23"), weight("S S", "200.00"), weight("S S", "123.456"))
    lines('I4 A "1234567890"')
    # A prefix before the identification, and a command that is not carried.
    lines("1 Z A", "- Z A", "? Z A", weight("1 S D", "129.0432"), "BS S    100.000 g", "PWR A")
    # A weighing with a tare; TA without a status.
    lines(weight("S S", "105.0000"), weight("T S", "175.0000"))
    lines("TA 70.0000 g", weight("TA A", "70.0000"))


# ---- the capture

CAPTURE = [
    manual_003,
    manuals_000_and_004,
    weights_by_unit,
    numbers,
    bad_units,
    weight_spaces,
    coarse_numbers,
    coarse_by_unit,
    coarse_spaces,
    names_and_statuses,
    short_lines,
    near_sr,
    units_told,
    bad_listings,
    texts,
    damaged_forms,
    odd_line_ends,
    long_pieces,
    unfinished,
]


def main():
    for write_part in CAPTURE:
        write_part()
    sys.stdout.buffer.write("".join(capture).encode("latin-1"))


if __name__ == "__main__":
    main()
