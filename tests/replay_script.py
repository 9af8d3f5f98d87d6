"""The stored script of crates/replay: every rule of document 01 once, and document 02's requests.

    python3 tests/replay_script.py > crates/replay/stdin

The functions stand in the order of document 01, and those of document 02 after them, one for each
part of the script; `SCRIPT`, at the end, is the order in which they are played. The comment that
heads a part of the script is the first line of its function. A part with no power-on goes on from
the state of the part before it.
"""
import sys
from typing import NamedTuple

# ---- the lines of a script

script = []


def play(*lines):
    for line in lines:
        script.extend(settings(line) if isinstance(line, Profile) else [line])


def watch(*lines):
    """Each line, and the state that it leaves."""
    for line in lines:
        play(line, "state")


def part(comment):
    """The part before ends with the state that it leaves."""
    play("state", "", "# " + comment)


def in_hex(chars):
    return " ".join(f"{byte:02X}" for byte in chars.encode("latin-1"))


def good(chars):
    return "b " + in_hex(chars)


def faulty(chars):
    return "f " + in_hex(chars)


CR = good("\r")
LF = good("\n")
END = good("\r\n")


def whole(chars, *faulty_places, word="w"):
    """A whole-buffer call, with faulty bytes at these places."""
    marked = (f"{byte:02X}" + "!" * (place in faulty_places)
              for place, byte in enumerate(chars.encode("latin-1")))
    return " ".join((word, *marked))


# The units, with their codes in M21.
CODES = {"g": 0, "mg": 3, "ct": 5, "oz": 8, "ozt": 9, "GN": 10, "dwt": 11, "kg": 1, "lb": 7}
UNITS = list(CODES)


class Profile(NamedTuple):
    """A profile, and the unit that a part wants in force."""
    numbers: list
    places: dict
    unit: str


def profile(c=220_000_000, u=1_000_000, r=4_400_000, w=3, unit="g", d=None, k=None, f=None,
            **others):
    """Profile A, but for the values that are given; others are decimals and step of a unit.

    The line `profile` sets the fine limit to C; one that is given has a line of its own.
    """
    places = {name: (4 if name == "g" else 2, 1) for name in UNITS}
    places.update(others)
    decimals, step = places[unit]
    places[unit] = (decimals if d is None else d, step if k is None else k)
    numbers = [f"profile {c} {u} {r} {w}"] + ([] if f is None else [f"fine {f}"])
    return Profile(numbers, places, unit)


PROFILE_A = profile()

# The decimals and the step of each unit, as the script has set them so far.
standing = dict(PROFILE_A.places)


def settings(given):
    """The lines of the numbers, and a line for each unit that is not as it stands."""
    changed = {unit: row for unit, row in given.places.items() if row != standing[unit]}
    standing.update(changed)
    return [*given.numbers, *(f"unit {unit} {d} {k}" for unit, (d, k) in changed.items())]


def small(c=1000, u=0, r=0, **others):
    """The profile of C 1000, U 0 and R 0, but for the values that are given."""
    return profile(c, u, r, **others)


def text(number, value):
    """The text of I2 to I5."""
    return f"text {number} {value}"


def switch_on(given):
    """With g in force, as a power-on leaves it: every unit of a profile counts."""
    play(given, "on")


def set_unit(unit):
    return f"> M21 0 {CODES[unit]}"


def power_on(given=PROFILE_A, *texts):
    """And the unit that is wanted."""
    play(given, *texts, "on")
    if given.unit != "g":
        play(set_unit(given.unit))


# ---- "Commands carried"

NAMES = "I0 I1 I2 I3 I4 I5 S SI SIR Z ZI @ D DW SR T TA TAC TI M21".split()
WITH_PARAMETERS = ("D", "TA", "SR", "M21")
WAITING = ("S", "T", "Z", "SR")


def near_names():
    part("Each name with a letter more and less, before and after, and in small letters.")
    power_on()
    play("s 1000")
    for name in NAMES:
        if len(name) > 1:
            play("> " + name[:-1], "> " + name[1:])
        play(f"> {name}X", f"> X{name}", f"> {name}{name[-1]}")
        if name.lower() != name:
            play("> " + name.lower())


# ---- "The profile"


def capacity_limits():
    part("Each line of the profile at its limit and broken alone. "
         "C: 0, 1, 1,000,000,000 and one more.")
    # mg: with 2 decimals it has no room for the largest capacity.
    for c in (0, 1, 1_000_000_000, 1_000_000_001):
        switch_on(small(c=c, mg=(0, 1)))
    # The most that 32 bits hold.
    switch_on(small(c=4_294_967_295, d=0, mg=(0, 1)))


def margin_and_range_limits():
    part("U and R: C, and one more.")
    for u in (1000, 1001, 4_294_967_295):
        switch_on(small(u=u))
    for r in (1000, 1001, 4_294_967_295):
        switch_on(small(r=r))


def patience_limits():
    part("W: 0, 1, 1000, 1001.")
    for w in (0, 1, 1000, 1001, 4_294_967_295):
        switch_on(small(w=w))


def decimals_and_step_limits():
    part("Decimals: 0, 6, 7, 255. Step: 0, 1, 2, 3, 4, 5, 6, 10, 255.")
    # oz: its step is a microgram or more with 7 decimals too.
    for d in (0, 6, 7, 255):
        switch_on(small(unit="oz", d=d))
    for k in (0, 1, 2, 3, 4, 5, 6, 10, 255):
        switch_on(small(k=k))


FINEST = [
    ("g", 6, 1),
    ("mg", 3, 1), ("mg", 3, 2), ("mg", 3, 5),
    ("ct", 5, 1), ("ct", 5, 2), ("ct", 6, 5),
    ("oz", 6, 1),
    ("ozt", 6, 1),
    ("GN", 4, 1), ("GN", 5, 2), ("GN", 5, 5),
    ("dwt", 6, 1),
    ("kg", 6, 1),
    ("lb", 6, 1),
]
TOO_FINE = [
    ("g", 7, 5),
    ("mg", 4, 1), ("mg", 4, 2), ("mg", 4, 5),
    ("ct", 6, 1), ("ct", 6, 2),
    ("GN", 5, 1), ("GN", 6, 5),
    ("kg", 7, 1), ("lb", 7, 1),
]


def finest_steps():
    part("The step is a microgram or more: each unit with as many decimals as it can have, "
         "and one more.")
    for unit, d, k in FINEST:
        power_on(small(unit=unit, d=d, k=k))
        play("s 1000", "> S")
    for unit, d, k in TOO_FINE:
        switch_on(small(unit=unit, d=d, k=k))


def wide(**values):
    """With a mg that has room for every net, unless it is the unit that counts."""
    return small(**{"mg": (0, 1), **values})


def widest_nets():
    part("Every net fits ten characters: the highest, and the lowest with U.")
    # C alone: the lowest net is -C, and its minus takes a place.
    switch_on(wide(c=999_999_999, d=6))
    switch_on(wide(c=999_999_499, d=5))
    switch_on(wide(c=1_000_000_000, d=5))
    switch_on(wide(c=1_000_000_000, d=6))
    switch_on(wide(c=99_999_999, d=6))
    switch_on(wide(c=100_000_000, d=6))
    # U and C together, the last that fit and one more; with 5 decimals the rounding decides.
    switch_on(wide(c=50_000_000, u=49_999_999, d=6))
    switch_on(wide(c=50_000_000, u=50_000_000, d=6))
    switch_on(wide(c=500_000_000, u=499_999_994, d=5))
    switch_on(wide(c=500_000_000, u=499_999_995, d=5))
    # mg, with and without decimals.
    switch_on(wide(c=1_000_000_000, u=1_000_000_000, mg=(0, 1)))
    switch_on(wide(c=1_000_000_000, mg=(2, 1)))
    switch_on(wide(c=99_999_994, mg=(2, 1)))


def printed_ends():
    part("At both ends the weight is printed whole.")
    power_on(small(c=50_000_000, u=49_999_999, d=6))
    play("s 50000000", "> S")
    # The tare is C, the gross -U.
    play("> T", "s -49999999", "> S")


def text_lengths():
    part("Texts at their lengths: none, the most, and one more, which the script refuses.")
    for number, most in ((2, 40), (3, 40), (4, 20), (5, 20)):
        full = "abcdefghij" * (most // 10)
        for value in ("", full, full + "k", " two  spaces "):
            play(text(number, value), f"> I{number}")


def text_bytes():
    part("A byte below 32 or a quote in any text is a broken profile: 31, CR, 34. "
         "32, 33, 35, 127, 128 and 255 are not.")
    for number in (2, 3, 4, 5):
        play(text(number, "a\x1fb"), "on", f"> I{number}")
        play(text(number, "\r"), "on")
        play(text(number, '"'), "on")
        play(text(number, " !#\x7f\x80\xff"), "on", f"> I{number}")
    # Back to profile A's texts.
    play(text(2, ""), text(3, ""), text(4, "VA-0001"), text(5, ""))


# ---- "Weights"


def exact_weights():
    part("Zero and tare to the microgram, and the sample, "
         "which answers show only to a display step.")
    power_on()
    # T, Z, TI and ZI, with loads that the answers round.
    watch("s 49", "> T", "> TAC", "s -49", "> Z", "u 51", "> TI", "> ZI")
    # Zero at both ends of its range.
    watch("s 4400000", "> ZI", "s -4400000", "> Z")
    # Gross is load - zero.
    watch("s 0", "> T", "> @")
    # A typed tare, which is rounded to the display step: one microgram, six decimals, C, above C.
    watch("> TA 0.000001 g", "> TA 123.456789 g", "> TA 220.000001 g", "> TA 220.00005 g", "> TA")
    watch("> @")
    # The ends of 32 bits.
    watch("s 2147483647", "u -2147483648")
    # Typed in mg: half a microgram is rounded up, less is not.
    power_on(profile(c=99_999_999, u=0, unit="mg", d=3))
    watch("> TA 0.0005 mg", "> TA 0.000499 mg", "> TA 1.001500 mg", "> TA 1.001499 mg", "> TAC")
    # Typed in oz, which is no whole number of micrograms.
    power_on(profile(unit="oz", d=5))
    watch("> TA 0.000001 oz", "> TA 0.00003 oz", "> TA 0.01 oz", "> TA 7.5 oz")
    watch("s 28349523", "> T")


# ---- "Receiving"


def odd_line_ends():
    part("CR and LF in odd places: LF alone, CR alone, CR CR LF, CR x LF, LF CR LF, "
         "a line of CR LF only, twice.")
    power_on()
    play(good("DW\nDW\r\n"), good("DW\rDW\r\n"), good("DW\r\r\n"))
    play(good("DW\rx\n\r\n"), good("DW\n\r\n"))
    # Empty lines.
    play(END, good("\r\n\r\n"))
    # LF and CR at the head of a line.
    play(good("\nDW\r\n"), good("\rDW\r\n"))
    # The LF on a line of its own.
    play(good("DW\r\nDW\r\nDW\r"), LF)
    # A CR more, in the script's own form for a line.
    play("> DW\r", "> \r", "> \rDW")


def lines_in_pieces():
    part("Two commands in one line of the script, and one in pieces.")
    play(good("DW\r\nTAC\r\n"))
    play(good("T"), good("AC"), CR, LF)
    play(good("T"), "> AC")


def long_lines():
    part("Lines of 63, 64, 65 and 200 bytes: "
         "a name with spaces, TA with digits, a shown text, letters.")
    power_on()
    for size in (63, 64, 65, 200):
        play("> " + "S".ljust(size))
        play("> TA " + "1" * (size - 5) + " g")
        play('> D "' + "x" * (size - 4) + '"')
        play("> " + "S" * size)
        # What was dropped is not left over for the next line.
        play("> DW")


def cr_past_the_longest():
    part("A CR in the 65th and the 66th place, LF not after it; and after 64 bytes CR LF.")
    play(good("S" * 64 + "\rX\r\n"), good("S" * 65 + "\rX\r\n"))
    # 64 bytes and a good end: EL. With a CR more: too long.
    longest = "S".ljust(64)
    play(good(longest + "\r\n"), good(longest + "\r\r\n"))


def faulty_in_each_place():
    part("A faulty byte in each place of DW CR LF, each with its good neighbours; "
         "a line ends only at a good CR with a good LF.")
    line = "DW\r\n"
    for at in range(len(line)):
        before, after = line[:at], line[at + 1:]
        if before:
            play(good(before))
        play(faulty(line[at]))
        if after:
            play(good(after))
        play(END)


def faulty_in_long_lines():
    part("Faulty in the 64th, 65th, 66th and 200th place of a line of 210 bytes, "
         "and in the CR and the LF after 64.")
    # A faulty byte counts where bytes are dropped, too.
    for at in (63, 64, 65, 199):
        play(good("S" * at), faulty("S"), good("S" * (209 - at) + "\r\n"))
    play(good("S" * 64), faulty("\r"), good("\n\r\n"))
    play(good("S" * 64 + "\r"), faulty("\n"), END)


def faulty_throughout():
    part("Every byte of a line faulty, CR and LF too: the line goes on. "
         "The next one is good again.")
    play(faulty("DW\r\n"), END)
    play("> DW")


def line_on_its_way():
    part("The line on its way: its bytes, a CR that may end it, a faulty byte, "
         "and more than 64 bytes.")
    power_on()
    # A CR ends the line only with the LF at once after it.
    watch(good("D"), good("W"), CR, LF)
    watch(good("D\r"), CR, good("W"), END)
    watch(LF, CR, LF)
    # A faulty byte, and a faulty CR and LF, which end nothing.
    watch(good("D"), faulty("W"), CR, LF)
    watch(faulty("\r"), LF, CR, faulty("\n"), CR, LF)
    # 64 bytes fit, the 65th is dropped.
    watch(good("S" * 63), good("S"), CR, LF)
    watch(good("S" * 64), good("S"), good("S"), CR, LF)
    # After 64 bytes a CR that does not end the line is a byte too many.
    watch(good("S" * 64), CR, CR, LF)
    watch(good("S" * 64), CR, good("S"), CR, LF)
    # After 64 bytes a faulty byte, CR or LF still counts.
    watch(good("S" * 64), faulty("S"), good("S"), CR, LF)
    watch(good("S" * 64), faulty("\r"), LF, CR, faulty("\n"), CR, LF)
    watch(faulty("S" * 65), good("S"), CR, faulty("\r"), END)
    # Bytes below 32 are held like others.
    watch(good("\x01\x00\x1f"), END)
    # A power-on empties the line, its marks and its CR.
    watch(good("DW"), "on", END)
    watch(faulty("D"), CR, "on", LF, END)


def order_1_faulty():
    part("Order 1: a faulty byte goes before everything else, also before a reset.")
    power_on()
    # Before row 4.
    watch(faulty("@"), END)
    # Before row 2.
    watch(good("Q"), faulty("Q"), END)
    # Before row 3.
    watch(good("S 1"), faulty("1"), END)


def order_2_no_name():
    part("Order 2: a byte below 32, or no name, goes before what follows the name.")
    # No name, alone and with something after it.
    play("> ", "> s", "> Q", "> Q 1", "> SIX", "> SIX 1", "> S1", '> "S"')
    # Below 32 after a name that takes no parameters, and in the parameters of D, TA and SR.
    play("> S\t", '> D "a\tb"', "> TA 1 g\r", "> SR 1 g\t")
    play(good("S\x1f\r\n"), good("S\x00\r\n"))
    # Bytes of 32 and more that make it no name.
    play(good(" S\r\n"), good("S\x7f\r\n"), good("\xff\r\n"))


def order_3_after_the_name():
    part("Order 3: anything after a name that takes no parameters; one space is enough.")
    for name in NAMES:
        if name not in WITH_PARAMETERS:
            watch(f"> {name} ", f"> {name} 1")
    play("> S  ", "> SI SI", "> TAC 1 g", "> @ @")


def order_4_reset():
    part("Order 4: a reset, also while a command waits; its wait ends unanswered.")
    watch("> T", "> @", "s 5000", "> TA")


def order_5_waiting():
    part("Order 5: while a command waits, every name but @ answers I, with wrong parameters too. "
         "Rows 1 to 3 go before.")
    power_on()
    play("> S")
    for name in NAMES:
        if name != "@":
            watch("> " + name)
    # Good and wrong parameters.
    play('> D "a"', "> D a", "> TA 1 g", "> TA x", "> SR 1 g", "> SR x", "> SR ")
    play("> M21 0 5", "> M21 0 2", "> M21 x", "> M21 ")
    # Rows 2, 3, 1 and 2.
    play("> Q", "> S 1", faulty("Q"), END, "> ")
    # S waits still.
    play("s 20000", "> SI")


def order_6_wrong_parameters():
    part("Order 6: wrong parameters, with no sample yet.")
    power_on()
    # D: none, or not in quotes.
    play("> D", "> D ", "> D a", '> D "', '> D "a', '> D a"')
    # D: something around the quotes, or a quote within them.
    play('> D "a" ', '> D  "a"', '> D "a"b"', '> D "a" "b"')
    # D: 21 bytes; a quote as the text; its own answer.
    play('> D "123456789012345678901"', '> D """', "> D A")
    # TA: a number and a unit, a single space before each.
    play("> TA ", "> TA 1", "> TA 1 ", "> TA  1 g", "> TA 1  g", "> TA 1 g ", "> TA g")
    # TA: the unit is the one in force.
    play("> TA 1 kg", "> TA 1 mg", "> TA 1 G", "> TA 1g")
    # TA: at most one point, with digits on both sides.
    play("> TA . g", "> TA .5 g", "> TA 5. g", "> TA 1..2 g", "> TA 1.2.3 g")
    # TA: digits alone.
    play("> TA +1 g", "> TA -1 g", "> TA 1e1 g", "> TA 1,5 g")
    # TA: 7 decimals; 11 characters; above C by a display step, and by far.
    play("> TA 0.0000001 g", "> TA 00000000001 g", "> TA 220.00005 g", "> TA 9999999999 g")


def order_7_no_sample():
    part("Order 7: SI, SIR, TI and ZI with no sample since power-on; "
         "a sample before the power-on is none.")
    play("> SI", "> SIR", "> TI", "> ZI")
    play("s 1", "> SI", "on")
    play("> SI", "> SIR", "> TI", "> ZI")


def order_8_own_rules():
    part("Order 8: the commands' own rules, with nothing waiting.")
    power_on()
    play("s 30000")
    for name in NAMES:
        watch("> " + name)
    # D: no bytes, the most, and bytes of 128 and more.
    play('> D ""', '> D "12345678901234567890"', '> D "\xff\x80 !"', "> DW")
    # TA: zero, ten characters, C.
    play("> TA 0 g", "> TA 0000000000 g", "> TA 220 g")
    # TA: a microgram, both sides of half a display step, and six decimals.
    play("> TA 0.000001 g", "> TA 0.000049 g", "> TA 0.00005 g", "> TA 123.456789 g")
    play("> TAC", "> TA")


# ---- "What each command does"


def waits():
    part("Waits: S, T, Z and SR each granted by the second sample, and each out of patience; "
         "the sample before the command does not count.")
    for name in WAITING:
        power_on()
        # Granted.
        play("u 1000", "> " + name, "u 2000", "s 3000")
        # Out of patience.
        play("s 4000", "u 1000", "> " + name, "u 2000", "u 3000", "u 4000")
        # Nothing waits any more, and the last wait stored nothing.
        play("s 5000", "> SI")


def waits_out_of_range():
    part("A wait judged + or - ends too, and stores nothing.")
    power_on()
    # T, Z and S, each by + and by -; the unstable sample lets the next command wait.
    play("> T", "s -1", "u 1")
    play("> T", "s 220000001", "u 1")
    play("> Z", "s 4400001", "u 1")
    play("> Z", "s -4400001", "u 1")
    play("> S", "s 220000001", "u 1")
    play("> S", "s -1000001")
    # Tare and zero are 0.
    play("> TA", "s 5000", "> SI")


def patience():
    part("W 1 and W 1000.")
    # The first unstable sample ends the wait, a stable one is judged.
    power_on(profile(w=1))
    play("> S", "u 1", "> S", "s 1", "u 1", "> S", "u 1")
    # Four unstable samples do not end it.
    power_on(profile(w=1000))
    play("> T", "u 7", "u 8", "u 9", "u 10", "s 11")


def repetition():
    part("Repetition: each sample is answered; S and SI end it, other commands do not; "
         "a waiting command is answered alone.")
    power_on()
    # S S, S D, S + and S -.
    play("s 1000", "> SIR", "s 2000", "u 3000", "s 220000001", "u -1000001")
    # DW and TA do not end it; SI does.
    play("> DW", "s 4000", "> TA 0.001 g", "s 4000", "> SI", "s 5000")
    # T waits: its answer alone, then the repetition again. Z too does not end it; S does.
    play("> SIR", "u 6000", "> T", "u 7000", "s 8000", "s 9000")
    play("> Z", "s 9000", "> S", "s 9000", "s 9000")
    # ES and EL do not end it; @ does.
    play("> SIR", "u 1", "> Q", "> S 1", "u 1", "> @", "u 1")
    # Begun by +.
    play("s 220000001", "> SIR", "s 1000", "> S", "s 1000")


def whether_it_repeats():
    part("Whether SIR repeats: begun by its own answer, also by + and -, not by I or EL;")
    play("# ended by S, SI, @ and a power-on, not by others.")
    power_on()
    # Not begun by I, with no sample, or by EL.
    watch("> SIR", "s 1000", "> SIR 1")
    # Ended by S, SI, @ and a power-on.
    watch("> SIR", "s 2000", "> S")
    watch("> SIR", "> SI")
    watch("> SIR", "> @")
    watch("> SIR", "on")
    # Begun by +, and asked again at -.
    watch("s 220000001", "> SIR", "s -1000001", "> SIR", "> SI")
    # Not begun by I, while T waits.
    watch("u 1000", "> T", "> SIR", "u 2000", "s 3000")
    # Not ended by S and SI while T waits, or by other commands.
    watch("> SIR", "u 3000", "> T", "> S", "> SI", "u 4000", "s 5000")
    watch("> Q", "> DW", "> TAC", "> Z")
    # Not ended by a wait that ends in I.
    watch("u 3000", "> Z", "u 4000", "u 5000", "u 6000", "u 7000")
    # Ended by an S that waits.
    watch("> S", "u 8000", "> @")


def zeroing_drops_the_tare():
    part("Zeroing drops the tare; what is refused keeps it.")
    power_on()
    # Refused by +.
    play("s 5000", "> T", "s 4400001", "> Z", "> ZI", "> TA")
    # Granted, by a stable and by an unstable sample.
    play("s 6000", "> ZI", "> TA", "> SI")
    play("u 7000", "> TI", "> ZI", "> TA")


def display():
    part("The display: D shows its text, DW and @ and a power-on bring the weight back.")
    power_on()
    watch('> D "HALLO"', "> DW")
    watch('> D "HALLO"', "> @")
    watch('> D "HALLO"', "on", "> DW")
    # No bytes, one, the most, and the ends of the bytes that D takes.
    watch('> D ""', '> D "x"', '> D "12345678901234567890"', '> D "\xff\x80 !#\x7f "', "> @")


def display_kept():
    part("The display stays as it is when D or DW is refused, by every error, "
         "and by every other command and its +, - and I.")
    power_on()
    watch('> D "TEXT 1"')
    # D L.
    watch('> D "123456789012345678901"', "> D TEXT", "> D", '> D "', '> D "a"b"')
    # EL, ES and ET.
    watch("> DW 1", "> DW ", "> dw", "> @ ", "> Q", "> ")
    watch(faulty("D"), good("W\r\n"), '> D "a\tb"')
    # I with no sample, and TA L.
    watch("> SI", "> SIR", "> TI", "> ZI", "> TA x")
    # + and -.
    for load in (220_000_001, -4_400_001):
        watch(f"s {load}", "> S", "> SI", "> T", "> TI", "> Z", "> ZI")
    # Every name but the two that bring the weight back.
    play("s 30000")
    for name in NAMES:
        if name not in ("@", "DW"):
            watch("> " + name)


def display_while_waiting():
    part("The display while a command waits: D and DW answer I and show nothing, "
         "and the wait's end leaves the text, by a judgement")
    play("# and by I. The count is of the samples of this wait alone: "
         "it starts anew after an I, a judgement and a reset.")
    for name in WAITING:
        power_on()
        watch('> D "TEXT"', "u 1000", "> " + name)
        # I, also for a wrong D and for the waiting command itself.
        watch("> DW", '> D "OTHER"', "> D x", "> " + name)
        # The third unstable sample is I; a line between does not count.
        watch("u 2000", "> Q", "u 3000", "u 4000")
        # Anew after I, and judged.
        watch("> " + name, "u 5000", "s 6000")
        # Anew after the judgement and after a reset.
        watch("u 1000", "> " + name, "u 2000", "u 3000", "> @", "> " + name, "u 4000", "on")


def reset_keeps():
    part("A reset keeps zero and latest sample, and drops tare and text.")
    power_on()
    play("s 1000", "> Z", "s 5000", "> T", '> D "x"', "> @")
    play("> SI", "> TA", "s 1000", "> SI")


# ---- "Refusal numbers"

BROKEN = profile(c=0, u=0, r=0, w=0, d=9, k=9)


def refusal_1():
    part("Refusal 1: a broken profile with the next call, whatever the state; "
         "mended, all is as before.")
    power_on()
    play("s 5000", "> T")
    play(BROKEN, "s 1", "u 1", good("S"), faulty("S"), "on", "> DW")
    play(PROFILE_A, "> TA", "> DW")


def refusals_in_order():
    part("Refusal 1 goes before 2 and 3, and 2 before 3.")
    play("s 5000", "> Z", "room 0")
    # 1 with 2 and 3; 2 with 3; 3 alone.
    play(profile(c=0, u=0, r=0), "> DW")
    play(profile(r=4999), "> DW")
    play(PROFILE_A, "> DW")
    play("room 384", LF)


def refusal_2():
    part("Refusal 2: zero above R and below -R; tare above C; waiting with W samples counted. "
         "Power-on does not look at them.")
    # Zero at R and above it, at -R and below it.
    power_on()
    play("s 5000", "> Z", profile(r=5000), "> DW", profile(r=4999), "> DW", "s 1")
    play(PROFILE_A)
    play("s -5000", "> Z", profile(r=5000), "> DW", profile(r=4999), "> DW", "on", "> DW")
    # Tare at C and above it.
    power_on()
    play("s 5000", "> T", small(c=5000), "> TA", small(c=4999), "> TA", PROFILE_A, "> TA")
    # Two samples counted, W 2 and W 1.
    power_on()
    play("> S", "u 1", "u 2", profile(w=2), "u 3", "> DW", profile(w=1), "s 3")
    play(PROFILE_A, "> DW", "u 3")


ANSWER_SIZES = [
    ("DW", 6), ("TAC", 7),
    ("SI", 18), ("SR", 18), ("TA", 19), ("TI", 19),
    ("I4", 16), ("@", 16), ("I0", 258), ("I1", 24), ("I2", 9),
    ("Q", 4), ("S 1", 4),
    ("Z", 5), ("ZI", 6),
    ("D", 5), ("SR x", 5),
    ("M21", 11), ("M21 0 0", 7), ("M21 x", 7),
]


def refusal_3():
    part("Refusal 3: every answer in a room one too short, then in its own; "
         "the byte or the sample is not taken.")
    power_on()
    play("s 1000")
    for name, size in ANSWER_SIZES:
        play(f"room {size - 1}", "> " + name, f"room {size}", LF)
    # A power-on.
    play("room 15", "on", "room 16", "on")
    # A sample with no answer due needs no room.
    play("room 0", "s 4", "u 5", "room 4096", "> SI")
    # The sample that ends a wait.
    play("> S", "room 17", "s 1000", "room 18", "s 1000")
    # The LF of SIR, each sample of the repetition, and the LF of S.
    play("room 4", "> SIR", "room 384", LF)
    play("room 17", "s 2000", "u 3000", "room 18", "s 2000")
    play("room 4", "> S", "room 384", LF)


def no_room():
    part("In a room of 0 a line is received up to its CR.")
    play("room 0", good("DW\r"), LF, LF)
    play("room 6", LF, "room 384")


def refused_takes_nothing():
    part("A refused call takes nothing: by 3, by 1, by 2, and a refused power-on.")
    # A text, a zero, a tare, a repetition and a line that could be lost.
    power_on()
    watch('> D "TEXT"', "s 5000", "> Z", "s 7000", "> T", "> SIR", good("D"))
    # By 3: samples, and the LF.
    watch("room 17", "s 1", "u 2", "room 0", good("W\r"), LF, "room 384")
    # By 1: every call.
    watch(BROKEN, LF, faulty("\n"), "s 1", "on")
    # By 2: the zero is above R; then the tare is above C as well.
    watch(profile(r=4999), LF, "s 1")
    watch(profile(c=1999, u=1000, r=1999), LF, "u 1")
    # A power-on by 3; the line then ends, and the repetition goes on.
    play(PROFILE_A)
    watch("room 15", "on", "room 384", LF, "u 8000")
    # The last sample of a wait: by 3, by 2, then taken.
    watch("> S", "u 1", "u 2", "room 0", "u 3", "s 4", "room 384")
    watch(profile(w=2), "u 3", "> @")
    play(PROFILE_A)
    watch("u 3", "on")


def before_power_on():
    part("Before a power-on is granted every call and `state` is `?`, "
         "and a refused one leaves it so.")
    # Every other call.
    watch("> S", "> ", good("S"), faulty("S"), "s 1", "u 1")
    watch(whole("S"), whole("S", 0), "w", "w+", whole("S", word="w-"))
    # A power-on's answer has 16 bytes.
    watch("room 15", "on", "> S", whole("S"))
    watch("room 16", "on", "> S")
    # No line of the script's.
    watch("@ on")
    watch("room 384")


# ---- "Proof each function owes": what the manuals print


def manual():
    part("What the manual 003 prints for these commands.")
    # S, SI and SIR.
    power_on(profile(d=2))
    play("s 100000000", "> S")
    play("u 129070000", "> SI")
    play("u 129070000", "> SIR", "u 129080000", "s 129090000", "s 129090000", "u 114870000", "> SI")
    # T, TAC, TA and TI.
    power_on(profile(d=2))
    play("s 100000000", "> T", "> TAC", "> TA 100.00 g", "> TA", "u 117570000", "> TI")
    # A weight with three decimals.
    power_on(profile(d=3))
    play("s 256000", "> S")
    # Z and ZI, D and DW.
    power_on()
    play("s 1", "> Z", "> ZI", "u 2", "> ZI")
    play('> D "Hallo"', '> D "HALLO"', '> D " "', '> D ""', "> DW")
    # Texts before and after a tare.
    power_on()
    play('> D "BEAKER"', "s 70000000", "> T", '> D "C1 100g"')
    # I0 to I5 and @.
    power_on(
        PROFILE_A,
        text(2, "AX204-Standard 220.0090 g"),
        text(3, "1.05 1.1.1.17.7"),
        text(4, "1114350697"),
        text(5, "12345678A"),
    )
    play("> I2", "> I3", "> I4", "> I5", "> @", "> I1", "> I0")
    play(text(2, "PR5002DR R-Standard 5100.90 g"), "> I2")
    play(text(4, "0123456789"), "on", "> I4")


# ---- "Bench cases"


def bench_rounding():
    part("Bench cases: rounding.")
    power_on()
    play("s 14256049", "> S", "s 14256050", "> S")
    play("s -49", "> S", "s -50", "> S")
    power_on(profile(k=5))
    play("s 249", "> S", "s 250", "> S")
    play("s -249", "> S", "s -250", "> S")
    power_on(profile(unit="ct", d=3))
    play("s 99", "> S", "s 100", "> S")
    power_on(profile(unit="oz", d=5))
    play("s 28349523", "> S")


def bench_capacity():
    part("Bench cases: capacity and underload.")
    power_on()
    play("s 220000000", "> S", "s 220000001", "> S")
    play("s -1000000", "> S", "s -1000001", "> S")
    # The ends of 32 bits.
    play("s 2147483647", "> S", "s -2147483648", "> S")


def bench_zero_and_tare():
    part("Bench cases: zeroing and taring.")
    # Z and ZI at the ends of R.
    power_on()
    play("s 4400000", "> Z", "s 4400001", "> Z", "> ZI")
    play("s -4400000", "> Z", "s -4400001", "> Z", "> ZI")
    # T and TI below 0 and above C; at C and at 0.
    power_on()
    play("s -1", "> T", "> TI", "s 220000001", "> T", "> TI")
    play("s 220000000", "> T", "s 0", "> T")
    # The microgram tare is subtracted, not the printed one.
    power_on()
    play("s 10000050", "> T", "s 10000100", "> S")
    # The typed tares.
    power_on()
    play("> TA 100.00 g", "> TA 220.000001 g")
    play("> TA -1 g", "> TA 100.00 G", "> TA 1. g", "> TA")


def bench_waiting_and_lines():
    part("Bench cases: waiting, and lines.")
    # The third unstable sample is I, the fourth nothing.
    power_on()
    play("> S", "u 1", "u 2", "u 3", "u 4")
    power_on()
    play("> SIR")
    play("> ", "> s", "> S\r", "> S 1", "> " + "S" * 65)


def bench_profiles():
    part("Bench cases: profiles.")
    switch_on(profile(c=99_999_999, u=0, unit="mg", d=3))
    switch_on(profile(c=100_000_000, u=0, unit="mg", d=3))
    switch_on(small(c=1_000_000, unit="GN", d=5, k=1))
    switch_on(small(c=1_000_000, unit="GN", d=5, k=2))


# ---- Document 02, No. 1: send on change


def sr_identification():
    part("SR: its identification is S, always. A wrong parameter is S L; "
         "while a command waits, S I goes before it.")
    power_on()
    watch("> SR x")
    watch("> T", "> SR", "> SR 1 g", "> SR x", "> SR ", "> @")
    # Names that are none.
    play("> SRX", "> sr", "> SR1", "> RS", "> SRU")


def sr_waits():
    part("SR waits as S, also with no sample; it stays off if the answer is I, + or -.")
    # Out of patience.
    power_on()
    watch("> SR", "u 1", "u 2", "u 3", "s 100000000")
    # + and -, at once and at the end of a wait.
    power_on()
    watch("s 220000001", "> SR", "s 0")
    watch("s -1000001", "> SR", "s 0")
    watch("u 0", "> SR", "s 220000001", "s 0")
    # Granted by the second sample, with a set threshold.
    power_on()
    watch("> SR 10 g", "u 5", "s 7", "s 10000006", "s 10000007")


def sr_ends():
    part("SR that reaches order 8 ends a SIR and an older SR, also if it then times out or is out "
         "of range; S, SI and SIR end it.")
    # A SIR, by a wait that times out, by + and by a weight.
    power_on()
    watch("u 0", "> SIR", "> SR", "u 1", "u 2", "u 3", "u 90000", "s 90000")
    watch("> SIR", "s 220000001", "> SR", "s 90000")
    watch("> SIR", "> SR", "s 90000", "s 0")
    # An older SR; the new one keeps nothing of it.
    power_on()
    watch("s 0", "> SR", "u 0", "> SR 1 g", "u 1", "u 2", "u 3", "u 90000", "s 90000")
    watch("> SR 1 g", "u 5000000", "s 300000000", "> SR", "s 7", "> SR 1 g", "u 5000000", "s 7",
          "> SR")
    # S, which ends it also when it waits; SI and SIR.
    power_on()
    watch("s 0", "> SR", "> S", "s 90000", "> SR", "u 0", "> S", "u 1", "u 2", "u 3", "s 0")
    watch("> SR", "> SI", "s 90000", "> SR", "> SIR", "u 0", "s 0", "> SI")


def sr_goes_on():
    part("What fails before order 8 ends no SR and no SIR: busy, EL, L, ES, ET, refusal 3.")
    power_on()
    watch("s 0", "> SR", "u 1", "> T", "> SI", "> SR", "> S", "> SIR")
    watch("s 3000", "> SI 1", "> SR x", "> S ", "> SIR 1", "> SRX", faulty("S"), good("I\r\n"))
    watch("s 6000")
    # The other commands leave it.
    for name in NAMES:
        if name not in ("S", "SI", "SIR", "@", "SR"):
            watch("> " + name)
    # A SIR, and wrong parameters.
    power_on()
    watch("s 0", "> SIR", "> SR 0 g", "u 1")
    # The LF of SR in a room of 17, and in one of 18.
    watch("s 2", "room 17", "> SR", "room 18", LF, "room 384")


def sr_reset():
    part("A reset drops a waiting SR unanswered and ends a running one; a power-on too.")
    power_on()
    watch("> SR 1 g", "> @", "s 0", "s 90000")
    watch("> SR", "> @", "s 0", "s 90000")
    watch("> SR", "on", "s 0", "s 90000")


def sr_last_net():
    part("The last stable net sent is the exact one; no zeroing and no taring moves it, "
         "and nothing is sent at a command.")
    power_on()
    watch("s 10000000", "> SR", "> T", "s 10000000", "s 10000000")
    # Z, ZI, TI, TA and TAC.
    power_on()
    watch("s 9", "> SR", "s 2000", "> Z", "> ZI", "> TI", "> TA 1 g", "> TAC", "> TA 1 g")
    watch("s 2000", "s 2000", "> TAC", "s 2000")
    # Not the printed number: 49 micrograms count.
    power_on()
    watch("s 49", "> SR", "s 3048", "u 3048", "s 3049")
    # A typed tare counts as it is rounded.
    power_on()
    watch("s 0", "> SR", "> TA 0.002949 g", "s 0", "> TA 0.00295 g", "s 0")


def sr_owed():
    part("After the one S D nothing is sent until a stable sample, which is sent even if net "
         "came back; no wait ends meanwhile.")
    power_on()
    watch("s 0", "> SR", "u 5000", "u 0", "u 90000", "s 0", "s 2999", "s 3000")
    watch("u 0", "u 1", "u 2", "u 3", "u 4", "s 5")


def sr_out_of_range():
    part("Out of range: one + or - for the whole excursion; a silent sample can be back in range.")
    power_on()
    watch("s 0", "> SR", "u 5000", "s 220000001", "u -1000001", "u 10", "s 10")
    # Each excursion anew, from either side, by stable and unstable samples.
    watch("u 220000001", "s 220000001", "u 10", "s -1000001", "u -1000001", "s 10")
    # At the limits it is in range.
    watch("s 220000000", "s 220000001", "s -1000000", "s -1000001", "s 2147483647", "s -2147483648")
    # Back in range the last net still counts.
    power_on()
    watch("s 0", "> SR", "s 220000001", "s 2999", "s -1000001", "u 2999", "s 3000")


def sr_passed_over():
    part("A sample that finds a command waiting gives only that command's answer, "
         "and moves nothing of SR.")
    power_on()
    watch("s 0", "> SR", "u 220000001", "> T", "u 0", "s 220000001", "s 220000001")
    power_on()
    watch("s 0", "> SR", "u 1", "> T", "u 220000001", "u 220000001", "u 220000001", "u 220000001")
    # What is owed waits for a sample that finds nothing waiting.
    power_on()
    watch("s 0", "> SR", "u 5000", "> Z", "u 90000", "s 70000", "s 70000")


def sr_threshold():
    part("The threshold: the larger of an eighth of the last net and 30 display steps, "
         "from both sides; it is taken anew from each last net.")
    power_on()
    watch("s 24001", "> SR", "s 27001", "s 27002")
    watch("s 24000", "> SR", "s 26999", "s 27000")
    watch("s 23993", "> SR", "s 26992", "s 26993")
    watch("s -800000", "> SR", "s -900000", "s -1000000")
    watch("s -800000", "> SR", "u -700001", "u -700000")
    watch("s 8000000", "> SR", "s 8999999", "s 9000000", "s 10124999", "s 10125000")
    watch("s 8859376", "s 8859375")
    # 30 steps that are no whole micrograms, and steps of five.
    power_on(profile(unit="oz", d=5))
    watch("s 0", "> SR", "s 8504", "s 8505")
    power_on(profile(k=5))
    watch("s 0", "> SR", "s -14999", "s 14999", "s 15000")
    # A step of a microgram, and one so large that only an excursion is sent.
    power_on(small(d=6))
    watch("s 0", "> SR", "s 29", "s 30", "s 1000", "s 876", "s 875")
    power_on(profile(unit="oz", d=0, k=1))
    watch("s 0", "> SR", "s 220000000", "s 220000001")


def sr_parameter():
    part("SR with a parameter, of the form of TA's: 1 microgram to C.")
    power_on()
    watch("> SR ", "> SR 1", "> SR 1 G", "> SR 1. g", "> SR  1 g", "> SR 0 g", "> SR 220.000001 g")
    play("> SR 1 g ", "> SR 1  g", "> SR 1g", "> SR 1 mg", "> SR -1 g", "> SR .5 g", "> SR 1.2.3 g")
    play("> SR 0.0000001 g", "> SR 00000000001 g", "> SR 0.000000 g", "> SR g", "> SR 9999999999 g")
    watch("> SR 220 g", "> @", "> SR 0.000001 g", "> @", "> SR 000000.001 g", "> @")
    # Sent by it alone, however small or large.
    watch("s 800000", "> SR 0.000001 g", "s 800000", "s 800001", "u 800001", "u 800000", "s 800001")
    watch("s -1", "> SR 220 g", "s 219999998", "s 219999999", "s 0", "s -1")
    # Rounded to the microgram, half of one upwards.
    power_on(profile(c=99_999_999, u=0, unit="mg", d=3))
    watch("> SR 0.0004 mg", "> SR 0.000499 mg", "> SR 0.0005 mg", "> @", "> SR 1.0015 mg", "> @")
    watch("> SR 99999.9995 mg", "> SR 100000 mg", "> SR 99999.9994 mg", "> @")


def sr_refusal_2():
    part("Refusal 2: SR's last net outside -(U+C)..C, and a set threshold above C, "
         "of one that runs and of one that waits. One that is off does not count.")
    # The last net at C, and above it.
    power_on()
    play("s 5000", "> SR", small(c=5000), "> DW", small(c=4999), "> DW", "s 1")
    play(PROFILE_A, LF)
    # The last net at -(U+C), and below it.
    power_on()
    play("s 5000", "> T", "s -1000", "> SR")
    play(small(c=5000, u=1000), "> DW", small(c=5000, u=999), "> DW", "s 1")
    # A set threshold at C and above it, running and waiting.
    power_on()
    play("s 0", "> SR 0.005 g", small(c=5000), "> DW", small(c=4999), "> DW", "s 1")
    power_on()
    play("> SR 0.005 g", small(c=5000), "> DW", small(c=4999), "> DW", "s 1", PROFILE_A, "s 5000")
    # Off.
    play("> @", small(c=4999), "> DW", PROFILE_A)


def sr_rooms():
    part("Refusal 3 while SR runs: the sample that is sent is not taken and moves nothing of SR; "
         "a silent one needs no room.")
    power_on()
    watch("s 0", "> SR", "room 17", "s 3000", "u 3000", "room 0", "u 2999")
    watch("room 4", "s 220000001", "room 5", "s 220000001", "room 0", "s 220000001", "u 0")
    watch("room 17", "u 3000", "room 18", "u 3000", "room 17", "u 90000", "s 0", "room 18", "s 0")
    # The sample that ends a wait of SR.
    watch("u 0", "> SR", "room 17", "s 5", "room 18", "s 5", "room 384")


def sr_manual():
    part("What the manual 003 prints for SR.")
    power_on(profile(d=2))
    watch("s 100000000", "> SR 10.00 g", "u 115230000", "s 200000000")


# ---- Document 02, No. 2: a whole buffer of received bytes


def buffer_lines():
    part("A whole buffer is its bytes taken singly: each line with its own answer, "
         "and the line at its end goes on.")
    power_on(PROFILE_A, text(2, ""), text(3, ""), text(4, "VA-0001"), text(5, ""))
    watch("w", whole("DW\r\nTAC\r\nQ\r\n"))
    watch(whole("DW\r\nTA"), whole("C"), "w", CR, whole("\n"))
    # A line by both calls, and a CR at the end of one with the LF of the next.
    watch(whole("D"), good("W"), whole("\r"), LF, good("DW\r"), whole("\nDW"), "> ")
    watch(whole("DW\r"), whole("\r"), whole("\n"), whole("\r"), whole("DW\r\n"))
    # CR and LF in odd places, empty lines, a line that is too long.
    watch(whole("\nDW\r\n\rDW\r\nDW\r\r\nDW\rx\n\r\n\r\n\r\n"))
    watch(whole("S" * 65 + "\r\n" + "S".ljust(64) + "\r\nDW\r\n"))
    watch(whole("S" * 64), whole("S\r\n"))
    # A power-on drops the line.
    watch(whole("DW"), "on", whole("\r\n"), whole("D", 0), "on", whole("DW\r\n"))


def buffer_commands():
    part("Every command in one buffer, and in a buffer each; a command finds what those before "
         "it left.")
    power_on()
    play("room 4096")
    every = "".join(name + "\r\n" for name in NAMES)
    watch("s 5000", whole(every), "s 7000", whole(every), "u 9000", whole(every), "s 9000")
    for name in NAMES:
        watch(whole(name + "\r\n"))
    power_on()
    # Tare and zero to the microgram, and a text.
    watch("s 10000050", whole("T\r\nSI\r\nTAC\r\nSI\r\nTA 1.5 g\r\nSI\r\nTA\r\n"))
    watch("s 1049", whole('Z\r\nSI\r\nD "A"\r\nD "B\r\nDW 1\r\n'))
    watch(whole("DW\r\nSI\r\n@\r\nSI\r\n"))
    # A wait begins, and @ drops it; one that a sample ends.
    watch(whole("@\r\n"), "u 1", whole("T\r\nSI\r\nTA x\r\nS 1\r\nQ\r\n@\r\nS\r\n"), "u 2")
    watch(whole("SI\r\n"), "s 3")
    # A repetition, and SR.
    watch(whole("SIR\r\n"), "u 4", whole("DW\r\n"), "u 5", whole("SR 1 g\r\nS 1\r\n"), "s 6")
    watch("s 1000006", "u 2000006", whole("TA 1 g\r\nTAC\r\n"), "s 6", whole("SI\r\n"), "s 6")
    play("room 384")


def buffer_marks():
    part("Marks: 0 is good, anything else faulty, in each place; the mark of a faulty byte is "
         "1 + its place mod 255.")
    power_on()
    watch(whole("S\r\n\r\n", 1))
    line = "DW\r\n"
    for place in range(len(line)):
        watch(whole(line + line, place), whole("\r\n"))
    # Faulty in one call and ended in the next; every byte faulty.
    watch(whole("D", 0), whole("W\r\n"), whole("DW", 1), END)
    watch(whole(line, 0, 1, 2, 3), whole("\r\n"))
    # The first and the last line of three; a faulty byte that is dropped.
    watch(whole(line * 3, 1), whole(line * 3, 9), whole("S" * 70 + "\r\n" + line, 66))
    # Marks of 2, 3, 4, 127, 128, 129, 254, 255, 1 and 2.
    for place in (1, 2, 3, 126, 127, 128, 253, 254, 255, 256):
        play(whole("S" * 260 + "\r\n" + line, place))


def buffer_rooms():
    part("The answers share the room. The call stops before the byte whose answer does not fit; "
         "the next goes on from there.")
    power_on()
    twice = "SI\r\nSI\r\n"
    for room in (0, 4):
        watch(f"room {room}", whole(twice), "room 5", whole("\n"))
    for room in (5, 8, 9):
        watch(f"room {room}", whole(twice), whole("\n"))
    for room in (10, 11):
        watch(f"room {room}", whole(twice))
    # A shorter answer is not reached past one that does not fit.
    listed = "I0\r\nQ\r\n"
    watch("room 257", whole(listed), "room 258", whole("\nQ\r\n"), "room 4", whole("\n"))
    watch("room 261", whole(listed), LF, "room 262", whole(listed))
    watch("room 15", whole("I4\r\nQ\r\n"), "room 19", whole("\nQ\r\n"))
    watch("room 20", whole("\nI4\r\n"), whole("\nQ\r\n"))
    # The LF alone, and more after it.
    watch(good("Q\r"), "room 0", whole("\n"), "room 3", whole("\nQ\r\n"))
    watch("room 4", whole("\nQ\r\n"), whole("\n"))
    # Never refusal 3, which is the byte call's.
    watch("room 3", whole("Q\r\n"), LF, whole("\n"), "room 4", whole("\n"), "room 384")


def buffer_no_room():
    part("What is not answered needs no room: bytes that end no line, and a command that waits.")
    power_on()
    watch("room 0", whole("S\r\nSI\r\n"), "room 5", whole("\n"), "room 16", whole("@\r\n"))
    watch("room 4", whole("Q\r\nT\r\nSI\r"), whole("\n"), "room 5", whole("\n"))
    watch("room 16", whole("@\r\n"))
    watch("room 4", whole("Q\r\nQ\rQ\n"), "room 0", whole("Q\r", 0), whole("\r\r"), whole("\n"))
    watch("room 384", whole("\n"))


def buffer_stops():
    part("Where it stops, state, answers and count are those of the bytes taken; "
         "what follows is taken by a later call.")
    power_on()
    watch("s 5000", "room 24", whole("T\r\nTAC\r\n"), "room 7", whole("\n"))
    watch("room 25", whole("T\r\nTAC\r\n"))
    watch("room 10", whole('D "AB"\r\nDW\r\nQ'), "room 6", whole("\nQ"), "room 4", whole("\r\n"))
    watch("room 11", whole('D "AB"\r\nDW\r\nQ'), whole("\r\n"))
    # @, which ends a wait and a repetition; SIR and SR, in a room of 17 and of 18.
    watch("u 1", "room 15", whole("T\r\n@\r\n"), "room 16", whole("\n"))
    watch("room 17", whole("SIR\r\nSI\r\n"), "room 18", whole("\nQ\r\n"), "room 4", whole("\n"))
    watch("room 384", "s 0", "room 17", whole("SR\r\n"), "room 18", whole("\nSR 1 g\r\n"))
    watch(whole("\n"), "u 1000000", "room 3", whole("SRX\r\n", 1), "room 4", whole("\n"))
    watch("room 18", "s 0")
    # A faulty byte before the stop and after it.
    watch("room 4", whole("Q\r\nDW\r\n", 3), whole("\n"))
    watch(whole("Q\r\nDW\r\n", 0, 6), whole("W\r\n"))
    watch("room 384", whole("\r\n"))


def buffer_large_rooms():
    part("Rooms of 269, 270, 271, 4095 and 4096: fifteen lists have 3,870 bytes, "
         "with DW A and 55 of ES 4,096.")
    power_on()
    for room in (269, 270, 271):
        watch(f"room {room}", whole("I0\r\nZ I\r\nQ\r\nQ\r\nQ\r\n"), "room 384", whole("\r\n"))
    lists = "I0\r\n" * 15 + "DW\r\n" + "Q\r\n" * 55
    watch("room 4096", whole(lists), "room 4095", whole(lists))
    watch(whole("\n"), whole("I0\r\n" * 16), whole("\n"), "room 384")


def buffer_lengths():
    part("Refusal 5: one mark fewer, one more, and more than 4,096 bytes; nothing is taken.")
    power_on()
    watch(whole("S", word="w-"), whole("S", word="w+"), "w+", whole("S"))
    watch(whole("I\r\n", word="w-"), whole("I\r\n", 0, word="w+"), whole("I\r\n"))
    for count in (0, 1, 63, 64, 65, 255, 256, 257, 4096, 4097):
        watch(whole("X" * count), whole("\r\n"))
    # The line that is held and the text that is shown stay as they are.
    watch(whole('D "TEXT"\r\nDW\r'), whole("\n" * 4097))
    watch(whole("\n", word="w-"), whole("\n", word="w+"), whole("\n"))
    # 256 bytes in a room of 0: all that end no line; CR and LF.
    watch("room 0", whole("S" * 256), whole("\r" * 256), whole("\n" * 256), "room 4")
    watch(whole("\n" * 256), whole("\r" * 255), whole("\n" * 256), "room 384", whole("\r\n"))
    # As many lines as 4,096 bytes can hold, in the largest room, which holds half of the answers.
    watch("room 4096", whole("\r\n" * 2048), "room 384", whole("\n"))


def buffer_refusals():
    part("Refusals 1, 2 and 5 in this order, with any room, and for an empty buffer too.")
    buffers = ("w", "w+", whole("S"), whole("S", 0), whole("S", word="w-"), whole("S", word="w+"),
               whole("\n"))
    power_on()
    play("s 5000", "> Z", "s 7000", "> T", good("Q\r"))
    for room in (384, 0):
        play(f"room {room}")
        # The profile is broken; the zero is above R; the tare is above C.
        for given in (BROKEN, profile(r=4999), small(c=1999, u=1000, r=1999)):
            play(given, *buffers, "state")
    # More than 4,096 bytes, with a room of 0.
    play(BROKEN, whole("\n" * 4097), profile(r=4999), whole("\n" * 4097), "state")
    # Neither; in a room of 0, then of 4.
    play(PROFILE_A)
    watch("w", "w+", whole("\n", word="w-"), whole("\n"), "room 4", whole("\n"), "room 384")
    # A wait with W samples counted; a repetition of SR whose last net is above C.
    power_on()
    play("> S", "u 1", "u 2", profile(w=3), "w", profile(w=2), *buffers, "state", PROFILE_A, "u 3")
    power_on()
    play("s 5000", "> SR", small(c=5000), "w", small(c=4999), *buffers, "state", PROFILE_A)
    watch(whole("SI\r\n"))


# Lines with the lengths of their answers, to a stable sample of 5 mg on profile A.
TALK = [
    ("DW", 6), ("SI", 18), ("T", 18), ("SI", 18), ("Q", 4), ("I1", 24), ("TAC", 7),
    ("SIR", 18), ("TA 100.00 g", 19), ('D "HALLO 1"', 5), ("S\x00", 4), ("@", 16),
    ("TI", 19), ("Z", 5), ("ZI", 6), ("SR 10.00 g", 18), ("TA 1 kg", 6), ("I5", 9), ("SRX", 4),
    ("", 4), ("D", 5), ("S", 18), ("SR", 18), ("S 1", 4),
    ("M21 0 5", 7), ("SI", 19), ("M21", 11), ("M21 0 0", 7),
]


def sent_in_full(room):
    """A driver that sends again what was not taken, with the same room."""
    sent = "".join(line + "\r\n" for line, _ in TALK)
    watch(whole(sent))
    left, end = room, 0
    for line, size in TALK:
        end += len(line) + 2
        if size > left:
            # The call before it stopped at the line's LF.
            watch(whole(sent[end - 1:]))
            left = room
        left -= size


def buffer_drivers():
    part("A driver that sends again what was not taken, in several rooms: "
         "the answers are the same.")
    every = sum(size for _, size in TALK)
    for room in (24, 25, 42, 43, 100, 256, every - 1, every, 4096):
        play("room 384")
        power_on()
        play("s 5000", f"room {room}")
        sent_in_full(room)
    play("room 384")


def buffer_conversation():
    part("A longer conversation by all calls, in buffers that are cut anywhere.")
    power_on(profile(d=2))
    said = "".join(line + "\r\n" for line, _ in TALK + TALK)
    loads = ("s 100000000", "u 129070000", "s 129080000", "s 2147483647", "s 70", "u -1000001",
             "s 4400000")
    at = turn = 0
    while at < len(said):
        size = (1, 7, 0, 23, 4, 40, 11)[turn % 7]
        piece = said[at:at + size]
        if turn % 4 == 2 and piece:
            watch(good(piece))
        else:
            # Now and then the last byte of a piece is faulty.
            watch(whole(piece, *[size - 1] * (turn % 11 == 5)))
        if turn % 3 == 1:
            watch(loads[turn // 3 % len(loads)])
        at += size
        turn += 1
    watch(whole("\r\n"), "s 200000000", whole("SI\r\n@\r\n"))


# ---- Document 02, No. 3: a typed tare has readable places only


def typed_halves(count, unit, d, k):
    """TA with so many half display steps, which six decimals can write, and at both sides."""
    millionths = count * k * 10 ** (6 - d) // 2
    return [f"> TA {near // 10**6}.{near % 10**6:06} {unit}"
            for near in range(millionths - 1, millionths + 2)]


def typed_steps():
    part("A typed tare is rounded to the nearest display step, a tie upwards, "
         "and what it answers can be typed again.")
    power_on()
    watch("> TA 0.00005 g", "> TA 0.0001 g", "> TA 0.000049 g", "s 9999951", "> SI")
    power_on(profile(k=5))
    watch("> TA 0.00025 g", "> TA 0.0005 g", "> TA 0.000249 g", "> TA 1.0007 g", "> TA 1.0008 g")
    # Every unit and step; the largest number that can be typed.
    for unit in UNITS:
        for k in (1, 2, 5):
            power_on(small(c=100_000_000, unit=unit, d=2, k=k))
            play(*typed_halves(3, unit, 2, k), f"> TA 9999999999 {unit}", "state")


# Weights halfway between two micrograms: unit, decimals, half last places, and the micrograms that
# they are rounded to. The steps of g, mg, ct and kg are whole micrograms.
SECOND_TIES = [
    ("oz", 5, 800_000, 113_398_093),
    ("ozt", 5, 62_500, 9_719_837),
    ("GN", 4, 1_000_000, 3_239_946),
    ("dwt", 4, 125_000, 9_719_837),
    ("lb", 5, 10_000, 22_679_619),
]


def typed_micrograms():
    part("The rounded decimal is rounded to the nearest microgram, a tie upwards.")
    power_on(profile(unit="oz", d=5))
    watch("> TA 4 oz", "s 113398234", "> SI", "s 113398235", "> SI", "> TA 1.000005 oz")
    watch("> TA 3.999995 oz", "> TA 3.999994 oz")
    # Every unit that has such a tie, in every step; the decimal, and what is rounded up to it.
    for unit, d, halves, _ in SECOND_TIES:
        for k in (1, 2, 5):
            power_on(profile(unit=unit, d=d, k=k))
            watch(typed_halves(halves // k, unit, d, k)[1])
            watch(*typed_halves(halves // k - 1, unit, d, k)[:2])
    # The micrograms of the typed number decide nothing.
    power_on(small(c=99_999_999, unit="mg", d=2))
    watch("> TA 0.0045 mg", "> TA 0.004999 mg", "> TA 0.005 mg")


def typed_limits():
    part("L above C: the microgram result alone is compared, at C and a microgram beside it.")
    power_on()
    watch("> TA 220.000001 g", "> TA 220.000049 g", "> TA 220.00005 g")
    power_on(wide(c=1_000_000_000, d=0, k=5))
    watch("> TA 1002.4 g", "> TA 1002.5 g")
    power_on(wide(c=1_000_000_000, unit="oz", d=0, k=5))
    watch("> TA 37.4 oz", "> TA 37.5 oz")
    # Below C as it is typed, above it once rounded.
    power_on(small(c=218_000_000, d=0, k=5))
    watch("> TA 217.4 g", "> TA 217.5 g", "> TA 218 g")
    # 35 oz are 992,233,309.375 micrograms.
    for c in (992_233_308, 992_233_309, 992_233_310):
        power_on(small(c=c, unit="oz", d=0, k=5))
        play("> TA 35 oz", "state")
    for unit, d, halves, micrograms in SECOND_TIES:
        for c in range(micrograms - 1, micrograms + 2):
            power_on(small(c=c, unit=unit, d=d))
            play(typed_halves(halves, unit, d, 1)[1], "state")


def typed_thresholds():
    part("SR's number is rounded to the microgram alone.")
    power_on()
    watch("> SR 220.000001 g", "> SR 0.00004 g", "> @", "> SR 0.000051 g", "> @")
    power_on(profile(unit="oz", d=5))
    watch("> SR 4 oz", "> @", "> SR 1.000005 oz", "> @")


# ---- Document 02, No. 5: units by command


def unit_codes():
    part("M21 tells the unit in force, and each code sets its unit; "
         "the unit in force may be set again.")
    power_on()
    watch("> M21", "> M21 0 5", "> M21", "> M21 0 5", "> M21")
    for unit in UNITS:
        watch(set_unit(unit), "> M21", set_unit(unit), "> M21")
    # With and without a sample; the last lines of I0.
    watch("s 1000", "> M21", set_unit("g"), "> I0")


def unit_parameters():
    part("M21's parameters: a single space, 0, a single space and a code as it is written; "
         "all else is L and sets nothing.")
    power_on()
    play(set_unit("ct"))
    # A lone space; one number; spaces.
    play("> M21 ", "> M21  ", "> M21 0", "> M21 0 ", "> M21 5")
    play("> M21 0  5", "> M21  0 5", "> M21 0 5 ")
    # Zeros before a number, signs, another display, other characters.
    play("> M21 0 05", "> M21 00 5", "> M21 0 00", "> M21 0 +5", "> M21 0 -0", "> M21 +0 5")
    play("> M21 1 5", "> M21 2 5", "> M21 x", "> M21 0 x", "> M21 0 ct", "> M21 0 5x")
    play("> M21 0 5 0", '> M21 "0" 5', "> M21 0 0.0")
    # Every number up to 30 that is no code; 20 is another unit's.
    for code in range(31):
        if code not in CODES.values():
            play(f"> M21 0 {code}")
    # As much more as a byte, two or four hold; an answer.
    play("> M21 0 256", "> M21 0 261", "> M21 0 65536", "> M21 0 65541")
    play("> M21 0 4294967296", "> M21 0 4294967301", "> M21 0 18446744073709551621", "> M21 A 0 0")
    # A byte below 32 goes before, and more than 64 bytes.
    play("> M21 0\t5", "> M21 0 5\r", "> M21 0 " + "0" * 60 + "5")
    # No names.
    play("> M2", "> M211", "> M", "> M 21", "> M20", "> M22", "> m21", "> M21,0", "> M210 5")
    watch("> M21")


def unit_waiting():
    part("While a command waits M21 is I, with wrong parameters too, and sets nothing; "
         "after the wait it sets again.")
    for name in WAITING:
        power_on()
        watch("> " + name, "> M21", "> M21 0 5", "> M21 0 2", "> M21 ", "> M21 x", "> M2")
        watch("s 14256050", "> M21", "> M21 0 5", "> SI")
    # A wait in another unit, answered in it.
    for name in WAITING:
        power_on(profile(unit="oz"))
        watch("> " + name, "u 1", "s 3000000")
    # Out of patience.
    power_on(profile(unit="dwt"))
    watch("> T", "u 1", "> M21 0 0", "u 2", "u 3", "> M21")


def unit_weights():
    part("One load in every unit, by S, SI, T, TI and TA, and SIR and SR.")
    power_on()
    play("s 14256050")
    for unit in UNITS:
        play(set_unit(unit), "> S", "u 14256050", "> SI", "> TI", "> TA", "s 14256050", "> T")
        watch("> SI", "> TAC", "> SIR", "s -1000000", "> SR", "> S", "s 14256050")
    # Out of range is so in micrograms.
    for unit in UNITS:
        play(set_unit(unit), "s 220000000", "> S", "s 220000001", "> S", "s -1000001", "> S")


def unit_moves():
    part("From each unit to each.")
    power_on()
    play("s 14256050")
    for first in UNITS:
        for second in UNITS:
            play(set_unit(first), set_unit(second), "> M21", "> SI")


def unit_kept():
    part("@ keeps the unit, a power-on sets g; the other commands keep it.")
    power_on()
    watch("> M21 0 5", "> @", "> M21", "on", "> M21")
    watch("> M21 0 7", "s 1000", '> D "x"', "> @")
    for name in NAMES:
        watch("> " + name)
    # Other profiles keep it too, and a refused power-on.
    watch("> M21 0 8", profile(w=1), "> M21", PROFILE_A, "room 15", "on", "room 384", "> M21")
    watch(profile(unit="oz", d=3, k=5), "> SI", PROFILE_A, "> SI", "on", "> SI")


def unit_goes_on():
    part("M21 sends nothing but its answer and ends nothing: SIR and SR go on in the new unit.")
    power_on()
    watch("s 14256050", "> SIR", "> M21 0 5", "s 14256050", "> M21", "u 14256050", "> M21 0 x")
    watch("u 14256050", "> M21 0 1", "u 14256050", "s 220000001", "s 14256050")
    watch("> M21 0 0", "> SR", "> M21 0 3", "s 24256050", "u 34256050", "> M21 0 10", "s 34256050")
    watch("> M21", "> M21 x", "s 220000001", "> M21 0 5", "s 34256050", "s 44256050")
    # The display stays.
    watch('> D "TEXT"', "> M21 0 0", "> DW")


def unit_tares():
    part("The tare stays in micrograms; it is typed in the unit in force, and rounded to its step.")
    power_on()
    watch("> M21 0 8", "> TA 4 oz", "> M21 0 0", "> TA", "> M21 0 3", "> TA")
    watch("> TA 1 g", "> SR 1 g")
    watch("> M21 0 1", "> TA 0.224 kg", "> TA 0.225 kg", "> TA 0.004 kg")
    watch("> TA 999.999999 kg", "> TA 9999999999 kg", "> TA")
    watch("> M21 0 7", "> TA 0.485 lb", "> TA 0.484999 lb", "> TA 0.49 lb", "> TA 9999999999 lb")
    # T to the microgram, shown in each unit, with the net beside it.
    watch("> M21 0 0", "s 14256049", "> T", "s 20000001")
    for unit in UNITS:
        watch(set_unit(unit), "> TA", "> SI")
    # Every unit typed, and every other one refused.
    power_on()
    for unit in UNITS:
        play(set_unit(unit))
        for other in UNITS:
            play(f"> TA 0.05 {other}")
        play("state")


def unit_thresholds():
    part("A set threshold of SR stays in micrograms.")
    power_on()
    watch("s 0", "> SR 0.01 g", "> M21 0 5", "s 9999", "s 10000")
    watch("s 0", "> M21 0 8", "s 9999", "s 20000")
    # Typed in each unit, to the microgram.
    for unit in UNITS:
        watch("> @", set_unit(unit), f"> SR 0.001 {unit}", "> M21 0 0")
        watch("> @", set_unit(unit), f"> SR 0.000001 {unit}")
    # A threshold above C.
    watch("> @", "> M21 0 1", "> SR 0.22 kg", "> @", "> SR 0.220001 kg", "> SR 9999999999 kg")
    watch("> M21 0 7", "> SR 0.485016 lb", "> @", "> SR 0.485017 lb", "> SR 9999999999 lb")


def unit_steps():
    part("Without one, the 30 display steps of SR are those of the unit in force at each sample.")
    power_on()
    watch("s 0", "> SR", "> M21 0 5", "s 3000", "s 59999", "s 60000")
    watch("> M21 0 0", "s 67499", "s 67500")
    # lb and kg, whose steps are the largest: 136,077,711 and 300,000,000 micrograms.
    power_on(profile(c=500_000_000))
    watch("s 0", "> SR", "> M21 0 7", "s 136077710", "s 136077711")
    power_on(profile(c=500_000_000))
    watch("s 0", "> SR", "> M21 0 1", "s 299999999", "s 300000000")
    # Owed in one unit and sent in another; out of range in one and back in another.
    power_on()
    watch("s 0", "> SR", "u 5000", "> M21 0 3", "s 0", "s 220000001", "> M21 0 0")
    watch("s 0", "s 2999", "s 3000")


def unit_profiles():
    part("The profile is tested in all nine units, whichever is in force: "
         "the nets of mg decide for profile A.")
    switch_on(profile(c=998_999_994))
    switch_on(profile(c=998_999_995))
    switch_on(profile(c=998_999_995, mg=(1, 1)))
    # GN's step is below a microgram, though g is in force.
    switch_on(profile(GN=(5, 1)))
    switch_on(small(c=1_000_000, GN=(5, 1)))
    switch_on(small(c=1_000_000, GN=(5, 2)))
    # A unit that is not in force, at each call; mended, all is as before.
    for unit in UNITS:
        power_on(profile(unit=unit))
        play("s 5000", "> TI", profile(lb=(7, 1)), "s 1", good("S"), whole("S"), "on")
        play(profile(g=(4, 3)), "s 1", PROFILE_A, "> M21", "state")


def unit_limits():
    part("Each unit's limits broken alone, with g in force and with the unit itself.")
    for unit in UNITS:
        for d in (0, 6, 7, 255):
            switch_on(small(**{unit: (d, 1)}))
        for k in (0, 2, 3, 4, 5, 6, 10, 255):
            switch_on(small(**{unit: (2, k)}))
        power_on(profile(unit=unit))
        play(profile(**{unit: (7, 1)}), good("S"), profile(**{unit: (2, 3)}), good("S"))
        play(PROFILE_A, "> M21")
    for unit, d, k in FINEST + TOO_FINE:
        switch_on(small(**{unit: (d, k)}))


def unit_refusals():
    part("What is refused sets no unit: by 1, by 2, by 3.")
    power_on()
    play("s 5000", "> Z")
    # By 1 and by 2, at the LF; then taken.
    play(good("M21 0 5\r"), BROKEN, LF, profile(r=4999), LF, PROFILE_A, "state", LF, "state")
    # By 3.
    for room in (0, 6):
        watch(f"room {room}", "> M21 0 8", "room 384", "> ")
    watch("room 7", "> M21 0 8", "room 384")


def unit_rooms():
    part("Rooms: the query has 11 bytes, of GN and dwt 12.")
    power_on()
    for unit, code in CODES.items():
        size = len(f"M21 A 0 {code}") + 2
        play("room 7", set_unit(unit), f"room {size - 1}", "> M21", f"room {size}", LF)
    # I0 in a room one too short, and in its own.
    watch("room 257", "> I0", "room 258", LF, "room 384")


def unit_buffers():
    part("M21 in a whole buffer: what follows is answered in the new unit, and where it stops "
         "the unit is that of the bytes taken.")
    power_on()
    watch("s 14256050", whole("SI\r\nM21 0 5\r\nSI\r\nM21\r\nM21 0 1\r\nSI\r\n@\r\nSI\r\n"))
    watch(whole("M21 0 2\r\nM21 0 0\r\nM21 \r\n"))
    watch("room 6", whole("M21 0 5\r\nSI\r\n"), "room 7", whole("\nSI\r\n"), "room 18", whole("\n"))
    watch("room 19", whole("\nM21 0 0\r\n"), "room 7", whole("\nM21\r\n"), "room 11", whole("\n"))
    watch("room 384", whole("M21 0 5\r\n", 5), whole("M21\r\n"))
    # Every unit, with a tare typed in it.
    said = "".join(f"M21 0 {code}\r\nM21\r\nSI\r\nTA 0.05 {unit}\r\nSI\r\nTAC\r\n"
                   for unit, code in CODES.items())
    watch("room 4096", whole(said), "room 384")


# ---- Document 02, No. 7: DeltaRange pouches

DELTA = profile(f=100_000_000)


def read(*loads):
    """Each load as a stable sample, and what S tells of it."""
    for load in loads:
        play(f"s {load}", "> S")


def range_limits():
    part("DeltaRange. Above F is strict, in micrograms: at F and a microgram above it.")
    power_on(DELTA)
    read(100_000_000, 100_000_001, 100_000_049, 100_000_499, 100_000_500, 99_999_951)
    play("u 100000000", "> SI", "u 100000001", "> SI")
    # F 0: a gross of 0 or below is fine.
    power_on(profile(f=0))
    read(0, -1, -1_000_000, 1, 499, 500)
    play("> TAC", "s 0", "> T", "s 1", "> T", "> TA")
    # F 1, a microgram below C, and C.
    for f in (1, 219_999_999, 220_000_000):
        power_on(profile(f=f))
        read(1, 2, 219_999_999, 220_000_000, 220_000_001, -1_000_001)
        play("s 220000000", "> T", "> TA")


def range_deciding():
    part("Gross decides, and net is printed; in the answers of T, TI and TA the tare decides.")
    power_on(DELTA)
    play("s 150000000", "> T")
    read(150_000_500, 10_000_000, 100_000_000, 100_000_001)
    # A tare of 50 g under a gross of 200 g, and one of 150 g over a gross of 10 g.
    play("s 50000000", "> T", "s 200000000", "> TA", "> SI", "> TA 50 g")
    play("s 150000000", "> TI", "u 10000000", "> TA", "> SI", "> TA 150 g", "> TAC", "> TA")
    # A tare at F and a microgram above it.
    for load in (100_000_000, 100_000_001):
        play(f"s {load}", "> T", "> TA", f"u {load}", "> TI", "> TA")
    # Gross is the load less zero.
    for zero in (4_000_000, -4_000_000):
        play("> @", f"s {zero}", "> Z")
        read(100_000_000 + zero, 100_000_001 + zero)
    # No tare is coarse before a sample, save for a typed one.
    power_on(DELTA)
    play("> TA", "> TA 150 g", "> TA")


def range_rounding():
    part("One rounding, to multiples of ten steps, and no minus before zero.")
    power_on(DELTA)
    play("s 150000000", "> T")
    for net in (1_450, 1_499, 1_500, 500, 499, -499, -500, -1_499, -1_500):
        read(150_000_000 + net)
    for k in (2, 5):
        power_on(profile(k=k, f=100_000_000))
        play("s 150000000", "> T")
        for half in (500 * k, 1_500 * k):
            read(*(150_000_000 + net for net in (half - 1, half, 1 - half, -half)))
    # Two decimals, of which one is left, and six, of which five are.
    power_on(profile(d=2, f=100_000_000))
    read(100_000_000, 149_949_999, 149_950_000)
    power_on(small(c=99_999_994, d=6, f=5))
    read(5, 6, 14, 15, 99_999_994)
    # Nine characters below zero.
    power_on(small(c=99_999_994, unit="mg", d=3, f=0))
    play("s 99999994", "> T")
    read(1, 0)


def range_waits():
    part("The range is that of the sample which is judged: waits, SIR, whole buffers, rooms.")
    power_on(DELTA)
    play("u 150000000", "> S", "s 50000000", "u 50000000", "> T", "s 150000000")
    play("u 150000000", "> SIR", "s 99999951", "u 100000001", "s 100000000", "s 0", "> SI")
    watch("s 150000000", whole("SI\r\nT\r\nTA\r\nTA 100.0004 g\r\nSI\r\nTA 220.0005 g\r\n"))
    watch("room 17", "> SI", "room 18", LF)
    watch("room 35", whole("SI\r\nSI\r\n"), "room 18", whole("\n"), "room 384")
    # @ and a power-on keep the profile.
    play("> @", "> SI", "on", "s 150000000", "> SI")


def range_typed():
    part("A typed number above F, exact and before any rounding, is rounded to the coarse step; "
         "the stored tare decides how it is told.")
    power_on(DELTA)
    watch("> TA 100.00004 g", "> TA 100.0004 g", "> TA 100.000499 g", "> TA 100.0005 g")
    watch("> TA 100.0000 g", "> TA 100.000001 g", "> TA 99.99995 g", "> TA 99.999949 g")
    watch("> TA 220.0004 g", "> TA 220.000499 g", "> TA 220.0005 g", "> TA 9999999999 g")
    # With F = C; a microgram below it, where F is typed and stored above itself.
    power_on(profile(f=220_000_000))
    watch("> TA 220.0004 g", "> TA 220.000049 g", "> TA 220.00005 g")
    power_on(profile(f=219_999_999))
    watch("> TA 219.999999 g", "> TA 220 g", "> TA 220.000499 g", "> TA 220.0005 g")
    # F between two fine steps.
    power_on(profile(f=100_000_050))
    watch("> TA 100.00005 g", "> TA 100.000049 g", "> TA 100.000051 g")
    power_on(profile(f=0))
    watch("> TA 0 g", "> TA 0.000499 g", "> TA 0.0005 g", "> TA 0.001499 g")
    power_on(profile(k=5, f=100_000_000))
    watch("> TA 100.002499 g", "> TA 100.0025 g", "> TA 100.0075 g")
    # What gross decides nothing of.
    power_on(DELTA)
    play("s 150000000", "> TA 50.0001 g", "s 50000000", "> TA 150.0001 g", "> TA 50.0001 g")


def range_typed_ounces():
    part("F beside a typed number that is no whole microgram: 1 oz is 28,349,523.125 micrograms.")
    for f in (28_349_523, 28_349_524):
        power_on(profile(unit="oz", d=5, f=f))
        watch("> TA 1.00000 oz", "> TA 1.00004 oz", "> TA 1.00005 oz")
    # 1.00002 oz are 28,350,090.1154625.
    for f in (28_350_090, 28_350_091):
        power_on(profile(unit="oz", d=5, f=f))
        watch("> TA 1.00002 oz", "> TA 1.000019 oz")
    # Halfway between two micrograms in every unit that can be.
    for unit, d, halves, micrograms in SECOND_TIES:
        for f in (micrograms - 1, micrograms):
            power_on(profile(unit=unit, d=d, f=f))
            watch(*typed_halves(halves, unit, d, 1))


def range_on_change():
    part("SR goes on counting fine steps and keeps the exact net; its number is rounded to none.")
    power_on(profile(f=0))
    watch("s 0", "> SR", "s 2999", "s 3000", "s 5999", "s 6000")
    watch("> @", "s 1450", "> SR", "s 4449", "s 4450")
    power_on(profile(f=1000))
    watch("s 0", "> SR 0.001449 g", "s 1448", "s 1449")
    # A change of range is none of net.
    power_on(DELTA)
    watch("s 100000000", "> T", "> SR", "s 100000001", "s 100002999", "s 100003000", "u 100000000")
    watch("s 100000000", "u 220000001", "s 150000000")


def range_units():
    part("F is micrograms, whichever unit is in force.")
    power_on(DELTA)
    for unit in UNITS:
        play(set_unit(unit), "> TAC")
        read(100_000_000, 100_000_001, 150_000_000)
        play("> T", "> TA")
    for sent in (set_unit("g"), "> TA 100.0005 g", set_unit("ct"), "> TA", "> TA 500.04 ct"):
        watch(sent)
    watch(set_unit("g"), "> TA", set_unit("ct"), "> TA 500.05 ct", set_unit("g"), "> TA")


def range_profiles():
    part("The profile: F from 0 to C; below C two decimals in each unit, and each net fits coarse.")
    for f in (0, 219_999_999, 220_000_000, 220_000_001, 4_294_967_295):
        switch_on(profile(f=f))
    for c, f in ((0, 0), (1, 0), (1, 1), (1, 2)):
        switch_on(small(c=c, f=f))
    # mg: with three decimals the lower end decides.
    for f in (99_999_999, 99_999_998):
        switch_on(small(c=99_999_999, mg=(3, 1), f=f))
    for c in (99_999_994, 99_999_995):
        switch_on(small(c=c, mg=(3, 1), f=0))
    for u in (9_999_994, 9_999_995):
        switch_on(small(c=90_000_000, u=u, mg=(3, 1), f=0))
        switch_on(small(c=90_000_000, u=u, mg=(3, 1)))
    # g in steps of two, and GN: 999.9999 GN are 64,798,903.5 micrograms.
    for c in (99_999_989, 99_999_990):
        switch_on(small(c=c, d=6, k=2, f=0))
    for c in (64_798_903, 64_798_904):
        switch_on(small(c=c, GN=(5, 2), f=5))
    # The largest U + C beside a coarse range, which mg with two decimals leaves.
    for c in (999_999_949, 999_999_950):
        switch_on(small(c=c, f=c - 1))
    # Each unit with too few decimals, with a coarse range and without.
    for unit in UNITS:
        for d in (0, 1, 2):
            for f in (0, 219_999_999, 220_000_000):
                switch_on(profile(**{unit: (d, 1)}, f=f))


def range_refusals():
    part("Refused by 1 at each call, and nothing is changed.")
    power_on()
    play("s 5000", "> TI", "fine 220000001", "s 1", good("S"), whole("S"), whole("S", word="w-"))
    play("on", "fine 220000000", "state", "> TA")
    play(profile(f=100_000_000), "s 150000000", "unit lb 1 1", "> SI", "unit lb 2 1", "> SI")
    play("unit lb 1 1", "fine 220000000", "> SI", "unit lb 2 1")
    # F moved to the tare, below it and back.
    play("> TI", "fine 150000000", "> TA", "> SI", "fine 149999999", "> TA", "> SI")


def range_lines():
    part("`profile` sets F to C, and no other line does.")
    power_on(DELTA)
    play("s 150000000", "> SI", "unit g 4 1", "> SI", "text 2 x", "> SI", "room 384", "> SI")
    play("# fine 220000000", "fine x", "> SI", "profile 1 1 1", "> SI", "text 2 ")
    play(PROFILE_A, "> SI", profile(c=160_000_000), "> SI", "fine 100000000", "> SI")
    play("fine 160000001", "> SI", PROFILE_A, "> SI")


def conversation():
    part("Document 01's conversation.")
    power_on()
    play("> S", "s 14256050", "> T", "s 14256100", "> SI", "> Q")


def other_lines():
    part("Lines that are none of the script's: each is one `?` and calls nothing.")
    # `state` and `on` stand alone, in small letters; `# state` is a comment.
    play("state ", " state", "State", "STATE", "state x", "state 1")
    play("states", "stat", "state\r", "state\t", "# state")
    play("on ", " on", "ON", "of")
    # Words alone.
    play("b", "f", ">", "s", "u", "b ", "f ", "s ", "u ", "text", "room")
    # Bytes: two hexadecimal digits each, one space before each.
    play("b 5", "b 530", "b 53 ", "b  53", "b 53  0D", "b 5G", "b 53 0D 0")
    play("b 44 57 0D 0A x", "f 53,0D", "b 53\r")
    # Loads: an optional minus and digits.
    play("s +1", "s 1 ", "s  1", "s --1", "s -", "s 1.0")
    # Loads: at most 10 digits, within 32 bits.
    play("s 12345678901", "s 2147483648", "s -2147483649", "s 9999999999")
    play("u 0x10", "s 1\r")
    # Rooms: 0 to 4096, at most 10 digits.
    play("room", "room ", "room -1", "room 4097", "room 4294967296", "room 00000000010", "room 5 ")
    # Whole buffers: their bytes as above, `!` directly after a faulty one; `w-` needs a byte.
    play("w ", "w 5", "w 530", "w 53 ", "w  53", "w 53  0D", "w 5G", "w 53,0D", "w 53\r", "W 53")
    play("w53")
    play("w!", "w !", "w 53 !", "w !53", "w 53!!", "w 5!", "w 53! ", "f 53!", "b 53!")
    play("w-", "w- ", "w-53", "w+ ", "w+53", "w -", "w- 5", "w+ 5", "w- 53 ", "w/ 53")
    play("w\r", "w+\r", "w*", "w* 53", "w* 1 53")
    # Texts: 2 to 5, one space on each side.
    play("text 1 x", "text 6 x", "text 2", "text 2x", "text 22 x")
    play("text  2 x", "text -2 x", "Text 2 x")
    # Profiles: four values of 32 bits, single spaces, no minus; the old line had seven.
    play("profile", "profile ", "profile 1 1 1", "profile 1 1 1 ", "profile 1 1 1 1 ")
    play("profile 1 1 1 1 1", "profile  1 1 1 1", "profile 1 1 1 1 g 4 1", "profile 1 1 1 x")
    play("profile -1 1 1 1", "profile 1 1 1 1\r", "Profile 1 1 1 1", "profile 1 1  1 1")
    for place in range(4):
        for value in ("4294967296", "00000000001", "9999999999"):
            play("profile " + " ".join(value if at == place else "1" for at in range(4)))
    # Units: one of the nine, and two values of 8 bits.
    play("unit", "unit ", "unit g", "unit g ", "unit g 4", "unit g 4 ", "unit g 4 1 ")
    play("unit g 4 1 1", "unit  g 4 1", "unit g  4 1", "unit g 4  1", "unit  4 1", "unit 4 1")
    play("Unit g 4 1", "units g 4 1", "unit,g 4 1", "uni g 4 1")
    play("unit G 4 1", "unit gn 4 1", "unit KG 4 1", "unit k 4 1", "unit lbs 4 1", "unit 0 4 1")
    play("unit g 256 1", "unit g 4 256", "unit g -1 1", "unit g 4 -1", "unit g 4 x", "unit g x 1")
    play("unit g 00000000004 1", "unit g 4 00000000001", "unit g 4294967296 1", "unit g 4 1\r")
    # Fine limits: one value of 32 bits.
    play("fine", "fine ", "fine x", "fine -1", "fine +1", "fine 1 ", "fine  1", "fine 1 1")
    play("fine 1.0", "fine 4294967296", "fine 9999999999", "fine 00000000001", "fine 1\r")
    play("fine\t1", "Fine 1", "FINE 1", "fines 1", "fin 1", "fine1", " fine 1")
    # A comment not at the line's start, words with no space after them, no words.
    play(" # no comment", "s1", "u-1", ">S", "bb 53", "quit")


def good_forms():
    part("None of them changed anything, and these forms are good: "
         "hexadecimal in either case, leading zeros, a minus before zero.")
    # dW, which is no name, then DW twice.
    play("b 64 57 0d 0A", "b 44 57 0d 0a", "b 44 57 0D 0A")
    play("w 64 57 0d 0A", "w 44 57 0d 0a", "w 44 57 0D 0a!", "w 0D 0A", "w 0d 0D", "w 0a")
    play("s 0000000007", "s -0", "s -0000000007", "> SI")
    play("room 4096", "room 0384", "profile 0220000000 01000000 04400000 03", "> TA")
    play("unit g 04 01", "unit g 0000000004 0000000001", "unit kg 002 001", "> TA")
    play("fine 0220000000", "> TA")


def comments_and_last_line():
    part("Comments and empty lines are passed over, a line of CR alone is not empty; "
         "the last line of this script has no LF.")
    play("#", "#on", "# on", "#\r", "", "\r", "state")
    play("> I5")


# ---- the script


def head():
    play("# Plays every rule of document 01 once, and document 02's No. 1, 2, 3, 5 and 7. "
         "Its stdout is what the independent implementation prints for it.")
    play("# Profile A stands at the start: C 220 g, U 1 g, R 4.4 g, W 3, g with 4 decimals and the "
         "eight others with 2, step 1, F = C, I4 VA-0001, the other texts empty.")


SCRIPT = [
    head,
    before_power_on,
    conversation,
    other_lines,
    good_forms,
    # Receiving.
    order_1_faulty,
    order_2_no_name,
    order_3_after_the_name,
    order_4_reset,
    order_5_waiting,
    order_6_wrong_parameters,
    order_7_no_sample,
    order_8_own_rules,
    long_lines,
    cr_past_the_longest,
    faulty_in_each_place,
    faulty_in_long_lines,
    faulty_throughout,
    odd_line_ends,
    lines_in_pieces,
    near_names,
    # Bench cases.
    bench_rounding,
    bench_capacity,
    bench_zero_and_tare,
    bench_waiting_and_lines,
    bench_profiles,
    # What each command does.
    waits,
    waits_out_of_range,
    patience,
    repetition,
    reset_keeps,
    zeroing_drops_the_tare,
    # Rules that only the state shows.
    display,
    display_kept,
    display_while_waiting,
    whether_it_repeats,
    exact_weights,
    line_on_its_way,
    refused_takes_nothing,
    manual,
    # Send on change.
    sr_identification,
    sr_waits,
    sr_ends,
    sr_goes_on,
    sr_reset,
    sr_last_net,
    sr_owed,
    sr_out_of_range,
    sr_passed_over,
    sr_threshold,
    sr_parameter,
    sr_refusal_2,
    sr_rooms,
    sr_manual,
    # A whole buffer.
    buffer_lines,
    buffer_commands,
    buffer_marks,
    buffer_rooms,
    buffer_no_room,
    buffer_stops,
    buffer_large_rooms,
    buffer_lengths,
    buffer_refusals,
    buffer_drivers,
    buffer_conversation,
    # Typed tares.
    typed_steps,
    typed_micrograms,
    typed_limits,
    typed_thresholds,
    # Units by command.
    unit_codes,
    unit_parameters,
    unit_waiting,
    unit_weights,
    unit_moves,
    unit_kept,
    unit_goes_on,
    unit_tares,
    unit_thresholds,
    unit_steps,
    unit_profiles,
    unit_limits,
    unit_refusals,
    unit_rooms,
    unit_buffers,
    # DeltaRange pouches.
    range_limits,
    range_deciding,
    range_rounding,
    range_waits,
    range_typed,
    range_typed_ounces,
    range_on_change,
    range_units,
    range_profiles,
    range_refusals,
    range_lines,
    # The profile.
    text_lengths,
    text_bytes,
    capacity_limits,
    margin_and_range_limits,
    patience_limits,
    decimals_and_step_limits,
    finest_steps,
    widest_nets,
    printed_ends,
    # Refusal numbers.
    refusal_1,
    refusals_in_order,
    refusal_2,
    refusal_3,
    no_room,
    comments_and_last_line,
]


def main():
    for write_part in SCRIPT:
        write_part()
    sys.stdout.buffer.write("\n".join(script).encode("latin-1"))


if __name__ == "__main__":
    main()
