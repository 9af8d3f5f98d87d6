#!/usr/bin/env python3
"""Document 02, No. 4: the module divides where a weight or a typed number is rounded, and nowhere else.

Reads the sources of every crate that `device` uses, by crates.txt, and fails on a division or a
remainder outside the functions of ROUNDINGS, or if one of these does not divide just once.
Comments, ghost lines, the clauses of a function (`requires` and `ensures`) and texts are not code.
Then it plants divisions in copies of the sources, to see that each is found.
"""
import pathlib
import re
import sys

ROOT = pathlib.Path(__file__).resolve().parent.parent
MODULE = "device"

# The divisions of a weight's rounding and of a typed number's: crate, file without its ending, function.
ROUNDINGS = [("weight", "integer", "divide"), ("weight", "amount", "half_up")]

# What is not code, the first alternatives first; then what is looked for: a division or a remainder
# as an operator or by a name of the library, the head of a function, the head of a clause, a brace.
SKIPPED = r'//[^\n]*|/\*.*?\*/|ghost use [^;]*;|b?"(?:[^"\\]|\\.)*"|b?\'(?:[^\'\\]|\\.)\''
DIVIDES = (
    r"[/%]=?|\b\w*(?:div|rem)_\w*|\b\w*_(?:div|rem)\w*\b|\b(?:Div|Rem)(?:Assign)?\b|(?<=[.:])(?:div|rem)\b"
    r"|\b\w*(?:multiple_of|ilog|isqrt)\w*\b"
)
TOKEN = re.compile(
    rf"(?P<skipped>{SKIPPED})|(?P<clause>\b(?:requires|ensures)\b\*?\s*\w*\s*{{)|(?P<divides>{DIVIDES})"
    r"|\bfn\s+(?P<name>\w+)|(?P<brace>[{}])",
    re.DOTALL,
)


def divisions(source):
    """The function in which each division or remainder of a source stands, and its line."""
    # How many braces are open, and how many of a clause.
    found, function, depth, clause = [], None, 0, 0
    for token in TOKEN.finditer(source):
        if token["clause"]:
            clause += 1
        elif clause:
            clause += {"{": 1, "}": -1}.get(token["brace"], 0)
        elif token["name"]:
            function = token["name"]
        elif token["brace"]:
            depth += 1 if token["brace"] == "{" else -1
        elif token["divides"]:
            line = source.count("\n", 0, token.start()) + 1
            found.append((function if depth > 0 else None, line, token["divides"]))
    return found


def uses():
    """The crates that each crate uses, by crates.txt."""
    lines = (ROOT / "crates.txt").read_text().splitlines()
    pairs = (line.split(":") for line in lines if line and not line.startswith("#"))
    # A static library has a word after its name.
    return {name.split()[0]: used.split() for name, used in pairs}


def module_crates():
    """The module's crate and all that it uses."""
    of, crates, left = uses(), set(), [MODULE]
    while left:
        crate = left.pop()
        if crate not in crates:
            crates.add(crate)
            left += of[crate]
    return sorted(crates)


def sources():
    """The texts of the module's sources, by crate and file without its ending."""
    folders = {crate: ROOT / "crates" / crate / "src" for crate in module_crates()}
    return {
        (crate, path.relative_to(folder).with_suffix("").as_posix()): path.read_text()
        for crate, folder in folders.items()
        for path in sorted(folder.glob("**/*.rt"))
    }


def faults(texts):
    """What is wrong with the divisions of the sources, one line each."""
    wrong, often = [], dict.fromkeys(ROUNDINGS, 0)
    for (crate, file), text in texts.items():
        for function, line, operator in divisions(text):
            place, said = (crate, file, function), f"crates/{crate}/src/{file}.rt:{line}: `{operator}` in `{function}`"
            if place not in often:
                wrong.append(f"{said}, which rounds nothing")
            elif operator == "/":
                often[place] += 1
            else:
                wrong.append(f"{said}, where the remainder is what a product leaves")
    for (crate, file, function), times in often.items():
        if times != 1:
            wrong.append(f"crates/{crate}/src/{file}.rt: `{function}` divides {times} times, and not once")
    return wrong


# In this function a line is added after the one that opens it: whether it has to be found.
PLANTED = [
    (("text", "field", "put_digit"), "    let planted = value / 10;", True),
    (("text", "field", "put_digits"), "    let planted = value % 10;", True),
    (("text", "field", "decimal"), "    let mut planted = value;\n    planted /= 10;", True),
    (("device", "call", "take_sample"), "    let mut planted = 7;\n    planted %= 3;", True),
    (("commands", "perform", "line_reaction"), "    let planted = wrapping_div_u64(7, 3);", True),
    (("commands", "perform", "line_reaction"), "    let planted = 7u64.div_ceil(3);", True),
    (("commands", "perform", "line_reaction"), "    let planted = 7u64.div(3);", True),
    (("commands", "perform", "line_reaction"), "    let planted = u64::rem(7, 3);", True),
    (("commands", "perform", "line_reaction"), "    let planted = 7u64.is_multiple_of(3);", True),
    (("weight", "integer", "divide"), "    let planted = x / 10;", True),
    (("weight", "integer", "divide"), "    let planted = x % 10;", True),
    (("weight", "amount", "half_up"), "    let planted = value / by;", True),
    (("weight", "amount", "half_up"), "    let planted = value % by;", True),
    (("weight", "rounding", "nearest"), "    let planted = by / 10;", True),
    (("weight", "amount", "typed_amount"), "    let planted = b\"/\"; // a / b\n    let other = value / 10;", True),
    (("text", "field", "put_digit"), "    // value / 10 % 10", False),
    (("text", "field", "put_digit"), "    let planted = b'/';", False),
    (("text", "field", "put_digit"), "    let planted = b\"1/2 %\";", False),
]


def plant(texts, place, added):
    """The sources with a line more in one function."""
    *file, function = place
    text = texts[tuple(file)]
    opened = re.search(rf"\bfn {function}\(.*?\n{{\n", text, re.DOTALL)
    if opened is None:
        sys.exit(f"divides: the planted line is out of date: there is no function {'::'.join(place)}")
    return {**texts, tuple(file): text[: opened.end()] + added + "\n" + text[opened.end() :]}


def main():
    texts = sources()
    wrong = faults(texts)
    if wrong:
        sys.exit("\n".join(["divides: the module divides where it should not:"] + wrong))
    for place, added, due in PLANTED:
        if bool(faults(plant(texts, place, added))) != due:
            sys.exit(f"divides: {added.strip()!r} in {'::'.join(place)} is {'NOT ' if due else ''}found")
    named = ", ".join("::".join(place) for place in ROUNDINGS)
    planted = sum(due for _, _, due in PLANTED)
    print(f"divides: {len(texts)} sources of {len(module_crates())} crates divide once each in {named}, and nowhere else; {planted} planted divisions are found")


if __name__ == "__main__":
    main()
