#!/usr/bin/env python3
"""Lists the places of docs/DESIGN-PASS.md: what in crates/*/src reads like a Rattle without enums, generics, iterators and derives.

usage: tools/places.py [--at COMMIT] [POINT ..]     each place, and how many there are; POINT is a number from 1 to 7

It looks for spellings, so what it lists is to be read: docs/DESIGN-PASS.md says of each place that stays why.
"""
import re, subprocess, sys
from collections import Counter, defaultdict


def sources(commit):
    if commit is None:
        names = subprocess.run(["git", "ls-files", "crates/*/src/*.rt"], capture_output=True, text=True, check=True).stdout.split()
        return {n: open(n, encoding="utf-8").read() for n in names}
    listed = subprocess.run(["git", "ls-tree", "-r", "--name-only", commit, "crates"], capture_output=True, text=True, check=True)
    names = [n for n in listed.stdout.split() if re.fullmatch(r"crates/\w+/src/.*\.rt", n)]
    show = lambda n: subprocess.run(["git", "show", f"{commit}:{n}"], capture_output=True, text=True, check=True).stdout
    return {n: show(n) for n in names}


def lines(files, pattern):
    return [f"{n}:{i}: {l.strip()}" for n, t in files.items() for i, l in enumerate(t.split("\n"), 1) if re.search(pattern, l)]


def functions(files):
    """(file, line, name, head, body) of each function that has a body."""
    for n, text in files.items():
        for m in re.finditer(r"^ *(?:pub(?:\(crate\))? )?(?:extern \"C\" )?fn (\w+)(.*?)^( *)\{\n(.*?)^\3\}|"
                             r"^ *(?:pub )?fn (\w+)(\([^\n]*)\{\n(.*?)^\}", text, re.M | re.S):
            name, head, body = (m[1], m[2], m[4]) if m[1] else (m[5], m[6], m[7])
            yield n, text[:m.start()].count("\n") + 1, name, head, body


def shape(body):
    """The body with its names and literals numbered as they come, so that twins have one shape."""
    body = re.sub(r"//[^\n]*", "", body)
    seen = {}
    words = re.findall(r"\w+|b?'(?:\\.|[^'])'|b?\"(?:\\.|[^\"])*\"|[^\s\w]", body)
    keep = {"let", "mut", "if", "else", "match", "while", "for", "in", "return", "as", "true", "false", "Self", "self"}
    return tuple(w if w in keep or not re.match(r"[\w'\"]", w) else f"#{seen.setdefault(w, len(seen))}" for w in words)


def one(files):
    """Own enums like Option and Result, a flag or a refusal beside a value, numbers for kinds and refusals."""
    numbers = []
    for kind, pattern in [("commands", r"^pub const \w+: u8 = (0|\w+ \+ 1|M21);"), ("classes", r"^const (DIGIT|CAPITAL|SPACE|QUOTE|POINT|AT_SIGN|CONTROL|OTHER): u8 = \d;"),
                          ("sets of classes", r"^pub const (DIGITS|SPACES|QUOTES|POINTS|CONTROLS|ALL): u8"), ("kinds of records", r"^(pub )?const (BYTE|SAMPLE|POWER_ON|PROFILE|BUFFER): u8")]:
        for n, t in files.items():
            found = lines({n: t}, pattern)
            numbers += [f"{found[0]} .. ({len(found)} numbers for {kind})"] if found else []
    return (lines(files, r"^    (NotTyped|NoNumber|Unknown|None|Refused|Beyond|Nothing|Other),$")
            + lines(files, r"^    (pub )?(fits|good): bool|^    pub refusal: ")
            + numbers
            + lines(files, r"\bNO_NUMBER: |_ => 16,|^fn text_command\(|^fn \w*number\w*\(\w+: (Status|Error|Refusal)\)"))


def two(files):
    """Functions that are one but for names and literals; types that differ in a size."""
    shapes = defaultdict(list)
    for n, i, name, head, body in functions(files):
        s = shape(body)
        if len(s) >= 18:
            shapes[s].append(f"{n}:{i}: {name}")
    found = [" = ".join(v) for v in shapes.values() if len(v) > 1]
    return found + lines(files, r"^pub struct \w*?\d+ \{")


def three(files):
    """Loops that count by hand."""
    return lines(files, r"^\s*while ")


def four(files):
    """Copies field by field, comparisons and conversions by a match of every case."""
    found = []
    for n, i, name, head, body in functions(files):
        copied = re.findall(r"^\s+(\w+)(?:: \w+\.\1)?,$", body, re.M)
        named = [w for w in copied if re.search(rf"let {w} = \w+\.{w};", body) or re.search(rf"\b{w}: \w+\.{w},", body)]
        if len(named) >= 2 and re.search(r"^ +\w+ \{$|^    [A-Z]\w+ \{$", body, re.M):
            found.append(f"{n}:{i}: {name} (copies {len(named)} fields)")
        arms = re.findall(r"=> (true|false),", body)
        if len(arms) >= 3 and len(arms) == body.count("=>"):
            found.append(f"{n}:{i}: {name} (compares)")
    for n, i, name, head, body in functions(files):
        if name in ("place_of", "status_byte", "error_byte", "letter", "status_number") and "match" in body or name == "same_text" and "while" in body:
            found.append(f"{n}:{i}: {name}")
    return found + lines(files, r"fn (from_load|from_tare|from_count|threshold_of)\(")


def five(files):
    """A fact that three or more contracts of a crate state."""
    facts = defaultdict(Counter)
    for n, t in files.items():
        for fact in re.findall(r"requires (?:\w+ )?\{ (.*?) \}\n", t):
            facts[n.split("/")[1]][fact] += 1
    return [f"crates/{c}: {k} times: {f}" for c, fs in facts.items() for f, k in fs.items() if k >= 3]


def six(files):
    """Buffers with a length beside them, tables that are searched."""
    return lines(files, r"^    (pub )?len: (u8|usize),") + lines(files, r"^const (NAMES|UNITS): |^const \w+: \[u8; 1\]")


def seven(files):
    """A flag that says which step to run; one step written for each unit."""
    return ([f"{n}:{i}: {name}" for n, i, name, head, body in functions(files) if re.search(r"if (near|coded|coarse) \{\s+return \w+\(", body)]
            + lines(files, r"^fn find_unit\(")
            + [f"{n}:{i}: {name}" for n, i, name, head, body in functions(files) if len(re.findall(r"WeightUnit::\w+, reach\)", body)) > 3])


POINTS = {"1": one, "2": two, "3": three, "4": four, "5": five, "6": six, "7": seven}

if __name__ == "__main__":
    words = sys.argv[1:]
    commit = None
    if "--at" in words:
        commit = words[words.index("--at") + 1]
        at = words.index("--at")
        words = words[:at] + words[at + 2:]
    files = sources(commit)
    for p in words or POINTS:
        places = POINTS[p](files)
        print(f"== {p}: {len(places)}: {POINTS[p].__doc__}")
        for place in places:
            print(place)
