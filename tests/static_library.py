#!/usr/bin/env python3
"""Builds the static library of crates/NAME_c as target/staticlib/libNAME.a, under which its callers in C and Rust link it.

usage: tests/static_library.py NAME [MODULE]

With MODULE the LLVM module is kept in that file, as the toolchain gives it to its clang, and in MODULE.options what the clang is told.

`rattle build` proves and compiles the crate over the libraries below it. `rt lib` proves those that have changed, but takes nothing of
what `rt ci` proved, and after it, in a new checkout, would prove each of them once more. So where all of them are as `rt ci` left them,
and no source is newer, they are taken as they are.
"""
import pathlib
import subprocess
import sys
import tempfile

ROOT = pathlib.Path(__file__).resolve().parent.parent
SOURCES = ("src", "specs", "proofs")


def uses():
    """The libraries that each crate uses, by crates.txt; the toolchain's have no line there."""
    lines = (line.partition("#")[0] for line in (ROOT / "crates.txt").read_text().splitlines())
    pairs = (line.split(":") for line in lines if line.strip())
    return {name.split()[0]: used.split() for name, used in pairs}


def below(crate, of):
    """The repository's crates that a crate stands on."""
    found, left = set(), list(of[crate])
    while left:
        it = left.pop()
        if it in of and it not in found:
            found.add(it)
            left += of[it]
    return sorted(found)


def rlib(crate):
    return ROOT / "crates" / crate / "out/rlib" / f"{crate}.rlib"


def is_of_ci(crates):
    """Whether `rt ci` made the libraries, which it marks with no stamp as other commands do, of the sources as they are."""
    made = [rlib(it) for it in crates]
    if not all((it / "format").is_file() and not (it.parent / "stamp").exists() for it in made):
        return False
    folders = [ROOT / "crates" / crate / part for crate in crates for part in SOURCES]
    files = [path for folder in folders for path in [folder, *folder.glob("**/*")]] + [ROOT / "crates.txt"]
    return max(it.stat().st_mtime for it in files if it.exists()) < min(it.stat().st_mtime for it in made)


def call(*words, cwd=ROOT):
    ran = subprocess.run(words, cwd=cwd, stdin=subprocess.DEVNULL, stdout=subprocess.PIPE, stderr=subprocess.STDOUT, errors="replace")
    if ran.returncode:
        sys.exit(f"{ran.stdout}static_library: status {ran.returncode}: {' '.join(map(str, words))}")
    return ran.stdout


def watched(tools, room, module):
    """A toolchain of links to another's files, but for a clang that keeps the module which it is given."""
    for folder, kept in ((tools, "bin"), (tools / "bin", "clang")):
        to = room / folder.relative_to(tools)
        to.mkdir()
        for it in folder.iterdir():
            if it.name != kept:
                (to / it.name).symlink_to(it)
    clang = room / "bin/clang"
    script = ["#!/bin/sh", "if [ -f module.bc ]; then", f"    [ ! -e '{module}' ] || exit 1"]
    script += [f"    cp module.bc '{module}' || exit 1", f"    printf '%s\\n' \"$*\" >'{module}.options'", "fi"]
    clang.write_text("\n".join([*script, f"exec '{tools}/bin/clang' \"$@\"", ""]))
    clang.chmod(0o755)
    return room


def build(name, module):
    crate, of = f"{name}_c", uses()
    folder, libraries = ROOT / "crates" / crate, below(crate, of)
    is_new = not is_of_ci(libraries)
    if is_new:
        call("rt", "lib", cwd=folder)
    kit = pathlib.Path(call("rt", "doc").strip()).parent
    archive = ROOT / "target/staticlib" / f"lib{name}.a"
    archive.parent.mkdir(parents=True, exist_ok=True)
    words = [kit / "bin/rattle", "build", "--crate-name", crate, "src/lib.rt", "--crate-type", "staticlib", "--links", f"{crate}="]
    for it in ["std", *of[crate]]:
        words += ["--extern", f"{it}={rlib(it) if it in of else kit / 'rlibs' / f'{it}.rlib'}"]
    for it in [kit / "rlibs", *[rlib(it).parent for it in libraries]]:
        words += ["-L", f"dependency={it}"]
    words += ["--antt-project", kit / "rattle/logic/antt-project.json", "--logic-built", kit / "logic_built", "--backend", "llvm"]
    words += ["--incremental", "out/incremental"] * is_new
    with tempfile.TemporaryDirectory() as room:
        tools = kit / "toolchain"
        tools = watched(tools, pathlib.Path(room) / "toolchain", module) if module else tools
        call(*words, "--toolchain", tools, "-o", archive, cwd=folder)
    if module and not module.is_file():
        sys.exit("static_library: rattle gave its clang no module.bc")


def main():
    if len(sys.argv) not in (2, 3):
        sys.exit("usage: tests/static_library.py NAME [MODULE]")
    build(sys.argv[1], pathlib.Path(sys.argv[2]).resolve() if len(sys.argv) == 3 else None)


if __name__ == "__main__":
    main()
