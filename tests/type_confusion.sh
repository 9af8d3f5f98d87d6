#!/bin/sh
# Document 01, "Weights": a count of micrograms where a count of display steps is due is refused by the compiler, and so are the
# other counts that have a type of their own. Makes each edit in a copy of crates/weight, which holds every conversion, and expects
# the refusal. A must-fail edit cannot hold these, since they do not reach the prover.
set -u

fail() {
    echo "type_confusion: $1" >&2
    exit 1
}

# In this file of crates/weight/src, this text, which is there once, becomes that one, and the compiler finds a type where another
# is due.
refused() { # FILE RIGHT WRONG FOUND DUE
    file=crates/weight/src/$1
    [ -f "$file" ] || fail "there is no $file"
    cp "$file" kept || exit 1
    RIGHT=$2 WRONG=$3 awk '
        { text = text $0 "\n" }
        END {
            right = ENVIRON["RIGHT"]
            at = index(text, right)
            if (!at) exit 3
            rest = substr(text, at + length(right))
            if (index(rest, right)) exit 4
            printf "%s%s%s", substr(text, 1, at - 1), ENVIRON["WRONG"], rest
        }' kept >"$file"
    case $? in
    0) ;;
    3) fail "the edit is out of date: $file has no '$2'" ;;
    4) fail "the edit is out of date: $file has '$2' more than once" ;;
    *) fail "the edit could not be made" ;;
    esac
    cmp -s kept "$file" && fail "the edit changes nothing"
    (cd crates/weight && rt check) >said 2>&1 && fail "$4 passed for $5 is NOT refused"
    grep -qF "error[mismatched-types]: expected \`$5\`, found \`$4\`" said ||
        fail "$4 passed for $5 is refused, and not for its type: $(head -n 3 said)"
    mv kept "$file" || exit 1
    echo "ok: the compiler refuses $4 where $5 is due"
}

root=$(cd "$(dirname "$0")/.." && pwd -P) || exit 1
copy=$(mktemp -d) || exit 1
trap 'rm -rf "$copy"' EXIT
trap 'exit 1' HUP INT TERM
mkdir "$copy/crates" || exit 1
cp -R "$root/crates/weight" "$copy/crates/" && rm -rf "$copy/crates/weight/out" || fail "crates/weight cannot be copied"
grep '^weight:' "$root/crates.txt" >"$copy/crates.txt" || fail "crates.txt has no line for weight"
cd "$copy" || exit 1

# As it stands the crate passes the compiler and the prover, so that each refusal is the edit's.
(cd crates/weight && rt check) >said 2>&1 || fail "crates/weight is refused without an edit: $(head -n 3 said)"

number='places_of(resolution, steps_of(allowed, near))'
refused printing.rt "$number" 'places_of(resolution, net)' Micrograms DisplaySteps
refused printing.rt "$number" "places_of(resolution, $number)" LastPlaces DisplaySteps
refused printing.rt "$number" 'steps_of(allowed, near)' DisplaySteps LastPlaces
refused loads.rt 'minus(gross_of(load, zero), Micrograms::from(tare))' 'minus(gross_of(load, zero), tare)' Tare Micrograms
refused loads.rt 'minus(Micrograms::from(load), Micrograms::from(zero))' 'minus(Micrograms::from(load), zero)' Load Micrograms
refused changes.rt 'Threshold(amount.0)' amount Tare Threshold
