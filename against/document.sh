#!/usr/bin/env bash
# Runs the comparison, the wrong functions and the outline program, and writes what they print into docs/AGAINST.md: the
# numbers of comparisons and of inputs, the table of codes, and the prints. It writes nothing if something differs.
# It needs what `cargo test` needs.
set -euo pipefail
export LC_ALL=C
cd "$(dirname "${BASH_SOURCE[0]}")"
document=../docs/AGAINST.md
export CARGO_TARGET_DIR=${CARGO_TARGET_DIR:-$PWD/../target/cargo}
work=$(mktemp -d)
trap 'rm -rf "$work"' EXIT

run() { # LOG WORDS..: what cargo prints goes to LOG; its end is shown where it fails
    cargo "${@:2}" >"$work/$1" 2>"$work/problems" || {
        tail -n 20 "$work/$1" "$work/problems" >&2
        exit 1
    }
}
run compared run --release --offline --locked
run wrong test --release --offline --locked --test wrong
run outline test --release --offline --locked --test outline -- --nocapture

awk '
    function grouped(number) {
        return number < 1000 ? number "" : grouped(int(number / 1000)) sprintf(",%03d", number % 1000)
    }
    function fail(what) {
        print "document.sh: " what >"/dev/stderr"
        failed = 1
        exit 1
    }
    FILENAME ~ /compared$/ {
        if (match($0, /: [0-9]+ comparisons, differences 0 \([0-9.]+ s\)$/)) {
            name = substr($0, 1, RSTART - 1)
            split(substr($0, RSTART + 2), word, " ")
            count[name] = word[1]
            sub(/^.*\(/, "")
            seconds += $1
        } else if (/^total, /) {
            total = $4
        } else if (/^\|/) {
            codes = codes $0 "\n"
        }
        next
    }
    FILENAME ~ /wrong$/ {
        if (/^reading one byte/) after = 1
        if (after && NF) reading = reading $0 "\n"
        else if (!after) wrong = wrong $0 "\n"
        if (/^wrong functions: /) functions = $3 + 0
        next
    }
    FILENAME ~ /outline$/ {
        if (/^outline: [0-9]+ inputs, differences 0$/) inputs = $2
        next
    }
    # from here on a line of the document
    /^```/ {
        fenced = !fenced
        print
        if (fenced) printf "%s", ++prints == 1 ? wrong : reading
        next
    }
    fenced { next }
    /^With the usual seed, / {
        sub(/[^ ]+ comparisons/, grouped(total) " comparisons")
        sub(/in some [^ ]+ seconds/, "in some " int(seconds + 0.5) " seconds")
    }
    /functions that are wrong in one thing each/ { sub(/^[^ ]+/, functions) }
    /starts the program `outline` on / { sub(/on [^ ]+ inputs/, "on " inputs " inputs") }
    /^\| call \| 0 \|/ { table = "codes"; printf "%s", codes }
    /^\| group \|/ { table = "groups" }
    !/^\|/ { table = "" }
    table == "codes" { next }
    table == "groups" {
        split($0, cell, " [|] ")
        name = substr(cell[1], 3)
        if (name in count) {
            sub(/ [|] [^|]* [|] /, " | " grouped(count[name]) " | ")
            delete count[name]
        } else if (name != "group" && !/^\|---/) {
            fail("there is no group \"" name "\"")
        }
    }
    { print }
    END {
        if (failed) exit 1
        for (name in count) fail("docs/AGAINST.md has no row for the group \"" name "\"")
        if (!total || !functions || !inputs || prints != 2) fail("something is missing in what was printed")
    }' "$work/compared" "$work/wrong" "$work/outline" "$document" >"$work/document"
cp "$work/document" "$document"
echo "docs/AGAINST.md: written"
