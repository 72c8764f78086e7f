#!/bin/sh
# Accepted texts read by SWI-Prolog and by GNU Prolog too, where they are installed: their facts must be those of the exported entry. Then
# the texts that are refused here, by kind, and what each Prolog makes of them. Not part of the gate.
#
# usage: bench/prolog.sh [COUNT [SEED]]
set -eu
cd "$(dirname "$0")"
bench=$PWD
cargo build --quiet --release
folder=$(mktemp -d)
trap 'rm -r "$folder"' EXIT
target/release/dudowiej-bench texts "$folder" "${1:-1000}" "${2:-1995}"
cd "$folder"

swi() { swipl -q -g "set_prolog_flag(encoding,iso_latin_1)" -g "$1" -t halt "$bench/facts.pl" </dev/null; }
# Its table of atoms is small unless it is told.
gnu() { MAX_ATOM=1000000 gprolog --consult-file "$bench/facts.pl" --query-goal "$1,halt" </dev/null >gnu.log 2>&1; }

# The first argument reads a list, the second is the Prolog's name.
compare() {
    rm -f ./*.read
    "$1" accepted || echo "$2 ended with status $?"
    differ=0
    for text in t*.pl; do
        name=${text%.pl}
        if ! cmp -s "$name.facts" "$name.read"; then
            differ=$((differ + 1))
            [ "$differ" -gt 5 ] || { echo "$2 reads another thing:"; cat -v "$text"; echo; diff "$name.facts" "$name.read" || true; }
        fi
    done
    echo "$2: $(find . -name 't*.pl' | wc -l) texts, $differ differ"
    "$1" refused || echo "$2 ended with status $?"
    while read -r name kind; do
        [ -f "$name.read" ] && said=$(tr '\n' ';' <"$name.read" | cut -c1-60) || said="not read"
        printf '  %-40s %s\n' "$kind" "$said"
    done <kinds
    [ "$differ" -eq 0 ]
}

status=0
# The program, how it is called, its name.
try() {
    if command -v "$1" >/dev/null; then
        compare "$2" "$3" || status=1
    else
        echo "$3 ($1) is not installed: not compared"
    fi
}
try swipl swi SWI-Prolog
try gprolog gnu "GNU Prolog"
exit "$status"
