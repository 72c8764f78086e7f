#!/bin/sh
# 10,000 goals on standard input, answered by `ask` and by SWI-Prolog: seconds on the clock, the least of five runs of each in turn, and the same
# without goals. Not part of the gate. `tools/build ask` writes target/bin/ask; other programs to be timed beside it are named as arguments.
#
# usage: bench/ask_time.sh [PROGRAM ..]
set -eu
cd "$(dirname "$0")"
bench=$PWD
command -v swipl >/dev/null || { echo "SWI-Prolog (swipl) is not installed: not timed"; exit 0; }
folder=$(mktemp -d)
trap 'rm -r "$folder"' EXIT
cp ../samples/shop.pl "$folder/shop.pl"
for program in "$bench/../target/bin/ask" "$@"; do
    [ -x "$program" ] || { echo "$program is not there"; exit 1; }
    echo "$program" >>"$folder/programs"
done
cd "$folder"

swi() { swipl -q -g "$1" -t halt "$2"; }
swi "full('full.pl')" "$bench/ask_time.pl" </dev/null
for name in shop full; do
    swi "set_random(seed(1995)), goals($name, 10000)" "$bench/ask.pl" </dev/null
    # a full stop after each
    sed 's/\.$//; s/$/./' "$name.goals" >"$name.stopped"
    : >"$name.none"
done

now() { date +%s%N; }
# the least of five runs, in microseconds
least() {
    best=
    for _ in 1 2 3 4 5; do
        start=$(now)
        if [ "$1" = swi ]; then swi "answer('$2.pl')" "$bench/ask_time.pl" <"$3" >/dev/null; else "$1" "$2.pl" <"$3" >/dev/null; fi
        took=$((($(now) - start) / 1000))
        [ -n "$best" ] && [ "$best" -le "$took" ] || best=$took
    done
    echo "$best"
}
for name in shop full; do
    all=$(least swi "$name" "$name.stopped")
    none=$(least swi "$name" "$name.none")
    echo "$name, SWI-Prolog: $all us, without goals $none us"
    while read -r program; do
        took=$(least "$program" "$name" "$name.stopped")
        start=$(least "$program" "$name" "$name.none")
        echo "$name, $(basename "$program"): $took us, without goals $start us; $(awk "BEGIN { printf \"%.2f of SWI-Prolog's time, %.2f without the start\", $took / $all, ($took - $start) / ($all - $none) }")"
    done <programs
done
