#!/bin/sh
# `ask --tune` on random tables, by `ask` alone: what it counts is what `--count` counts with the list of columns that it prints and without one,
# no list that is tried here counts less, its plan is that of `--known` with this list, and it refuses the goals that `ask` refuses. Every list is
# tried for up to 4 columns, else those of one and of two. Not part of the gate. `tools/build ask` writes target/bin/ask.
#
# usage: bench/ask_tune.sh [TABLES [SEED]]
set -eu
cd "$(dirname "$0")"
ask=${ASK:-$PWD/../target/bin/ask}
[ -x "$ask" ] || { echo "target/bin/ask is not there: run \`tools/build ask\` first"; exit 1; }
# the texts need no exported function
cargo build --quiet --release --features stand-in --target-dir target/stand-in
folder=$(mktemp -d)
trap 'rm -r "$folder"' EXIT
target/stand-in/release/dudowiej-bench texts "$folder" "${1:-60}" "${2:-1995}" >/dev/null
cd "$folder"

# goals for a text: its facts, with some of their arguments replaced by variables, and a line that is no goal. A line of NAME.facts has the width
# and then the symbols from left to right, names with their number of arguments
goals() {
    name=$(sed 's/%.*//' "$1.pl" | tr '\n' ' ' | sed 's/^[^a-z]*//; s/[^A-Za-z0-9_].*//')
    awk -v name="$name" -v seed="$2" '
        function term(   word, count, text, k) {
            word = $(at++)
            if (word !~ /\//) return word
            count = word; sub(/.*\//, "", count); sub(/\/.*/, "", word)
            if (count == 0) return word
            text = word "("
            for (k = 1; k <= count; k++) text = text (k > 1 ? ", " : "") term()
            return text ")"
        }
        BEGIN { srand(seed) }
        { width = $1 + 0
          for (turn = 0; turn < 3; turn++) {
              at = 2; goal = name "("
              for (a = 1; a <= width; a++) {
                  kept = term()
                  goal = goal (a > 1 ? ", " : "") (rand() * width < a ? kept : "V" a)
              }
              print goal ")"
          } }
        END { print name "(" }' "$1.facts"
}
# what the goals try in all, with the options given
tried() { "$ask" --count "$@" <goals 2>/dev/null | sed -n 's/^ *\([0-9]*\)  branch\(es\)\{0,1\} tried.*/\1/p' | tail -n 1; }
# lists of columns below a width
lists() {
    awk -v width="$1" 'BEGIN {
        for (set = 1; set < 2 ^ width; set++) {
            list = ""; count = 0; rest = set
            for (c = 1; c <= width; c++) { if (rest % 2) { list = list (count++ ? "," : "") c } rest = int(rest / 2) }
            if (width <= 4 || count <= 2) print list
        } }'
}
tables=0 tuned=0 lists=0 differ=0
wrong() { echo "$text: $*"; differ=$((differ + 1)); }
for facts in t*.facts; do
    text=${facts%.facts}.pl
    goals "${facts%.facts}" "$tables" >goals
    tables=$((tables + 1))
    "$ask" --tune goals "$text" >found 2>refused
    known=$(sed -n '1s/^look at columns\{0,1\} \([0-9,]*\) first: ask --known \([0-9,]*\) .*/\2/p' found)
    sum=$(sed -n '2s/.*refused: \([0-9]*\) .*/\1/p' found)
    plain=$(sed -n '2s/.* \([0-9]*\) by the plain plan/\1/p' found)
    [ "$plain" = "$(tried "$text")" ] || wrong "the plain plan's branches are others"
    if [ -n "$known" ]; then
        tuned=$((tuned + 1))
        [ "$sum" -lt "$plain" ] && [ "$sum" = "$(tried --known "$known" "$text")" ] || wrong "with $known other branches are tried"
        "$ask" --known "$known" --plan "$text" >plan
    else
        [ "$sum" = "$plain" ] || wrong "no columns are named, and fewer branches are tried"
        "$ask" --plan "$text" >plan
    fi
    sed 1,2d found | cmp -s - plan || wrong "the plan is another"
    "$ask" "$text" <goals 2>&1 >/dev/null | sed 's/^standard input:/goals:/' | cmp -s - refused || wrong "other goals are refused"
    for list in $(lists "$(sed -n '1s/:.*//p' "$facts")"); do
        lists=$((lists + 1))
        [ "$(tried --known "$list" "$text")" -ge "$sum" ] || wrong "with $list fewer branches are tried"
    done
done
echo "$tables tables, $tuned of them with columns to look at first, $lists lists of columns: $differ differ"
