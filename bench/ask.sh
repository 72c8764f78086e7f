#!/bin/sh
# Goals answered by `ask` and by SWI-Prolog, on random tables: the same answers in the same order up to the names of variables, with the
# same rules and lines. Then by `ask` alone: with each column known the same answers, whatever is tried for them; and the counts of `--count` are
# those of the answers. Not part of the gate. `tools/build ask` writes target/bin/ask.
#
# usage: bench/ask.sh [TABLES [SEED]]
set -eu
cd "$(dirname "$0")"
bench=$PWD
ask=$bench/../target/bin/ask
command -v swipl >/dev/null || { echo "SWI-Prolog (swipl) is not installed: not compared"; exit 0; }
[ -x "$ask" ] || { echo "target/bin/ask is not there: run \`tools/build ask\` first"; exit 1; }
# the texts need no exported function
cargo build --quiet --release --no-default-features --features stand-in --target-dir target/stand-in
folder=$(mktemp -d)
trap 'rm -r "$folder"' EXIT
target/stand-in/release/dudowiej-bench texts "$folder" "${1:-300}" "${2:-1995}" >/dev/null
cd "$folder"

swi() { swipl -q -g "$1" -t halt "$bench/ask.pl" </dev/null; }
swi "make(${2:-1995})"
for text in t*.pl; do
    name=${text%.pl}
    "$ask" "$text" <"$name.goals" >"$name.answers"
done
swi check

# answers without what was tried for them
untried() { sed 's/, [0-9]* of [0-9]* branch.*//' "$1" >"$1.untried"; }
# what the answers add up to, as `--count` prints it
added() {
    awk '/^rule [0-9]+, line / { fits[$2 + 0]++ }
        / rules? fits?, / { answered++; tried += $4 }
        END { for (r = 1; r <= 64; r++) print r, fits[r] + 0; print answered + 0, tried + 0 }' "$1"
}
# the same of the table that `--count` prints, which names the rules that there are
counted() {
    awk 'table && $2 == "rule" { fits[$3 + 0] = $1 }
        table && / goals? answered$/ { answered = $1 }
        table && / branch(es)? tried$/ { tried = $1 }
        /^counts over all goals:$/ { table = 1 }
        END { for (r = 1; r <= 64; r++) print r, fits[r] + 0; print answered + 0, tried + 0 }' "$1"
}
known=0 counts=0 differ=0
for text in t*.pl; do
    name=${text%.pl}
    untried "$name.answers"
    for column in 1 2 3 4 5 6 7 8; do
        "$ask" --known "$column" "$text" <"$name.goals" >"$name.known" 2>"$name.refused"
        ! grep -q '^--known .*: COLUMN 33: ' "$name.refused" || break
        untried "$name.known"
        known=$((known + 1))
        cmp -s "$name.answers.untried" "$name.known.untried" || { echo "$text: not the same with column $column known"; differ=$((differ + 1)); }
    done
    "$ask" --count "$text" <"$name.goals" >"$name.counts" 2>/dev/null
    added "$name.answers" >"$name.added"
    counted "$name.counts" >"$name.counted"
    counts=$((counts + 1))
    cmp -s "$name.added" "$name.counted" || { echo "$text: the counts are not those of the answers"; differ=$((differ + 1)); }
done
echo "$known plans for a known column and $counts tables of counts: $differ differ"
