#!/bin/sh
# Plans handed back as Prolog, loaded by SWI-Prolog and by GNU Prolog where they are installed: without a warning, and to every goal they answer
# what the exported replies say, in the same order. SWI-Prolog unifies with the occurs check; GNU Prolog has none, so that it is asked only what
# needs none: every goal of a table whose rows use each variable once, and goals without variables of the others. Then the program that
# `ask --prolog` prints, where that is built. Not part of the gate. With STANDIN=1 the independent functions are tried in the exported ones' place.
#
# usage: bench/clauses.sh [TABLES [SEED]]
set -eu
cd "$(dirname "$0")"
bench=$PWD
if [ -n "${STANDIN:-}" ]; then
    cargo build --quiet --release --no-default-features --features stand-in --target-dir target/stand-in
    program=target/stand-in/release/dudowiej-bench
else
    cargo build --quiet --release
    program=target/release/dudowiej-bench
fi
folder=$(mktemp -d)
trap 'rm -r "$folder"' EXIT
"$program" programs "$folder" "${1:-400}" "${2:-1995}"
cd "$folder"
read -r goals plain <counts
status=0

# What is said in a log of a Prolog that loads without a word, or without a warning.
quiet() {
    if [ -s "$1" ]; then
        echo "$2 said:"
        head -5 "$1"
        status=1
    fi
}

# The files' first letter, the Prolog's name, how many goals there are.
compare() {
    differ=0
    tables=0
    for replies in "$1"*.replies; do
        name=${replies%.replies}
        tables=$((tables + 1))
        if ! cmp -s "$replies" "$name.answers"; then
            differ=$((differ + 1))
            [ "$differ" -gt 5 ] || { echo "$2 answers another thing:"; cat "c${name#?}.pl" "$name.goals"; diff "$replies" "$name.answers" || true; }
        fi
    done
    echo "$2: $tables tables, $3 goals, $differ differ"
    [ "$differ" -eq 0 ] || status=1
}

# A program and goals for it, answered by each Prolog: the files without their endings.
swi() { swipl -q -g "set_prolog_flag(occurs_check,true)" -g "$1" -t halt "$bench/facts.pl" "$bench/clauses.pl" </dev/null 2>swi.log; }
# Its log has a line for each file that it loads; what else it says is kept.
gnu() {
    gprolog --consult-file "$1" --consult-file "$bench/facts.pl" --consult-file "$bench/clauses.pl" --query-goal "$2,halt" </dev/null >gnu.all 2>&1 ||
        echo "GNU Prolog ended with status $?" >>gnu.log
    grep -iE 'warning|error|exception|redefin' gnu.all >>gnu.log || true
}

if command -v swipl >/dev/null; then
    swi every_program || { echo "SWI-Prolog ended with status $?"; status=1; }
    quiet swi.log SWI-Prolog
    compare c SWI-Prolog "$goals"
else
    echo "SWI-Prolog (swipl) is not installed: not compared"
fi

if command -v gprolog >/dev/null; then
    : >gnu.log
    for replies in g*.replies; do
        name=${replies%.replies}
        gnu "c${name#g}.pl" "ask('$name.goals','$name.answers')"
    done
    quiet gnu.log "GNU Prolog"
    compare g "GNU Prolog" "$plain"
    echo "  ($((goals - plain)) goals are left out: they have a variable, and a row of their table repeats one)"
else
    echo "GNU Prolog (gprolog) is not installed: not compared"
fi

# The shop's rules and the program that `ask` hands back for them answer the same.
ask=$bench/../target/bin/ask
if ! [ -x "$ask" ] || ! "$ask" --prolog "$bench/../samples/shop.pl" >handed.pl 2>/dev/null; then
    echo "target/bin/ask does not print a program: not compared"
    exit "$status"
fi
cp "$bench/../samples/shop.pl" shop.pl
cat >shop.goals <<'END'
rule(A, B, C, D).
rule(A, A, C, D).
rule(A, B, C, B).
rule(9, B, C, D).
rule(10, red, ring, D).
rule(9, blue, bowl(A), D).
rule(9, blue, bowl(A), A).
rule(A, black, B, C).
rule(1, black, ring, heat(A)).
rule(7, green, tray, D).
rule(A, B, bowl(C), hard).
END
for prolog in swi gnu; do
    command -v "$([ "$prolog" = swi ] && echo swipl || echo gprolog)" >/dev/null || continue
    : >"$prolog.log"
    for text in shop handed; do
        case $prolog in
        swi) swi "load_files('$text.pl',[]),ask('shop.goals','$text.$prolog')" ;;
        gnu) gnu "$text.pl" "ask('shop.goals','$text.$prolog')" ;;
        esac
        # The shop's own comments are no matter; the program's text is.
        [ "$text" = shop ] || quiet "$prolog.log" "$prolog"
    done
    if cmp -s "shop.$prolog" "handed.$prolog"; then
        echo "ask --prolog, $prolog: $(wc -l <shop.goals) goals, $(grep -vc '^goal$' "handed.$prolog") answers, 0 differ"
    else
        diff "shop.$prolog" "handed.$prolog" || status=1
    fi
done
exit "$status"
