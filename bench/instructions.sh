#!/bin/sh
# Instructions of the exported and of the independent functions, counted by callgrind. With TEXTS=1 those of texts alone, with PART=clauses those
# of plans handed back as Prolog alone (likewise shift, reply-shift, asking, replies, edits, files, salvage, columns, liked). Arguments go to cargo, as
# `--no-default-features --features stand-in`.
set -eu
cd "$(dirname "$0")"
if ! command -v valgrind >/dev/null; then
    echo "valgrind is not installed: no instructions are counted"
    exit 0
fi
cargo build --quiet --release "$@"
counts=$(mktemp -d)
mkdir "$counts/shift" "$counts/reply-shift" "$counts/asking" "$counts/replies" "$counts/edits" "$counts/clauses" "$counts/files" "$counts/salvage" "$counts/columns" "$counts/liked"
trap 'rm -r "$counts"' EXIT
if [ -z "${PART:-}" ]; then
    valgrind --quiet --tool=callgrind --toggle-collect=measured --dump-after=measured --callgrind-out-file="$counts/count" \
        target/release/dudowiej-bench "count${TEXTS:+-texts}"
    target/release/dudowiej-bench "${TEXTS:+text-}instructions" "$counts"
    [ -z "${TEXTS:-}" ] || exit 0
fi
for part in ${PART:-shift reply-shift asking replies edits clauses files salvage columns liked}; do
    valgrind --quiet --tool=callgrind --toggle-collect=measured --dump-after=measured --callgrind-out-file="$counts/$part/count" \
        target/release/dudowiej-bench "count-$part"
    target/release/dudowiej-bench "instructions-$part" "$counts/$part"
done
