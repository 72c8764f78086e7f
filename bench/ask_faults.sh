#!/bin/sh
# What `ask` says where reading or writing fails, which the gate cannot make, and to lines that are too long. Standard error stands beside standard
# output here. Not part of the gate. `tools/build ask` writes target/bin/ask; strace makes a read fail half-way.
#
# usage: bench/ask_faults.sh
set -eu
cd "$(dirname "$0")/../samples"
ask=../target/bin/ask
goal='rule(9, red, ring, Firing)'
exec 2>&1

say() { echo "-- $*"; }
say 'a folder'
$ask . "$goal"
$ask --tune . shop.pl
say 'no file'
$ask none.pl "$goal"
$ask --tune none.pl shop.pl
say 'standard input is a folder'
$ask shop.pl <.
$ask --tune - shop.pl <.
if command -v strace >/dev/null; then
    say 'the second read of a file fails'
    strace -qq -o /dev/null -P "$PWD/shop.pl" -e trace=read -e inject=read:error=EIO:when=2 $ask shop.pl "$goal"
    say 'the second read of standard input fails, after a line and a half'
    folder=$(mktemp -d)
    printf '%s\nrule(9, red' "$goal" >"$folder/goals"
    strace -qq -o /dev/null -P "$folder/goals" -e trace=read -e inject=read:error=EIO:when=2 $ask shop.pl <"$folder/goals"
    say 'the second read of a file of goals fails, and nothing is counted'
    strace -qq -o /dev/null -P "$folder/goals" -e trace=read -e inject=read:error=EIO:when=2 $ask --tune "$folder/goals" shop.pl 2>&1 | sed "s,$folder/,,"
    rm -r "$folder"
fi
say 'a goal after 65,534 blanks, one in a comment of 70,000 bytes, and one more'
{
    printf '%65534s%s\n' '' "$goal"
    printf '%%%70000s%s\n%s\n' '' "$goal" "$goal"
} | $ask shop.pl
say 'goals that are refused, one of them longer than a line may be'
{
    printf '%65534s%s\n' '' "$goal"
    printf 'rule(9, red\n%s\n' "$goal"
} | $ask --tune - shop.pl | head -n 4
say 'a goal more than there is room for, and cells'
yes "$goal" 2>/dev/null | head -n 100001 | $ask --tune - shop.pl
yes 'rule(f(1, 2, 3, f(1, 2, 3, f(1, 2, 3, 4))), f(1, 2, 3, f(1, 2, 3, 4)), f(1, 2, 3, 4), f(1, 2, 3))' 2>/dev/null | head -n 26000 | $ask --tune - shop.pl
say 'a full disk'
$ask shop.pl "$goal" >/dev/full
$ask --plan shop.pl >/dev/full
$ask --dot shop.pl >/dev/full
$ask --tune jobs.pl shop.pl >/dev/full
$ask --help >/dev/full
say 'a reader that is gone after a line, and goals without end'
(
    trap '' PIPE
    yes "$goal" 2>/dev/null | $ask shop.pl | head -n 1
)
say 'two goals of 60,000 bytes as arguments, in the stack that --help names'
long=$(printf 'rule(9, red, ring,%60000sFiring)' '')
(ulimit -s 1024 && $ask shop.pl "$long" "$long") | cut -c 1-60
say 'an argument too many, one too few, one that there is not'
$ask --plan shop.pl "$goal"
$ask --dot shop.pl "$goal"
$ask --plan
$ask --plans shop.pl
$ask --tune jobs.pl
$ask --tune jobs.pl shop.pl "$goal"
say 'options that make no sense together'
$ask --plan --count shop.pl
$ask --plan --dot shop.pl
$ask --known 1 --known 3 shop.pl "$goal"
$ask --known 1,3
$ask --known 1,3 --tune jobs.pl shop.pl
$ask --tune jobs.pl --count shop.pl
say 'lists of columns that are none, and columns that are not there'
for list in '' 0 x 1,,3 1000000000 5 3,5,1; do
    $ask --known "$list" shop.pl "$goal"
done
