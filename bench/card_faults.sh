#!/bin/sh
# What `card` says where reading or writing fails, which the gate cannot make, and that the old card is left. Standard error stands beside standard
# output here. Not part of the gate. `tools/build card` writes target/bin/card; strace makes single calls fail. As root a device
# stands in the card's place, as another user a folder that cannot be written.
#
# usage: bench/card_faults.sh
set -eu
cd "$(dirname "$0")/.."
card=$PWD/target/bin/card
folder=$(mktemp -d)
trap 'chmod -R u+w "$folder"; rm -r "$folder"' EXIT
cp samples/shop.pl samples/badge.pl samples/shop.card "$folder"
cd "$folder"
cp shop.card old
head -c 512 shop.card >bad.card
head -c 512 /dev/zero >>bad.card
exec 2>&1

say() { echo "-- $*"; }
# the old card is there, bytes as they were, and nothing beside it
left() {
    cmp shop.card old && echo 'the old card is left'
    if [ -e shop.card.new ]; then echo 'shop.card.new is there'; fi
}
say 'no such rules; a folder for rules; rules that are refused'
$card pack none.pl shop.card
$card pack . shop.card
echo 'rule(9, red ring).' >wrong.pl
$card pack wrong.pl shop.card
left
say 'no such card; a folder for a card; a card longer than any'
$card check none.card
$card check .
dd if=/dev/zero of=long bs=1048577 count=1 status=none
$card check long
$card mend none.card
$card mend .
$card mend long
say 'a full disk behind standard output'
$card pack shop.pl >/dev/full
$card check shop.card >/dev/full
$card mend bad.card >/dev/full
$card --help >/dev/full
say 'a folder that there is not; a folder in place of the card'
$card pack badge.pl none/shop.card
$card mend bad.card none/shop.card
mkdir box
$card pack badge.pl box
$card mend bad.card box
ls
say 'the other name is taken'
echo mine >shop.card.new
$card pack badge.pl shop.card
$card mend bad.card shop.card
cat shop.card.new
rm shop.card.new
left
say 'rules and card of one name; a bad card and a card of one name'
$card pack shop.pl shop.pl
$card mend bad.card bad.card
say 'a card with no block 0'
head -c 1024 /dev/zero >zeros
$card mend zeros shop.card
left
if [ "$(id -u)" -eq 0 ]; then
    say 'a device in place of the card, and one in blocks'
    if mknod full c 1 7 && mknod loop b 7 0; then
        $card pack badge.pl full
        $card pack badge.pl loop
        ls -l full loop | cut -c1
    fi
    rm -f full loop
else
    say 'a folder that cannot be written'
    mkdir shut
    cp shop.card shut
    chmod a-w shut
    $card pack badge.pl shut/shop.card
    cmp shut/shop.card old && echo 'the old card is left'
fi
say 'no file may have more than 512 bytes: a write that is cut short'
(
    trap '' XFSZ
    ulimit -f 1
    $card pack shop.pl shop.card
    $card mend bad.card shop.card
) 2>&1 | cat
left
if command -v strace >/dev/null; then
    for call in write:error=ENOSPC fsync:error=EIO; do
        say "a call on the new file that fails: $call"
        strace -qq -o /dev/null -P "$PWD/shop.card.new" -e trace="${call%%:*}" -e inject="$call" $card pack badge.pl shop.card
        left
    done
    say 'its closing alone fails, after all of it is on its device: this is not said, and the new card is there'
    strace -qq -o /dev/null -P "$PWD/shop.card.new" -e trace=close -e inject=close:error=EIO $card pack badge.pl shop.card
    $card check shop.card
    cp old shop.card
    say 'the renaming fails; then the removing too'
    strace -qq -o /dev/null -e trace=rename -e inject=rename:error=EACCES $card pack badge.pl shop.card
    left
    strace -qq -o /dev/null -e trace=rename,unlink -e inject=rename,unlink:error=EACCES $card pack badge.pl shop.card
    left
    rm shop.card.new
fi
say 'the new card'
$card pack badge.pl shop.card
$card check shop.card
$card check old
ls
say 'a bad card mended, and a whole one: the bytes of the old card'
for from in bad.card old; do
    $card mend $from shop.card
    cmp shop.card old && echo 'the bytes are the same'
done
say 'arguments that there are not'
$card
$card pack
$card pack a b c
$card check a b
$card mend
$card mend a b c
$card bend a
