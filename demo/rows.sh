#!/bin/bash
# Worked rows of the commands over real folders: words, input and damage, and the status, the text and the bytes that are due.
# It tells each row that goes otherwise, ends with 0 exactly where none does, and leaves nothing behind.
set -u

. "$(dirname "$0")/common.sh"

# The command over the home ends with this status and writes this text, its line on standard error behind it: SOURCE is its input.
row() {
    local wanted=$1 text=$2 source=$3
    shift 3
    "$hail" home "$@" <"$source" >out 2>err
    local status=$?
    [ "$status" -eq "$wanted" ] || wrong "$* ends with $status, not $wanted"
    [ "$(cat out err)" = "$text" ] || wrong "$* writes $(cat out err), not $text"
}

# A new home, set up with these numbers.
set_up() {
    rm -rf home
    mkdir home
    row 0 ready key init "$@"
}

# The hexadecimal digits of the journal from a place on.
journal_from() {
    tail -c "+$(($1 + 1))" home/journal | od -An -v -tx1 | tr -d ' \n'
}

# The journal of a new home is these bytes, as printf spells them.
journal_is() {
    rm -rf home
    mkdir home
    printf "$1" >home/journal
}

digits=000102030405060708090a0b0c0d0e0f101112131415161718191a1b1c1d1e1f
echo "$digits" >key
printf '%s' "${digits%f}" >short
: >empty
seq 1 100 | head -c 100 >notes
seq 1 400 >numbers
lost='hail: lost row'

# Setting up: the bytes of the journal, a second time, a key of 63 digits, numbers of no setup.
set_up 6 3 1 1 4 8 0
[ "$(journal_from 0)" = "4841494c4a524e310101060301010408000000$(echo "$digits" | cut -c3-)00" ] || wrong 'the journal of init has other bytes'
row 10 'hail: already set up' key init 6 3 1 1 4 8 0
rm home/journal
row 18 'hail: bad key' short init 6 3 1 1 4 8 0
row 20 'hail: bad setup' key init 6 3 2 1 4 8 0
row 20 'hail: bad setup' key init 256 3 1 1 4 8 0
row 2 'hail: usage' key init 6 3 1 1 4 8
row 9 'hail: not set up' empty list

# An empty file has no block, a get of it writes nothing, and no round is asked.
set_up 6 3 1 1 4 8 0
row 0 'stored empty 0' empty put empty
[ -z "$(ls -d home/provider-* 2>/dev/null)" ] || wrong 'an empty file has a block'
row 0 '' empty get empty
all_ok='provider 0 count 0 ok
provider 1 count 0 ok
provider 2 count 0 ok
provider 3 count 0 ok
provider 4 count 0 ok
provider 5 count 0 ok'
row 0 "audit 1 undecided 0
$all_ok" empty audit

# A text of 100 bytes: the records, a block of 16 symbols for each provider, those of providers 1 and 2 all zero.
set_up 6 3 1 1 4 8 0
row 0 'stored notes.txt 100' notes put notes.txt
[ "$(journal_from 50)" = 01020100000000000000096e6f7465732e7478740103010000000000000064000000"00" ] || wrong 'the records of a put have other bytes'
for provider in 0 1 2 3 4 5; do
    [ "$(ls home/provider-$provider)" = 1-0 ] || wrong "provider $provider holds other blocks"
    [ "$(stat -c %s home/provider-$provider/1-0)" -eq 256 ] || wrong "provider $provider has a block of another size"
done
for provider in 1 2; do
    head -c 256 /dev/zero | cmp -s - home/provider-$provider/1-0 || wrong "the block of provider $provider is not zero"
done
row 0 'notes.txt 100' empty list
row 0 "$(cat notes)" empty get notes.txt
row 17 'hail: bad name' notes put a/b
row 3 'hail: no such name' empty get nope
row 2 'hail: usage' empty fly
row 14 'hail: source fault' . put a
"$hail" home list </dev/null >/dev/full 2>err
[ $? -eq 15 ] && [ "$(cat err)" = 'hail: sink fault' ] || wrong 'a full output is no sink fault'

# One block lost and four places of another altered do no harm; the loss is found and mended, and nothing else is written.
cp -r home kept
rm home/provider-0/1-0
for place in 0 1 2 3; do
    printf '\377' | dd of=home/provider-5/1-0 bs=1 seek=$((16 * place)) conv=notrunc 2>dd
done
row 0 "$(cat notes)" empty get notes.txt
cp kept/provider-5/1-0 home/provider-5/1-0
row 0 "audit 1 undecided 0
$(echo "$all_ok" | sed 's/0 count 0 ok/0 count 4 flagged/')" empty audit
row 6 'hail: repair due' empty audit
row 0 'repaired 1' empty repair
diff -r -x journal kept home || wrong 'a repair leaves other blocks'
row 7 'hail: nothing due' empty repair

# A scrub counts what differs, mends the block that is lost and the one with four wrong symbols, and leaves the journal as it was.
none_differs=$(for provider in 0 1 2 3 4 5; do echo "provider $provider symbols 0 blocks 0"; done)
rm -r home && cp -r kept home
rm home/provider-0/1-0
for place in 0 1 2 3; do
    printf '\377' | dd of=home/provider-5/1-0 bs=1 seek=$((16 * place)) conv=notrunc 2>dd
done
row 0 "scrub stripes 1
$(echo "$none_differs" | sed 's/^provider 0 .*/provider 0 symbols 16 blocks 1/; s/^provider 5 .*/provider 5 symbols 4 blocks 1/')" empty scrub
diff -r kept home || wrong 'a scrub leaves other blocks'
row 0 "scrub stripes 1
$none_differs" empty scrub
row 2 'hail: usage' empty scrub notes.txt
rm home/provider-0/1-0 home/provider-1/1-0
row 4 "$lost 0" empty get notes.txt
row 4 "$lost 0" empty scrub
[ ! -e home/provider-0/1-0 ] && [ ! -e home/provider-1/1-0 ] || wrong 'a scrub of a lost row stores blocks'
set_up 6 3 1 1 4 8 0
row 0 "scrub stripes 0
$none_differs" empty scrub
set_up 4 1 1 0 1 1 0
printf abc >three
row 0 'stored a 3' three put a
rm -r home/provider-2
: >home/provider-2
row 13 'hail: provider fault 2' empty scrub
rm home/provider-2
row 0 "scrub stripes 1
$(echo "$none_differs" | head -n 4 | sed 's/^provider 2 .*/provider 2 symbols 6 blocks 1/')" empty scrub

# Columns of another file that were made with the key under the same number are given: only who has the key can make them.
set_up 6 3 1 1 4 8 0
row 0 'stored notes.txt 100' notes put notes.txt
mv home first
set_up 6 3 1 1 4 8 0
seq 200 300 | head -c 100 >other
row 0 'stored notes.txt 100' other put notes.txt
cp first/journal home/journal
row 0 "$(cat other)" empty get notes.txt
rm -r first

# Two of four providers lost: the round is undecided, and nobody counts. A store that fails leaves the repair due.
set_up 4 1 1 0 1 1 0
printf abc >three
row 0 'stored a 3' three put a
rm home/provider-0/1-0 home/provider-1/1-0
four_ok=$(echo "$all_ok" | head -n 4)
row 0 "audit 1 undecided 1
$four_ok" empty audit
row 0 "audit 2 undecided 1
$four_ok" empty audit
set_up 4 1 1 0 1 1 0
row 0 'stored a 3' three put a
rm -r home/provider-2
row 0 "audit 1 undecided 0
$(echo "$four_ok" | sed 's/2 count 0 ok/2 count 1 flagged/')" empty audit
: >home/provider-2
row 13 'hail: provider fault 2' empty repair
rm home/provider-2
row 0 'repaired 1' empty repair

# What a disk may read: nothing set up, or a bad journal with its place; a journal that cannot be read is a fault.
for bytes in '' 'HAILJRN1' 'HAILJRN1\001' 'HAILJRN1\000\377\377'; do
    journal_is "$bytes"
    row 9 'hail: not set up' empty list
    row 0 ready key init 4 1 1 0 1 1 0
done
journal_is 'HAILJRN1\001\001\006'
row 8 'hail: bad journal at 9' empty list
row 8 'hail: bad journal at 9' key init 4 1 1 0 1 1 0
journal_is 'HAILJRM1\000\000\000\000'
row 8 'hail: bad journal at 0' empty list
journal_is 'HAILJRN2\000\000\000\000'
row 8 'hail: bad journal at 8388608' empty list
journal_is 'HAILJRN1\001\005\001\000\000\000\000\000\000\000\000'
row 8 'hail: bad journal at 9' empty list
rm -rf home
mkdir -p home/journal
row 12 'hail: disk fault' empty list

# The journal of a new store at 4 1 1 has these bytes behind the setup, as printf spells them: 50 bytes stand before them.
journal_ends() {
    set_up 4 1 1 0 1 1 0
    head -c -1 home/journal >front
    { cat front && printf "$1"; } >home/journal
}

# The journal's second version. A put that names a profile is refused before the upgrade, and one whose profile there is none of at any time.
# Behind it each file may have its own: at profile 0 each provider holds two blocks of six symbols for 100 bytes.
set_up 6 3 1 1 4 8 0
row 23 'hail: old journal version' empty put x 0
row 20 'hail: bad setup' empty put x 5
row 2 'hail: usage' empty put x 256
row 2 'hail: usage' empty put x 0 0
row 2 'hail: usage' empty upgrade 2
[ "$(journal_from 50)" = 00 ] || wrong 'a put that was refused left a record'
row 0 upgraded empty upgrade
[ "$(journal_from 50)" = 01090200 ] || wrong 'the record of an upgrade has other bytes'
row 24 'hail: new journal version' empty upgrade
row 20 'hail: bad setup' empty put x 5
[ "$(journal_from 50)" = 01090200 ] || wrong 'an upgrade that was refused left a record'
row 0 'stored notes.txt 100' notes put notes.txt 0
[ "$(journal_from 53)" = 01020100000000000000096e6f7465732e747874010801000000000000006400000000"00" ] || wrong 'the records of a put at a profile have other bytes'
[ "$(stat -c %s home/journal)" -eq 89 ] || wrong 'the journal has another length'
for provider in 0 1 2 3 4 5; do
    [ "$(stat -c '%n %s' home/provider-$provider/* | tr '\n' ' ')" = "home/provider-$provider/1-0 96 home/provider-$provider/1-1 96 " ] ||
        wrong "provider $provider holds other blocks"
done
row 0 "$(cat notes)" empty get notes.txt
row 0 'stored notes.txt 100' notes put notes.txt
[ "$(journal_from 88)" = 01020200000000000000096e6f7465732e747874010802000000000000006400000001"00" ] || wrong 'a put without a profile has not the one of the setup'
[ "$(ls home/provider-5)" = 2-0 ] || wrong 'blocks of the older file are left'

# A file that was put before the upgrade keeps its profile: it is read, audited and repaired beside one of its own.
set_up 6 3 1 1 4 8 0
row 0 'stored before 100' notes put before
row 0 upgraded empty upgrade
row 0 'stored behind 100' notes put behind 4
[ "$(stat -c %s home/provider-2/* | tr '\n' ' ')" = '256 2048 ' ] || wrong 'a file has blocks of another profile'
rm -rf kept && cp -r home kept
rm -r home/provider-2
row 0 "$(cat notes)" empty get before
row 0 "$(cat notes)" empty get behind
row 0 "audit 1 undecided 0
$(echo "$all_ok" | sed 's/2 count 0 ok/2 count 8 flagged/')" empty audit
row 0 'repaired 1' empty repair
diff -r -x journal kept home || wrong 'a repair of two profiles leaves other blocks'
row 0 "audit 2 undecided 0
$all_ok" empty audit
row 0 'dropped before' empty drop before
[ "$(ls home/provider-2)" = 2-0 ] || wrong 'blocks of a dropped file are left'
rm -r kept

# Records of the one version in a journal of the other, a second upgrade, one before the setup, and bytes that are no such record.
start='\001\002\001\000\000\000\000\000\000\000\001a' upgrade='\001\011\002' number='\001\000\000\000\000\000\000\000'
journal_is 'HAILJRN1\001\011\002\000'
row 8 'hail: bad journal at 9' empty list
journal_ends "$upgrade$upgrade"'\000'
row 8 'hail: bad journal at 54' empty list
journal_ends "$start"'\001\010'"$number"'\000\000\000\000\001\000'
row 8 'hail: bad journal at 63' empty list
journal_ends "$upgrade$start"'\001\003'"$number"'\000\000\000\000\000'
row 8 'hail: bad journal at 66' empty list
journal_ends "$start$upgrade"'\001\010'"$number"'\000\000\000\000\004\000'
row 0 'a 0' empty list
for bytes in '\001\011\001\000' '\001\011\003\000' '\001\011' '\001\012'"$number"; do
    journal_ends "$bytes"
    row 8 'hail: bad journal at 51' empty list
done
for bytes in '\000\000\000\000\005\000' '\001\000\100\000\004\000' '\000\000\000\000'; do
    journal_ends "$upgrade$start"'\001\010'"$number$bytes"
    row 8 'hail: bad journal at 66' empty list
done

# A journal of 16,777,190 bytes has room for the records of a put under a name of one byte, and one of 16,777,191 has not.
# It gets the start of a put under a name of so many bytes, and 1,677,712 starts of audits.
LC_ALL=C awk 'BEGIN {
    for (k = 1; k <= 1677712; k++)
        printf "%c%c%c%c%c%c%c%c%c%c", 1, 5, k % 256, int(k / 256) % 256, int(k / 65536), 0, 0, 0, 0, 0
}' >starts
fill_journal() {
    head -c -1 home/journal >front
    {
        cat front
        printf '\001\002\001\000\000\000\000\000\000\000'
        printf "\\$(printf %03o "$1")"
        head -c "$1" /dev/zero | tr '\0' a
        cat starts
        printf '\000'
    } >home/journal
}
set_up 4 1 1 0 1 1 0
fill_journal 8
[ "$(stat -c %s home/journal)" -eq 16777190 ] || wrong 'the journal was filled otherwise'
row 0 'stored a 0' empty put a
set_up 4 1 1 0 1 1 0
fill_journal 9
row 11 'hail: journal full' empty put a

# An upgrade takes three bytes, and behind it a put one more than before it.
set_up 4 1 1 0 1 1 0
fill_journal 31
row 0 upgraded empty upgrade
set_up 4 1 1 0 1 1 0
fill_journal 32
row 11 'hail: journal full' empty upgrade
set_up 4 1 1 0 1 1 0
row 0 upgraded empty upgrade
fill_journal 4
row 0 'stored a 0' empty put a 3
set_up 4 1 1 0 1 1 0
row 0 upgraded empty upgrade
fill_journal 5
row 11 'hail: journal full' empty put a
# A text of the first half that reaches into the second can't be packed.
set_up 4 1 1 0 1 1 0
row 0 upgraded empty upgrade
fill_journal 4
row 26 'hail: journal too long to pack' empty pack
rm starts

# A pack needs the second version, and writes the table into the other half of the journal; numbers go on.
set_up 6 3 1 1 4 8 0
row 0 'stored notes.txt 100' notes put notes.txt
row 23 'hail: old journal version' empty pack
row 2 'hail: usage' empty pack notes.txt
set_up 6 3 1 1 4 8 0
row 0 upgraded empty upgrade
row 0 'stored notes.txt 100' notes put notes.txt
row 0 'stored notes.txt 100' notes put notes.txt
row 0 'packed 124 89' empty pack
[ "$(stat -c %s home/journal)" -eq 8388697 ] || wrong 'a packed journal has another length'
[ "$(tail -c +8 home/journal | head -c 1)" = 2 ] || wrong 'a pack names another area'
row 0 'notes.txt 100' empty list
row 0 "$(cat notes)" empty get notes.txt
cp home/journal packed
row 0 'packed 89 97' empty pack
[ "$(tail -c +8 home/journal | head -c 1)" = 1 ] || wrong 'a second pack names another area'
row 0 "$(cat notes)" empty get notes.txt
cp packed home/journal
row 0 'stored b 100' notes put b
[ -e home/provider-0/3-0 ] || wrong 'behind a pack numbers do not go on'
printf '\377' | dd of=home/journal bs=1 seek=7 conv=notrunc 2>dd
row 0 'notes.txt 100' empty list

# Sixteen providers, the most there are: an audit flags the two that lost their blocks, which no get misses, and a scrub counts and mends them.
set_up 16 10 2 1 2 8 0
row 0 'stored numbers 1492' numbers put numbers
rm -r home/provider-14 home/provider-15
row 0 "$(cat numbers)" empty get numbers
row 0 "audit 1 undecided 0
$(seq -f 'provider %g count 0 ok' 0 13)
provider 14 count 2 flagged
provider 15 count 2 flagged" empty audit
row 0 "scrub stripes 2
$(seq -f 'provider %g symbols 0 blocks 0' 0 13)
provider 14 symbols 32 blocks 2
provider 15 symbols 32 blocks 2" empty scrub
[ "$(ls home/provider-15 | tr '\n' ' ')" = '1-0 1-1 ' ] || wrong 'a scrub leaves the last of sixteen providers without its blocks'
rm -r home/provider-13 home/provider-14 home/provider-15
row 4 "$lost 0" empty get numbers

# With 1,024 names in effect a further one is refused, and one of them is not. 200 of them have a block, which an audit and a scrub read.
set_up 4 1 1 0 1 1 0
for name in $(seq 1 1024); do
    source=empty
    [ "$name" -gt 200 ] || source=three
    "$hail" home put "$name" <"$source" >out || wrong "put $name"
done
rm home/provider-3/200-0
row 0 "audit 1 undecided 0
$(seq -f 'provider %g count 0 ok' 0 2)
provider 3 count 1 flagged" empty audit
row 0 "scrub stripes 200
$(seq -f 'provider %g symbols 0 blocks 0' 0 2)
provider 3 symbols 6 blocks 1" empty scrub
row 21 'hail: too many files' empty put 1025
row 0 'stored 7 3' three put 7
[ "$("$hail" home list </dev/null | wc -l)" -eq 1024 ] || wrong 'not all names are listed'
"$hail" home list >before </dev/null
row 0 upgraded empty upgrade
"$hail" home pack >out </dev/null || wrong 'a pack of 1,024 files'
"$hail" home list </dev/null | cmp -s - before || wrong 'a pack of 1,024 files lists others'

# The longest file, in 3,641 stripes of 1,152 bytes, and one byte more.
set_up 6 3 1 2 4 8 0
head -c 4194304 /dev/zero >long
row 0 'stored big 4194304' long put big
[ "$(ls home/provider-5 | wc -l)" -eq 3641 ] && [ -e home/provider-5/1-3640 ] || wrong 'the longest file has another count of stripes'
"$hail" home get big </dev/null | cmp -s - long || wrong 'the longest file comes back otherwise'
echo >>long
row 16 'hail: too long' long put longer
row 0 'big 4194304' empty list
exit "$failed"
