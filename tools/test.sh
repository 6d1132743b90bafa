#!/bin/bash
# Tests of the companions over real homes, at B = 1, 2 and 3, all at once: each answer that goes otherwise is told, and it ends with 0 exactly
# where none does. What is due was worked out by hand. test.sh NAME .. runs these tests alone.
set -u

called=tools
. "$(dirname "$0")/test-lib.sh"

# The companion ends with this status and writes this text.
says() {
    local wanted=$1 text=$2
    shift 2
    "$tools/$1" "${@:2}" >out 2>err </dev/null
    local status=$?
    [ "$status" -eq "$wanted" ] || wrong "$* ends with $status, not $wanted: $(cat out err)"
    [ "$(cat out)" = "$text" ] || wrong "$* writes $(cat out), not $text"
}

# What the companion before told on standard error has this text.
told() {
    grep -qF -- "$1" err || wrong "$1 is not told, but $(cat err)"
}

# A new home with these numbers, a key of its own, and the files of 1492, 692 and 1092 bytes: numbers 1 to 3.
new_home() {
    rm -rf home
    make_key >key
    "$tools/hail-init" -f home "$@" <key >out || wrong "hail-init $*: $(cat out)"
    seq 1 400 | "$HAIL" home put notes >out
    seq 1 200 | "$HAIL" home put other >out
    seq 1 300 | "$HAIL" home put third >out
}

# Puts random bytes in the place of a block.
spoil() {
    head -c "$(stat -c %s "home/$1")" /dev/urandom >random && mv random "home/$1"
}

# A put of so many bytes under a name, and at a profile if one is named, fails at this provider: a file stands in the place of its folder.
put_fails() {
    mv "home/provider-$1" away && : >"home/provider-$1"
    head -c "$3" /dev/zero | "$HAIL" home put "$2" ${4-} >out 2>err
    [ "$(cat err)" = "hail: provider fault $1" ] || wrong "a put of $2 says $(cat out err)"
    rm "home/provider-$1" && mv away "home/provider-$1"
}

words() {
    says 2 '' hail-watch nowhere
    says 2 '' hail-watch -v
    says 2 '' hail-verify -w home
    says 2 '' hail-gc home all
    says 2 '' hail-gc home remove 1a
    says 2 '' hail-verify
    says 2 '' hail-restore home
    says 2 '' hail-restore home key many
    says 2 '' hail-salvage home 0
    says 2 '' hail-init home 6 3 1
}

# A new store over blocks is refused, and watched; so are folders that are one.
setting_up() {
    new_home 6 3 1 1 4 8 0
    mv home/journal journal
    says 3 'provider 0 holds blocks, and there is no journal
provider 1 holds blocks, and there is no journal
provider 2 holds blocks, and there is no journal
provider 3 holds blocks, and there is no journal
provider 4 holds blocks, and there is no journal
provider 5 holds blocks, and there is no journal
hail-watch: set up nothing here: the first put would destroy them (see hail-restore)' hail-watch home
    says 3 '' hail-init home 6 3 1 1 4 8 0
    told 'blocks are held by provider-0 provider-1 provider-2 provider-3 provider-4 provider-5'
    [ ! -e home/journal ] || wrong 'hail-init set up a store over blocks'
    : >home/journal
    "$tools/hail-watch" home >out
    [ $? -eq 3 ] || wrong 'blocks and an empty journal are not told'
    "$HAIL" home init 6 3 1 1 4 8 0 <key >out
    "$tools/hail-watch" home >out
    [ $? -eq 3 ] && grep -q 'a new one over old blocks; put nothing' out || wrong "a new journal over blocks is watched with $(cat out)"
    head -c 60 journal >home/journal
    says 2 '' hail-watch home
    told 'hail-watch: the journal is none: put nothing; hail-restore a copy of it, or hail-rebuild it'
    says 2 '' hail-verify home
    told 'hail-verify: the journal is none: put nothing; hail-restore'
    says 4 '' hail-gc home
    told 'hail-gc: nothing is done: the journal is none: put nothing; hail-restore'
    mv journal home/journal
    chmod 644 home/journal
    says 1 "others may read home/journal, which has the key: its rights are 644; chmod 600 home/journal, or, where it keeps no rights, mount it with umask=077" hail-watch home
    chmod 600 home/journal
    mkdir -p two/store
    ln -s store two/provider-0
    ln -s store two/provider-1
    ln -s store/inner two/provider-2
    mkdir two/store/inner
    says 5 '' hail-init two 6 3 1 1 4 8 0
    told 'providers 0 and 1 are one folder'
    told 'provider 2 lies in the folder of provider 0'
    mv home/provider-4 home/provider-3/ && ln -s provider-3/provider-4 home/provider-4
    says 5 'provider 4 lies in the folder of provider 3
hail-watch: put nothing: what is stored there is lost; give each provider a folder of its own, then: hail-verify home' hail-watch home
}

# A provider that is lost is flagged, and mended. One liar stops no audit; more than B are an older journal.
watching() {
    new_home 6 3 1 1 4 8 0
    says 0 '' hail-watch home
    rm -r home/provider-5
    says 1 'provider 5 is flagged' hail-watch home
    says 1 'hail-watch: a repair is due' hail-watch home
    "$HAIL" home repair >out
    says 0 '' hail-watch home
    : >home/provider-3/999-0
    says 1 'provider 3 holds blocks of number 999, and the next number is 4' hail-watch home
    told 'the provider lies: mv HOME/provider-3/999* ELSEWHERE; but where the journal was put back from a copy, put nothing'
    mkdir away && eval "$(sed -n 's/.*lies: mv HOME\(.*\) ELSEWHERE.*/mv home\1 away/p' err)" && says 0 '' hail-watch home
    mv away/999-0 home/provider-3/
    says 0 '' hail-gc home
    told 'provider 3 has blocks of number 999, which was not given yet'
    told "the provider lies: mv HOME/provider-3/999* ELSEWHERE; but where the journal was put back from a copy, put nothing"
    rm -r home/provider-5
    says 1 'provider 3 holds blocks of number 999, and the next number is 4
provider 5 is flagged' hail-watch home
    "$HAIL" home repair >out
    : >home/provider-0/4-0
    says 3 'provider 0 holds blocks of number 4, and the next number is 4
provider 3 holds blocks of number 999, and the next number is 4
hail-watch: the journal is an older copy, or a new one over old blocks; put nothing (see hail-restore)' hail-watch home
    says 3 '' hail-gc home remove
    says 3 '' hail-verify home
    told 'the journal is an older copy: put nothing'
    [ -e home/provider-3/999-0 ] || wrong 'hail-gc removed a block of a number not given yet'
    rm home/provider-0/4-0 home/provider-3/999-0
    rm -r home/provider-5 home/provider-4
    says 1 'undecided rounds: 12' hail-watch home
}

# At B = 2 two may lie, and three are an older journal.
watching_two() {
    : >home/provider-3/999-0
    : >home/provider-4/7-0
    says 1 'provider 3 holds blocks of number 999, and the next number is 4
provider 4 holds blocks of number 7, and the next number is 4' hail-watch home
    : >home/provider-8/5-0
    "$tools/hail-watch" home >out
    [ $? -eq 3 ] || wrong "three folders with newer blocks are watched with $(cat out)"
    rm home/provider-3/999-0 home/provider-4/7-0 home/provider-8/5-0
}

# Whoever spoils a file is named, at B = 1.
verifying_one() {
    new_home 6 3 1 1 4 8 0
    says 0 '' hail-verify home
    spoil provider-2/1-1
    says 1 'notes: comes back; wrong blocks at provider 2' hail-verify home
    spoil provider-4/1-0
    says 1 'notes: comes back; wrong blocks at provider 2 4' hail-verify home
    "$HAIL" home get notes >notes.new && "$HAIL" home put notes <notes.new >out || wrong 'notes is not stored anew'
    says 0 '' hail-verify home
    spoil provider-2/4-1
    rm -r home/provider-5/2-*
    "$HAIL" home scrub >out || wrong "a scrub says $(cat out)"
    [ "$(grep -v ' blocks 0$' out)" = 'scrub stripes 9
provider 2 symbols 16 blocks 1
provider 5 symbols 32 blocks 2' ] || wrong "a scrub says $(cat out)"
    says 0 '' hail-verify home
    spoil provider-0/2-0
    spoil provider-4/2-0
    says 1 'other: lost from stripe 0 on; blocks are missing at provider none' hail-verify home
    "$HAIL" home drop other >out
    spoil provider-1/3-0
    rm -r home/provider-1
    "$HAIL" home audit >out
    "$HAIL" home repair >out || wrong 'provider 1 is not repaired'
    says 0 '' hail-verify home
    mv home/provider-2 away && mv home/provider-5 home/provider-2 && mv away home/provider-5
    says 1 "third: lost from stripe 0 on; blocks are missing at provider none
providers 2 and 5 hold each other's blocks
notes: lost from stripe 0 on; blocks are missing at provider none" hail-verify home
}

# A repair that a second loss keeps from its end, behind the first file: the file that is named as lost goes, and it ends.
stuck_repair() {
    new_home 4 1 1 0 1 1 0
    rm -r home/provider-0
    "$HAIL" home audit >out
    rm home/provider-3/2-*
    "$HAIL" home repair >out 2>err
    [ "$(cat err)" = 'hail: lost row 0' ] || wrong "a repair over a second loss says $(cat out err)"
    says 1 'other: lost from stripe 0 on; blocks are missing at provider 0 3
third: comes back; wrong blocks at provider 0' hail-verify home
    "$HAIL" home drop other >out
    [ "$("$HAIL" home repair 2>&1)" = 'repaired 1' ] || wrong 'a repair does not end once the lost file is dropped'
    says 0 '' hail-verify home
}

# At B = 2: nine providers, of which two neighbours, two others, and three are gone, and three spoil other stripes.
verifying_two() {
    new_home 9 4 2 1 1 1 0
    watching_two
    says 0 '' hail-verify home
    rm -rf kept && mkdir kept
    mv home/provider-3 home/provider-4 kept/
    says 1 'notes: comes back; wrong blocks at provider 3 4
other: comes back; wrong blocks at provider 3 4
third: comes back; wrong blocks at provider 3 4' hail-verify home
    mv kept/provider-3 home/
    mv home/provider-7 kept/
    says 1 'notes: comes back; wrong blocks at provider 4 7
other: comes back; wrong blocks at provider 4 7
third: comes back; wrong blocks at provider 4 7' hail-verify home
    mv home/provider-0 kept/
    says 1 'notes: lost from stripe 0 on; blocks are missing at provider 0 4 7
other: lost from stripe 0 on; blocks are missing at provider 0 4 7
third: lost from stripe 0 on; blocks are missing at provider 0 4 7' hail-verify home
    mv kept/* home/
    spoil provider-0/1-0
    spoil provider-5/1-1
    spoil provider-8/1-1
    says 1 'notes: comes back; wrong blocks at provider 0 5 8' hail-verify home
}

# At B = 3: five providers lost a block each, of other stripes, and three spoilt one of the same.
verifying_three() {
    local place
    new_home 10 3 3 0 1 1 0
    says 0 '' hail-verify home
    for place in 0 2 5 6 7; do rm "home/provider-$place/2-$place"; done
    spoil provider-9/1-0
    spoil provider-4/1-0
    spoil provider-1/1-0
    says 1 'notes: comes back; wrong blocks at provider 1 4 9
other: comes back; wrong blocks at provider 0 2 5 6 7' hail-verify home
}

# While the store is verified, no file below TMPDIR has the key, and afterwards nothing is left there.
no_key_is_left() {
    new_home 6 3 1 1 4 8 0
    master=$(od -An -v -tx1 -j 18 -N 32 home/journal | tr -d ' \n')
    [ "$master" = "$(cat key)" ] || wrong 'the key does not stand where it should in the journal'
    cat >spy <<SPY
#!/bin/bash
find "$PWD/tmp" -type f -exec od -An -v -tx1 {} \; | tr -d ' \n' | grep -q "$master" && echo found >"$PWD/spied"
exec "$HAIL" "\$@"
SPY
    chmod +x spy
    HAIL=$PWD/spy "$tools/hail-verify" home >out || wrong "hail-verify over a spy says $(cat out)"
    [ ! -e spied ] || wrong 'hail-verify wrote the key below TMPDIR'
    [ -z "$(ls -A tmp)" ] || wrong "below TMPDIR is left $(ls -A tmp)"
}

# What puts left that were never done is told and removed. What could be a whole file is not, until it is named.
collecting() {
    local name place stripe
    new_home 6 3 1 1 4 8 0
    says 0 '' hail-gc home
    put_fails 4 fourth 600
    says 0 'provider-0/4-0
provider-1/4-0
provider-2/4-0
provider-3/4-0' hail-gc home
    put_fails 0 fourth 600
    says 0 '' hail-gc home remove
    says 0 '' hail-gc home
    put_fails 5 fourth 600
    says 0 '' hail-gc home remove
    told "number 6 has no name, but may be a whole file (a put of fourth that did not end, by the journal); 'hail-gc HOME remove 6' removes it"
    says 0 '' hail-gc home remove 6
    [ -z "$(ls home/provider-*/6-0 2>/dev/null)" ] || wrong 'hail-gc does not remove a number that is named'
    rm -rf kept && mkdir kept
    cp home/provider-0/3-0 kept/
    "$HAIL" home drop third >out
    cp kept/3-0 home/provider-0/3-7
    cp kept/3-0 home/provider-3/3-0
    says 0 'provider-0/3-7
provider-3/3-0' hail-gc home
    says 0 '' hail-gc home remove
    says 0 '' hail-gc home
    for place in 0 1 2 3 4 5; do for stripe in 0 1 2; do : >"home/provider-$place/3-$stripe"; done; done
    rm home/provider-4/3-1
    says 0 '' hail-gc home remove
    told "number 3 has no name, but may be a whole file (third, dropped or replaced); 'hail-gc HOME remove 3' removes it"
    [ -e home/provider-5/3-2 ] || wrong 'hail-gc removed what may be a whole file'
    (sleep 1; echo slow) | "$HAIL" home put slow >slow &
    sleep 0.3
    says 0 '' hail-gc home remove
    wait
    [ "$("$HAIL" home get slow)" = slow ] || wrong 'hail-gc removed what a put was storing'
    "$HAIL" home drop slow >out
    for name in gc verify watch; do
        (ulimit -f 0; "$tools/hail-$name" home >/dev/null 2>&1)
        [ $? -eq 4 ] || wrong "hail-$name goes on where nothing can be written below TMPDIR"
    done
    rm home/provider-5/3-1
    mv home/provider-5 away
    says 0 '' hail-gc home
    told 'number 3 has no name'
    mv away home/provider-5
    says 0 '' hail-gc home remove 3
    says 0 '' hail-gc home
    [ "$(cat home/provider-0/* | wc -c)" -eq $((6 * 256)) ] || wrong 'hail-gc removed blocks of a file in effect'
    says 0 '' hail-verify home
}

# The byte at this place of a worker's journal gets its lowest bit changed; no block of a number in effect may be listed.
flip_one() {
    local old=${bytes[$2]}
    cp journal "$1/journal"
    printf "\\$(printf %o $((old ^ 1)))" | dd of="$1/journal" bs=1 seek="$2" conv=notrunc 2>/dev/null
    "$tools/hail-gc" "$1" 2>/dev/null | grep -E '/(2|4|5|6|7|8|9|10|11)-' && echo "at byte $2"
}

# A worker has a home with the same folders, and flips every fourth byte.
flip_some() {
    local at
    mkdir "worker-$1"
    for place in 0 1 2 3 4 5; do ln -s "../home/provider-$place" "worker-$1/provider-$place"; done
    for ((at = $1; at < ${#bytes[@]}; at += 4)); do flip_one "worker-$1" "$at"; done >"flipped-$1"
}

# A journal of ten files, 1 to 10, with an upgrade behind the first five, and profiles of their own behind that; the first is dropped, 3
# replaced by 11, and two puts failed. Whichever byte of it is altered, what the intact one has in effect stays.
flipping() {
    local name worker
    rm -rf home
    make_key | "$tools/hail-init" -f home 6 3 1 0 1 1 0 >out
    for name in 0 1 2 3 4; do echo "$name" | "$HAIL" home put "$name" >out; done
    "$HAIL" home upgrade >out </dev/null
    for name in 5 6 7 8 9; do echo "$name" | "$HAIL" home put "$name" $((name - 5)) >out; done
    "$HAIL" home drop 0 >out
    echo new | "$HAIL" home put 2 >out
    put_fails 4 3 10
    put_fails 3 8 100
    says 0 'provider-0/12-0
provider-0/13-0
provider-1/12-0
provider-1/13-0
provider-2/12-0
provider-2/13-0
provider-3/12-0' hail-gc home
    cp home/journal journal
    mapfile -t bytes < <(od -An -v -tu1 -w1 journal | tr -d ' ')
    [ "${#bytes[@]}" -eq 374 ] || wrong "the journal has ${#bytes[@]} bytes"
    for worker in 0 1 2 3; do flip_some "$worker" & done
    wait
    [ -z "$(cat flipped-*)" ] || wrong "with an altered journal hail-gc lists $(cat flipped-* | head -n 5)"
    says 0 '' hail-gc home remove
    says 0 '' hail-verify home
    printf '\377' | dd of=home/journal bs=1 seek=100 conv=notrunc 2>/dev/null
    says 4 '' hail-gc home remove
}

# The journal of a store at 4 1 1 and profile 1 whose bytes behind the setup printf spells.
journal_is() {
    rm -rf home
    mkdir home
    { printf 'HAILJRN1\1\1\4\1\1\1\1\1\0\0' && head -c 32 /dev/zero && printf "$1"; } >home/journal
}

# What bytes of a journal tell: a file put before the upgrade, one behind it, and one that replaces the first. Other bytes are no journal.
reading() {
    local start='\1\2\1\0\0\0\0\0\0\0\1a' upgrade='\1\11\2' done='\1\10\1\0\0\0\0\0\0\0\144\0\0\0'
    journal_is "$start"'\1\3\1\0\0\0\0\0\0\0\144\0\0\0'"$upgrade"'\1\2\2\0\0\0\0\0\0\0\1b\1\10\2\0\0\0\0\0\0\0\0\4\0\0\2\1\2\3\0\0\0\0\0\0\0\1a\1\10\3\0\0\0\0\0\0\0\144\0\0\0\4\0'
    od -An -v -tu1 home/journal | LC_ALL=C awk -f "$(dirname "$(readlink -f "$tools/hail-gc")")/journal.awk" | LC_ALL=C sort >out
    [ "$(cat out)" = 'done 1 100 1
done 2 1024 2
done 3 100 4
file 2 1024 2 b
file 3 100 4 a
next 4 1
past 1 100 1 a
setup 4 1 1 1 1 1 0
start 1 a
start 2 b
start 3 a
text 134
upgrade
version 2' ] || wrong "a journal of the second version is read as $(cat out)"
    journal_is "$upgrade$start$done"'\5\0'
    says 4 '' hail-gc home
    told 'no journal: a profile is unknown'
    journal_is '\1\11\1\0'
    says 4 '' hail-gc home
    told 'no journal: a version is unknown'
    journal_is '\1\15\0'
    says 2 '' hail-watch home
    told 'no journal: a kind of record is unknown at byte 51'
    journal_is "$start$done"'\1\0'
    says 4 '' hail-gc home
    told 'hail does not take the journal, and nothing is done: hail: bad journal at 63'
}

# Eight bytes of a journal, the lowest first, as printf spells them.
eight() {
    local at
    for at in 0 1 2 3 4 5 6 7; do printf '\\%o' $(($1 >> 8 * at & 255)); done
}

# A packed journal with a file two numbers before this one, behind which a put under this number was done and the next was cut off, is read
# by the program `awk`.
counts_to() {
    local number=$1
    journal_is '\1\11\2\1\12'"$(eight "$number")$(eight $((number - 3)))"'\1\13'"$(eight $((number - 2)))"'\0\4\0\0\2\1a\1\2'"$(eight "$number")"'\1b\1\10'"$(eight "$number")"'\5\0\0\0\1\1\2'"$(eight $((number + 1)))"'\1c\0'
    od -An -v -tu1 -w32 home/journal | LC_ALL=C "${awk[@]}" -f "$(dirname "$(readlink -f "$tools/hail-gc")")/journal.awk" >out 2>err
    LC_ALL=C sort out | cmp -s - <(LC_ALL=C sort <<TEXT
cut $((number + 1)) c
done $number 5 1
file $((number - 2)) 1024 2 a
file $number 5 1 b
held $((number - 2)) 1024 2 a
next $((number + 2)) $((number - 3))
resume $number $((number - 3))
setup 4 1 1 1 1 1 0
start $((number + 1)) c
start $number b
text 128
upgrade
version 2
TEXT
    )
}

# Every awk tells numbers below 2^53 as they are, and refuses those from there on. One that is not installed is passed over.
counting() {
    local number name awk
    for name in mawk gawk original-awk 'busybox awk'; do
        read -r -a awk <<<"$name"
        command -v "${awk[0]}" >/dev/null || { echo "tools: $name is not installed, and not tried" >&2; continue; }
        for number in 1000 2147483645 2147483646 2147483647 2147483648 4294967297 9007199254740000 9007199254740990; do
            counts_to "$number" || wrong "$name reads the number $number as $(grep ^next out; cat err)"
        done
        for number in 9007199254740991 9007199254740992 9223372036854775800; do
            counts_to "$number" && wrong "$name reads the number $number"
            told 'a number of 2^53 or more, to which the companions do not count, at byte'
        done
    done
}

# Files at profiles of their own, behind an upgrade, are looked at by their own blocks and stripes; those put before keep the setup's.
own_profiles() {
    local place stripe
    new_home 6 3 1 1 4 8 0
    says 0 'journal version 1' hail-watch -v home
    says 0 'journal version 1' hail-verify -v home
    [ "$("$HAIL" home upgrade </dev/null)" = upgraded ] || wrong 'there is no upgrade'
    seq 1 200 | "$HAIL" home put tiny 0 >out
    seq 1 400 | "$HAIL" home put wide 4 >out
    seq 1 300 | "$HAIL" home put other >out
    says 0 'journal version 2
tiny: profile 0
wide: profile 4' hail-watch -v home
    says 0 'journal version 2
tiny: profile 0
wide: profile 4' hail-verify -v home
    says 0 '1 4 1536 notes 1492
3 3 1152 third 1092
4 8 768 tiny 692
5 1 4608 wide 1492
6 3 1152 other 1092' hail-salvage home 3
    spoil provider-2/4-7
    spoil provider-4/5-0
    says 1 'tiny: comes back; wrong blocks at provider 2
wide: comes back; wrong blocks at provider 4' hail-verify home
    "$HAIL" home get tiny >tiny && "$HAIL" home put tiny 0 <tiny >out || wrong 'tiny is not stored anew'
    rm -r home/provider-4
    says 1 'provider 4 is flagged' hail-watch home
    [ "$("$HAIL" home repair </dev/null)" = 'repaired 3' ] || wrong 'provider 4 is not repaired'
    says 0 '' hail-verify home
    says 0 '' hail-gc home
    put_fails 4 fourth 600 4
    says 0 'provider-0/8-0
provider-1/8-0
provider-2/8-0
provider-3/8-0' hail-gc home
    for place in 0 1 2 3 4 5; do for stripe in 0 1 2 3 4 5 6; do : >"home/provider-$place/4-$stripe"; done; done
    rm home/provider-0/4-6 home/provider-3/4-6
    says 0 '' hail-gc home remove
    [ -z "$(cat err)$(find home -name '[48]-*')" ] || wrong "hail-gc leaves $(find home -name '[48]-*') and says $(cat err)"
    cp home/journal copy && sha256sum copy >copy.sum
    rm home/journal home/provider-1/7-7 home/provider-3/7-7
    says 1 'restored: the next put has number 13
tiny: too few blocks: it was dropped or replaced since the copy, or providers are away' hail-restore home copy 4
    says 1 'journal version 2
tiny: profile 0
wide: profile 4
tiny: lost from stripe 7 on; blocks are missing at provider 1 3' hail-verify -v home
}

# A copy is restored only where it is whole, older than no sound journal, and not further behind than was said; no number comes again.
restoring() {
    new_home 6 3 1 1 4 8 0
    cp home/journal copy
    says 3 '' hail-restore home copy
    sha256sum copy >copy.sum
    "$HAIL" home drop other >out
    echo four | "$HAIL" home put fourth >out
    echo five | "$HAIL" home put fifth >out
    "$HAIL" home drop fifth >out
    says 3 '' hail-restore home copy
    told 'the journal in its place is sound and newer than the copy'
    mv home/journal newest
    says 5 '' hail-restore home copy 0
    told 'at least 1 commands behind'
    rm -f home/journal
    says 1 'restored: the next put has number 14
number 4: a file that was put since the copy, whose name is lost; hail-salvage may join its bytes
other: too few blocks: it was dropped or replaced since the copy, or providers are away' hail-restore home copy 10
    says 0 '' hail-gc home remove
    told "number 4 has no name, but may be a whole file; 'hail-gc HOME remove 4' removes it"
    echo six | "$HAIL" home put sixth >out
    [ -e home/provider-0/14-0 ] && [ ! -e home/provider-0/5-0 ] || wrong 'after hail-restore a put has another number'
    "$HAIL" home audit >out
    [ "$(head -n 1 out)" = 'audit 11 undecided 4' ] || wrong "after hail-restore an audit says $(head -n 1 out)"
    says 1 'other: lost from stripe 0 on; blocks are missing at provider 0 1 2 3 4 5' hail-verify home
    printf x >>copy
    says 3 '' hail-restore home copy
    sha256sum copy >copy.sum
    : >home/journal
    : >home/provider-2/77777-0
    says 1 'provider 2 has blocks of number 77777, which no put can have had
restored: the next put has number 15
number 14: a file that was put since the copy, whose name is lost; hail-salvage may join its bytes
number 4: a file that was put since the copy, whose name is lost; hail-salvage may join its bytes
other: too few blocks: it was dropped or replaced since the copy, or providers are away' hail-restore home copy 11
    told "the provider lies: mv HOME/provider-2/77777* ELSEWHERE; but where the journal was put back from a copy, put nothing"
    rm home/journal home/provider-2/77777-0
    # A replay of whose audits one does not begin, and one whose puts are not refused: the numbers are not drawn, or files of these puts come to be.
    printf '#!/bin/bash\n[ "$2" != replay ] || exec < <(sed "/^step 2$/d")\nexec "%s" "$@"\n' "$HAIL" >passing
    printf '#!/bin/bash\n[ "$2" != replay ] || rm -f "$1/provider-0"\nexec "%s" "$@"\n' "$HAIL" >taking
    chmod +x passing taking
    HAIL=$PWD/passing says 4 '' hail-restore home copy 15
    HAIL=$PWD/taking says 4 '' hail-restore home copy 15
    [ ! -e home/journal ] || wrong 'hail-restore puts a journal in place whose numbers were not drawn'
    [ -e home/journal.before ] && [ ! -e home/journal.new ] || wrong "hail-restore leaves $(ls home)"
}

# A packed journal is read in its half: its files, its next numbers, its due audit. A copy of before is older, though longer.
packing() {
    new_home 6 3 1 1 4 8 0
    "$HAIL" home upgrade >out
    cp home/journal copy && sha256sum copy >copy.sum
    seq 1 500 | "$HAIL" home put notes 4 >out
    "$HAIL" home drop third >out
    rm home/provider-2/2-*
    "$HAIL" home audit >out
    cp home/journal whole
    [ "$("$HAIL" home pack)" = 'packed 232 141' ] || wrong "a pack says $("$HAIL" home pack 2>&1)"
    [ "$(stat -c %s home/journal)" -eq 8388749 ] || wrong "a packed journal has $(stat -c %s home/journal) bytes"
    od -An -v -tu1 -w32 home/journal | LC_ALL=C awk -f "$(dirname "$(readlink -f "$tools/hail-gc")")/journal.awk" | LC_ALL=C sort >out
    [ "$(cat out)" = 'due 1 0 0 4 0 0 0
file 2 692 1 other
file 4 1892 4 notes
held 2 692 1 other
held 4 1892 4 notes
next 5 2
resume 5 2
setup 6 3 1 1 4 8 0
text 141
upgrade
version 2' ] || wrong "a packed journal is read as $(cat out)"
    says 3 '' hail-restore home copy
    told 'the journal in its place is sound and newer than the copy'
    says 1 'hail-watch: a repair is due' hail-watch home
    [ "$("$HAIL" home repair)" = 'repaired 1' ] || wrong 'a pack loses the due audit'
    says 0 '' hail-watch home
    says 0 '' hail-verify home
    says 0 '' hail-gc home
    cp whole home/journal
    [ "$("$HAIL" home pack)" = 'packed 232 141' ] || wrong 'a second pack packs otherwise'
    cp home/journal copy && sha256sum copy >copy.sum
    rm home/journal
    says 0 'a repair is due, so the next audits may ask what those since the copy asked
restored: the next put has number 8' hail-restore home copy 3
    [ "$("$HAIL" home list | tr '\n' ' ')" = 'notes 1892 other 692 ' ] || wrong 'a restored packed journal lists others'
}

# A journal over 1 MiB should be packed.
swelling() {
    new_home 6 3 1 1 4 8 0
    {
        head -c -1 home/journal
        LC_ALL=C awk 'BEGIN { for (k = 4; k < 45004; k++) printf "%c%c%c%c%c%c%c%c%c%c%c%s", 1, 2, k % 256, int(k / 256), 0, 0, 0, 0, 0, 0, 13, "hail-restored"; printf "%c", 0 }'
    } >long
    cp long home/journal
    says 1 "the journal has $(stat -c %s long) bytes; to pack it: hail-keep home upgrade, hail-gc home remove, hail-keep home pack" hail-watch home
    [ "$("$HAIL" home upgrade)" = upgraded ] || wrong 'a long journal is not upgraded'
    says 1 "the journal has $(($(stat -c %s long) + 52)) bytes; to pack it: hail-gc home remove, hail-keep home pack" hail-watch home
    "$HAIL" home pack >out || wrong 'a long journal is not packed'
    says 0 '' hail-watch home
}

# Without a journal the files' own bytes are joined, and what is missing is told.
salvaging() {
    new_home 6 3 1 1 4 8 0
    says 0 '1 4 1536 notes 1492
2 2 768 other 692
3 3 1152 third 1092' hail-salvage home 3
    cp home/provider-0/3-0 home/provider-0/3-10923
    says 0 '' hail-verify home
    rm -r home/journal home/provider-3 home/provider-4 home/provider-5
    says 0 '1 4 1536
2 2 768
3 3 1152' hail-salvage home 3
    { seq 1 300; head -c 60 /dev/zero; } >wanted
    "$tools/hail-salvage" home 3 3 2>err | cmp -s - wanted || wrong 'hail-salvage joins other bytes'
    told 'nothing vouches for these bytes'
    rm home/provider-1/3-2
    "$tools/hail-salvage" home 3 3 >out 2>err
    [ $? -eq 1 ] || wrong 'hail-salvage tells no missing part'
    told 'bytes 896 to 1023 are missing, and zero here'
    { head -c 896 wanted; head -c 128 /dev/zero; tail -c 128 wanted; } | cmp -s - out || wrong 'hail-salvage joins other bytes over a hole'
    says 2 '' hail-salvage home 3 9
    "$tools/hail-salvage" home 3 2 >/dev/full 2>err
    [ $? -eq 4 ] || wrong 'hail-salvage does not tell that its output is full'
}

# A journal of 16 MiB is read in 50 MB, and what stands behind its end to the last byte.
long_journal() {
    new_home 6 3 1 1 4 8 0
    head -c 50 home/journal >long
    printf '\1\2\7\0\0\0\0\0\0\0\1a\1\3\7\0\0\0\0\0\0\0\5\0\0\0' >record
    while [ "$(stat -c %s record)" -lt 16700000 ]; do cat record record >twice && mv twice record; done
    head -c $((645276 * 26)) record >>long
    printf '\0' >>long
    { printf '\0'; tail -c 1000000 long; } >>long
    (set -o pipefail && ulimit -v 50000 && od -An -v -tu1 -w32 long | LC_ALL=C awk -f "$(dirname "$(readlink -f "$tools/hail-gc")")/journal.awk" | tail -n 2) >out 2>err
    [ "$? $(cat out)" = '0 text 16777227
odd' ] || wrong "of a long journal is told $(tail -n 1 out) $(tail -n 1 err)"
}

# What hail-remote says where HOME/remotes or its words are not right; nothing is started then.
remote_words() {
    local line
    new_home 6 3 1 1 4 8 0
    says 2 '' hail-remote
    says 2 '' hail-remote -t 0 home list
    says 2 '' hail-remote -t 5
    says 0 'notes 1492
other 692
third 1092' hail-remote -t 5 home list
    for line in 16 '16 touch started' 02 'x touch started' '2 touch started\n2 true'; do
        printf "$line\n" >home/remotes
        says 2 '' hail-remote home list
    done
    told 'provider 2 stands twice in home/remotes'
    echo '2 touch started' >home/remotes && chmod g+w home/remotes
    says 2 '' hail-remote home list
    told 'others may write home/remotes'
    chmod g-w home/remotes
    printf '# none\n  \n2 touch started' >home/remotes
    mkdir home/remote-2 && ln -s /dev/fd/7 home/remote-2/answers
    says 2 '' hail-remote home list
    told 'home/remote-2/answers leads to another place than /dev/fd/122'
    rm -r home/remote-2 && ln -s provider-2 home/remote-2
    says 2 '' hail-remote home list
    told 'home/remote-2 is a link'
    [ ! -e started ] || wrong 'a far end was started'
}

# The life of a store of which providers 2 and 3 are in another home, and are served from there.
remotes() {
    local command
    mkdir -m 700 home far-2 far-3
    make_key >key
    printf '# two of six\n\n2 "$HAIL" far-2 serve 2\n3 echo hello >&2; "$HAIL" far-3 serve 3; exit 9\n' >home/remotes
    [ "$("$tools/hail-remote" home init 6 3 1 1 4 8 0 <key 2>err)" = ready ] || wrong 'there is no store with remote providers'
    told 'provider 3: hello'
    seq 1 400 | "$tools/hail-remote" home put notes >out 2>err || wrong "a put says $(cat out err)"
    [ "$(ls far-2 far-3 home)" = 'far-2:
provider-2

far-3:
provider-3

home:
journal
provider-0
provider-1
provider-4
provider-5
remote-2
remote-3
remotes' ] || wrong "there are $(ls far-2 far-3 home)"
    seq 1 400 | cmp -s - <("$tools/hail-remote" home get notes 2>err) || wrong "a get says $(cat err)"
    says 0 '' hail-watch home
    says 0 'journal version 1
provider 2 is remote: it is audited, and its blocks are not looked at
provider 3 is remote: it is audited, and its blocks are not looked at' hail-watch -v home
    for command in 'verify home' 'salvage home 3' 'restore home key'; do
        says 2 '' hail-$command
        told "provider 2 is remote, and its blocks can't be looked at"
    done
    head -c 120000 /dev/urandom >long
    [ "$("$tools/hail-remote" home put long <long 2>err)" = 'stored long 120000' ] || wrong "a put of more stripes says $(cat err)"
    [ "$(ls far-2/provider-2 | grep -c '^2-')" -gt 256 ] || wrong "a remote provider has $(ls far-2/provider-2 | grep -c '^2-') blocks of the second file"
    for command in 'get notes' 'get long' 'get notes'; do
        "$tools/hail-remote" home $command >"${command#get }.back" 2>err </dev/null || wrong "a $command says $(cat err)"
    done
    seq 1 400 | cmp -s - notes.back && cmp -s long long.back || wrong 'two files come back otherwise'
    says 0 '' hail-gc home
    told "provider 3 can't be looked at: what it holds stays"
    rm -r far-3/provider-3
    says 1 'provider 3 is flagged' hail-watch home
    says 0 'repaired 3' hail-remote home repair
    says 0 '' hail-watch home
    "$HAIL" home get notes >out 2>err
    [ "$? $(cat out err)" = '4 hail: lost row 0' ] || wrong "without pipes a get says $(cat out err)"
    printf '2 "$HAIL" far-2 serve 2\n' >home/remotes
    seq 1 400 | cmp -s - <("$tools/hail-remote" home get notes 2>err) || wrong "a get without provider 3 says $(cat err)"
    "$tools/hail-remote" home put other <key >out 2>err
    [ "$? $(cat out err)" = '13 hail: provider fault 3' ] || wrong "a put without provider 3 says $(cat out err)"
    [ ! -e home/provider-3 ] || wrong 'a put went into the folder of a remote provider'
    printf '2 "$HAIL" far-2 serve 2\n3 "$HAIL" far-3 serve 3\n' >home/remotes
    says 0 'dropped notes' hail-remote home drop notes
    [ -z "$(ls far-2/provider-2 far-3/provider-3 | grep -- '^1-')" ] || wrong "a drop leaves $(ls far-2/provider-2 far-3/provider-3)"
    for command in 1 2 3 4; do "$tools/hail-remote" home put "$command" <key >"out-$command" 2>&1 & done
    wait
    [ "$(cat out-* | sort -k 2)" = 'stored 1 64
stored 2 64
stored 3 64
stored 4 64' ] || wrong "four puts at a time say $(cat out-*)"
}

# A far end that does this does no harm, where it is given up behind so many seconds, or two: a put ends with one of these statuses, the file comes back, an audit flags no other, and nothing is
# written elsewhere.
bears() {
    local status seconds=${3:-2}
    rm -rf home far && cp -a before/. .
    echo "2 $1" >home/remotes
    timeout 300 "$tools/hail-remote" -t "$seconds" home put x <key >out 2>err
    status=$?
    [[ " $2 " = *" $status "* ]] || wrong "with the far end $1 a put ends with $status: $(cat out err)"
    seq 1 400 | cmp -s - <(timeout 300 "$tools/hail-remote" -t "$seconds" home get notes 2>err) || wrong "with the far end $1 a get says $(cat err)"
    timeout 300 "$tools/hail-remote" -t "$seconds" home audit >out 2>err </dev/null
    status=$?
    [ "$status" -eq 0 ] && ! grep 'flagged$' out | grep -qv '^provider 2 ' || wrong "with the far end $1 an audit ends with $status: $(cat out err)"
    [ "$(ls home)" = "$names" ] || wrong "with the far end $1 there are $(ls home)"
    cmp -s -n $(($(stat -c %s before/home/journal) - 1)) before/home/journal home/journal || wrong "with the far end $1 the journal is another"
}

# Far ends that are hostile.
hostile_remotes() {
    local names
    new_home 6 3 1 1 4 8 0
    mkdir -m 700 far && mv home/provider-2 far/ && cp -r home/provider-3 far/
    mkdir home/remote-2 && ln -s /dev/fd/102 home/remote-2/requests && ln -s /dev/fd/122 home/remote-2/answers
    : >home/remotes
    names=$(ls home)
    mkdir before && cp -a home far before/
    bears '"$HAIL" far serve 2' 0 30
    bears true 13
    bears no-such-command 13
    bears 'exec >&-; cat' 13
    bears "exec <&-; sleep 99.7$$" 13
    bears 'cat /dev/urandom' '0 13'
    bears 'exec yes' 13
    bears cat '0 13'
    bears "sleep 99.7$$" 13
    bears '{ head -c 100000 /dev/zero; "$HAIL" far serve 2; }' 13
    bears '{ printf "\\0"; "$HAIL" far serve 2; }' 13
    bears '{ printf "\\1"; "$HAIL" far serve 2; }' '0 13'
    bears '"$HAIL" far serve 3' 0 30
    bears 'cat /dev/urandom >&2' 13
    ! is_left "sleep 99.7$$" || wrong 'a far end is left'
}

# A far end that gives no answer for its time is given up and named, with what left its process group; the others go on.
silent_remotes() {
    local far
    new_home 6 3 1 1 4 8 0
    rm -r home/provider-2
    for far in 'setsid sleep LONG & sleep LONG' 'exec sleep LONG' 'trap "" HUP INT TERM PIPE; while :; do sleep LONG; done'; do
        echo "2 1s ${far//LONG/98.6$$}" >home/remotes
        timeout 300 "$tools/hail-remote" home put x <key >out 2>err
        [ $? -eq 13 ] || wrong "with the far end $far a put says $(cat out err)"
        told 'hail-remote: provider 2 is given up: no answer for 1 seconds'
        told 'hail: provider fault 2'
        seq 1 400 | cmp -s - <(timeout 300 "$tools/hail-remote" home get notes 2>err) || wrong "with the far end $far a get says $(cat err)"
        told 'hail-remote: provider 2 is given up: no answer for 1 seconds'
        ! is_left "sleep 98.6$$" || wrong "the far end $far is left"
    done
    timeout 300 "$tools/hail-watch" home >out 2>err
    [ "$? $(cat out)" = '4 provider 2 does not answer' ] || wrong "with a silent far end hail-watch says $(cat out err)"
}

# The far end $1 serves what the stand-in for hail sends: it writes $2, and what each session took is $3.
serves() {
    rm -f begun served
    echo "2 20s $1" >home/remotes
    HAIL=$PWD/client timeout 300 "$tools/hail-remote" home x >out 2>err </dev/null
    [ "$(cat out)" = "$2" ] || wrong "over the far end $1 come $(cat out err)"
    [ "$(cat served)" = "$3" ] || wrong "the far end $1 serves $(cat served)"
}

# Before 2^24 bytes of requests are used up a far end is begun anew, between two requests and behind the answers: here at the 8,136th of 10,000
# stores of 2,062 bytes. One that does not start again is one that ends; one that does not end is killed.
used_up_remotes() {
    mkdir home
    cat >client <<'END'
#!/usr/bin/env python3
"""In place of hail: 10,000 stores over descriptor 102, and the answers at 122, of which 1,000 are due at most."""
import os, sys
yes = due = 0
def read(most):
    global yes, due
    answers = os.read(122, most)
    yes, due = yes + answers.count(1), due - len(answers)
    if not answers:
        sys.exit(print(f"ended behind {yes}"))
for stripe in range(10000):
    try:
        os.write(102, bytes([1]) + bytes(8) + stripe.to_bytes(4, "little") + bytes([128]) + bytes(2048))
    except BrokenPipeError:
        due = 1 << 20
    due += 1
    while due >= 1000:
        read(due)
while due:
    read(due)
print(f"stored {yes}")
END
    cat >server <<'END'
#!/usr/bin/env python3
"""Answers each store by a yes, and says at the end of its input how many bytes came."""
import os
came = done = 0
while data := os.read(0, 65536):
    came += len(data)
    os.write(1, bytes([1]) * (came // 2062 - done))
    done = came // 2062
with open("served", "a") as file:
    file.write(f"{came}\n")
END
    chmod +x client server
    serves ./server 'stored 10000' '16776432
3843568'
    serves '[ ! -e begun ] || exit 1; touch begun; exec ./server' 'ended behind 8136' 16776432
    serves "./server; exec sleep 98.7$$" 'stored 10000' '16776432
3843568'
    ! is_left "sleep 98.7$$" || wrong 'a far end that does not end is left'
}

# Things in place of a remote provider's folder or pipes: it is a provider that fails, at once, and nothing is written there.
false_remotes() {
    local names shape
    new_home 6 3 1 1 4 8 0
    rm -r home/provider-2
    mkfifo fifo-98
    mkdir pipes && ln -s /dev/fd/102 pipes/requests && ln -s /dev/fd/122 pipes/answers
    for shape in 'ln -s ../pipes home/remote-2' 'ln -s nowhere home/remote-2' ': >home/remote-2' 'mkdir home/remote-2' 'mkfifo home/remote-2' \
        'mkdir home/remote-2; echo kept | tee home/remote-2/requests >home/remote-2/answers' \
        'mkdir -p home/remote-2/requests home/remote-2/answers' \
        'mkdir home/remote-2; mkfifo home/remote-2/requests home/remote-2/answers' \
        'mkdir home/remote-2; ln -s ../../fifo home/remote-2/requests; ln -s ../../fifo home/remote-2/answers; mkfifo fifo' \
        'mkdir home/remote-2; ln -s ../journal home/remote-2/requests; ln -s ../journal home/remote-2/answers' \
        'mkdir home/remote-2; ln -s /dev/fd/3 home/remote-2/requests; ln -s /dev/fd/4 home/remote-2/answers' \
        'mkdir home/remote-2; ln -s /dev/fd/98 home/remote-2/requests; ln -s /dev/fd/98 home/remote-2/answers'; do
        eval "$shape"
        find home/remote-2 fifo -printf '%p %y %s %l\n' >before 2>/dev/null
        seq 1 400 | cmp -s - <(timeout 120 "$HAIL" home get notes 2>err 98<>fifo-98) || wrong "behind $shape a get says $(cat err)"
        timeout 120 "$HAIL" home put x <key >out 2>err 98<>fifo-98
        [ "$? $(cat err)" = '13 hail: provider fault 2' ] || wrong "behind $shape a put says $(cat out err)"
        [ "$("$HAIL" home list | wc -l)" -eq 3 ] || wrong "behind $shape the list is another"
        find home/remote-2 fifo -printf '%p %y %s %l\n' 2>/dev/null | cmp -s - before || wrong "behind $shape there is $(find home/remote-2)"
        [ ! -e home/provider-2 ] || wrong "behind $shape blocks went elsewhere"
        rm -rf home/remote-2 fifo
    done
    mkdir home/remote-2 && ln -s /dev/fd/1 home/remote-2/requests && ln -s /dev/fd/0 home/remote-2/answers
    printf '\\1%.0s' {1..999} | timeout 120 "$HAIL" home get notes 2>err | cmp -s - <(seq 1 400) || wrong "behind the standard streams a get says $(cat err)"
}

. "$root/tools/test-losses.sh"
. "$root/tools/test-places.sh"

all='setting_up words watching verifying_one stuck_repair verifying_two verifying_three no_key_is_left collecting flipping reading counting
    own_profiles restoring packing swelling salvaging long_journal remote_words remotes hostile_remotes silent_remotes used_up_remotes
    false_remotes copy_during_put restoring_over_packed altered_switch other_home outages far_outage odd_remotes stray_links short_reading
    killed_restore killed_gc killed_init stacks helping telling changing_while_verified linked_journal odd_paths read_only_home full_disk two_at_once coming_and_going
    coming_and_going_mounts held_home hanging_mount restoring_others failing_copies launched struck'
run_all ${*:-$all}
[ $# -gt 0 ] || "$root/tools/test-types" || failed=1
[ $# -gt 0 ] || "$root/tools/test-keys.sh" || failed=1
[ $# -gt 0 ] || "$root/tools/test-folders.sh" || failed=1
[ $# -gt 0 ] || "$root/tools/test-stack.sh" || failed=1
[ $# -gt 0 ] || "$root/tools/test-progress" || failed=1
[ $# -gt 0 ] || "$root/tools/test-remotes.sh" || failed=1
[ $# -gt 0 ] || "$root/tools/test-forms.sh" first_form whole lost_blocks left_behind no_block_at_all other_journals misread several || failed=1
[ $# -gt 0 ] || "$root/tools/test-cuts" || failed=1
exit $failed
