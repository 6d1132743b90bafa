#!/bin/bash
# Tests of what keeps a store beyond its journal: hail-rebuild, hail-keep, hail-plan, hail-status, hail-homes and hail-move over real homes, all at
# once: each answer that goes otherwise is told, and it ends with 0 exactly where none does. What is due was worked out by hand. test-keys.sh
# NAME .. runs these tests alone.
set -u

called=keys
. "$(dirname "$0")/test-lib.sh"

# The companion ends with this status.
ends() {
    local wanted=$1 status
    shift
    "$tools/$1" "${@:2}" >out 2>err </dev/null
    status=$?
    [ "$status" -eq "$wanted" ] || wrong "$* ends with $status, not $wanted: $(cat out err)"
}

# What the companion before wrote has this text.
told() {
    cat out err | grep -qF -- "$1" || wrong "$1 is not told, but $(cat out err)"
}

# A new home with these numbers and a key of its own.
new_home() {
    local home=$1
    shift
    make_key >key
    "$tools/hail-init" -f "$home" "$@" <key >out || wrong "hail-init $*: $(cat out)"
}

# A home of which files were put, replaced and dropped: in effect are 2 `long`, 3 `empty`, 5 `small` at profile 2, 7 `notes`; with the word
# `names` also 8, their list. The journal is put aside.
lost_home() {
    new_home home "${@:2}"
    "$HAIL" home upgrade >out
    seq 1 40 | "$HAIL" home put notes >out
    seq 1 1000 >long && "$HAIL" home put long <long >out
    "$HAIL" home put empty </dev/null >out
    seq 1 200 | "$HAIL" home put gone >out
    seq 1 300 >small && "$HAIL" home put small 2 <small >out
    "$HAIL" home drop gone >out
    seq 1 9 | "$HAIL" home put other >out && "$HAIL" home drop other >out
    seq 1 50 >notes && "$HAIL" home put notes <notes >out
    [ "$1" != names ] || ends 0 hail-keep -n home
    mv home/journal lost
}

# hail-rebuild, with the key, in a copy of the home; the numbers are those of the home unless others are given.
rebuilds() {
    local wanted=$1 home=$2 status
    shift 2
    [ $# -gt 0 ] || set -- $numbers
    "$tools/hail-rebuild" ${options-} "$home" "$@" <"${key:-key}" >out 2>err
    status=$?
    [ "$status" -eq "$wanted" ] || wrong "hail-rebuild ${options-} $home $* ends with $status, not $wanted: $(cat out err)"
    [ ! -e "$home/.rebuilt-journal" ] || wrong 'hail-rebuild leaves its draft'
}

# A copy of the home in which these commands were done is refused, with this text, and nothing is written there.
refuses() {
    local text=$1
    shift
    rm -rf bad && cp -a home bad
    [ $# -eq 0 ] || (cd bad && eval "$1") || wrong "$1 fails"
    (cd bad && find . -type f -o -type l | LC_ALL=C sort) >before
    rebuilds "${status-1}" bad ${2-}
    told "$text"
    (cd bad && find . -type f -o -type l | LC_ALL=C sort) | cmp -s - before || wrong "behind $1 hail-rebuild writes $(ls -A bad)"
}

# The file comes back from a home under a name, and zero bytes behind it.
same() {
    "$HAIL" "$1" get "$2" >got 2>err || wrong "$2 of $1 does not come back: $(cat err)"
    cmp -s -n "$(stat -c %s "$3")" got "$3" || wrong "$2 of $1 is another"
    [ -z "$(tail -c +$(($(stat -c %s "$3") + 1)) got | tr -d '\0' | head -c 1)" ] || wrong "$2 of $1 has more"
}

all_files() {
    same "$1" n2 long
    same "$1" n5 small
    same "$1" n7 notes
    [ "$("$HAIL" "$1" list | wc -l)" -eq 3 ] || wrong "$1 lists $("$HAIL" "$1" list)"
}

# Of all providers' folders.
seal() {
    (cd "$1" && find -L . -path './provider-*' | LC_ALL=C sort && find -L . -path './provider-*' -type f | LC_ALL=C sort | xargs sha256sum) | sha256sum
}

next_of() {
    od -An -v -tu1 -w32 "$1/journal" | LC_ALL=C awk -f "$(dirname "$(readlink -f "$tools/hail-gc")")/journal.awk" | sed -n 's/^next //p'
}

# A journal comes back from the key, and the store goes on; with a list names and lengths do.
rebuilding() {
    local before numbers='6 3 1 1' first
    lost_home plain 6 3 1 1 4 8 0
    cp -a home h1 && before=$(seal h1)
    rebuilds 0 h1
    told 'rebuilt: 3 files, 0 of them by name; the next put has number'
    [ "$before" = "$(seal h1)" ] || wrong 'hail-rebuild changes the folders'
    [ "$(stat -c %a h1/journal)" = 600 ] || wrong 'a rebuilt journal can be read by others'
    all_files h1
    first=$(next_of h1)
    [ "${first% *}" = "$(sed -n 's/.* has number \([0-9]*\):.*/\1/p' out)" ] && [ "${first% *}" -gt 1800000000000000 ] || wrong "a rebuilt journal goes on at $first"
    seq 1 7 | "$HAIL" h1 put again >out && [ "$("$HAIL" h1 get again)" = "$(seq 1 7)" ] || wrong 'no put behind a rebuild'
    [ -e "h1/provider-0/${first% *}-0" ] || wrong 'the put behind a rebuild has another number'
    "$HAIL" h1 audit >out && "$HAIL" h1 scrub >out && "$HAIL" h1 pack >out || wrong 'no audit, scrub and pack behind a rebuild'
    ends 0 hail-verify h1
    ends 0 hail-watch h1
    ends 0 hail-gc h1
    rm h1/journal
    rebuilds 0 h1
    [ "$(next_of h1 | cut -d ' ' -f 1)" -gt "$((${first% *} + 1048575))" ] || wrong 'a second rebuild gives numbers again'
}

by_name() {
    local numbers='6 3 1 1 4 8 0'
    lost_home names 6 3 1 1 4 8 0
    cp -a home h1
    rebuilds 0 h1
    told 'rebuilt: 5 files, 5 of them by name'
    [ "$("$HAIL" h1 list | grep -v hail-names)" = "empty 0
long $(stat -c %s long)
notes $(stat -c %s notes)
small $(stat -c %s small)" ] || wrong "names come back as $("$HAIL" h1 list)"
    for name in long small notes; do "$HAIL" h1 get $name | cmp -s - $name || wrong "$name is another"; done
    ends 0 hail-keep -n h1
    cmp -s -n 300 <("$HAIL" h1 get hail-names) <("$HAIL" h1 get hail-names) && [ "$("$HAIL" h1 list | wc -l)" -eq 5 ] || wrong 'the list is another behind a rebuild'
    list_of_another
    list_that_is_old
    list_of_a_set
}

# The key comes back from paper, and a slip is told with its line.
from_paper() {
    local numbers='6 3 1 1' key=paper
    lost_home plain 6 3 1 1 4 8 0
    cp lost home/journal
    ends 0 hail-keep -k home
    [ "$(head -n 1 out)" = "hail store $PWD/home, init 6 3 1 1 4 8 0" ] || wrong "for paper is written $(cat out)"
    rm home/journal && cp out paper && cp -a home h1 && cp -a home h2
    rebuilds 0 h1
    all_files h1
    tail -n +2 paper | tr a-f A-F | tr -s ' ' >typed && key=typed rebuilds 0 h2
    rm h2/journal
    sed '4s/^3  ..../3  zzzz/' paper >typed && key=typed rebuilds 2 h2
    told 'line 3 of the key is missing, or lacks digits'
    awk 'NR == 3 { $2 = ($2 == "0000" ? "1111" : "0000") } 1' paper >typed && key=typed rebuilds 2 h2
    told 'line 2 of the key is not what its check says'
    head -n 4 paper >typed && key=typed rebuilds 2 h2
    told 'line 4 of the key is missing'
    "$tools/hail-homes" -p <paper >typed && cmp -s typed <(tail -n +2 paper) || wrong 'hail-homes writes a key otherwise'
}

# A list without the code of this key is a file like any other.
list_of_another() {
    rm -rf h2 && cp -a home h2 && cp lost h2/journal
    "$HAIL" h2 get hail-names | sed 's/ long$/ liar/' >forged
    "$HAIL" h2 put forged <forged >out && rm h2/journal
    rebuilds 0 h2
    "$HAIL" h2 list | grep -q '^long ' && "$HAIL" h2 list | grep -q '^n9 ' || wrong "a forged list is taken: $("$HAIL" h2 list)"
}

# Behind the list a file was put, one replaced, and one that is called as a number.
list_that_is_old() {
    rm -rf h2 && cp -a home h2 && cp lost h2/journal
    seq 1 8 | "$HAIL" h2 put late >out
    seq 1 9 | "$HAIL" h2 put long >out
    rm h2/journal
    rebuilds 0 h2
    [ "$("$HAIL" h2 list | grep -v hail-names | tr '\n' ' ')" = "empty 0 n10 384 n9 384 notes $(stat -c %s notes) small $(stat -c %s small) " ] ||
        wrong "behind an old list is listed $("$HAIL" h2 list)"
}

# Where hail-sftp keeps files, what has no name is kept in mind: it may name what is in other homes.
list_of_a_set() {
    rm -rf h2 h3 && cp -a home h2 && cp lost h2/journal
    echo x | "$HAIL" h2 put sftp1-set >out
    ends 0 hail-keep -n h2
    cp -a h2 h3 && rm h2/journal
    rebuilds 0 h2
    [ ! -e h2/restored ] || wrong "of a set whose names are whole is told $(cat h2/restored)"
    echo x | "$HAIL" h3 put sftp1-file-0 >out && rm h3/journal
    rebuilds 0 h3
    [ "$(cat h3/restored)" = 'n11: a file whose name is lost' ] || wrong "of a set without a name is told $(cat h3/restored)"
}

# One provider is away, or lies, and at B = 2 two do.
rebuilding_damaged() {
    local numbers='6 3 1 1'
    lost_home plain 6 3 1 1 4 8 0
    cp -a home h1 && rm -r h1/provider-2
    rebuilds 0 h1
    told 'provider 2: No such file or directory'
    [ ! -e h1/provider-2 ] || wrong 'hail-rebuild makes a folder'
    all_files h1
    "$HAIL" h1 scrub >out && "$tools/hail-verify" h1 >out || wrong 'a rebuilt store is not mended'
    cp -a home h2
    lie h2/provider-4
    rebuilds 0 h2
    told 'number 999: blocks of 256 bytes that only provider 4 shows: passed over'
    all_files h2
    "$HAIL" h2 audit >out && grep -q '^provider 4 .* flagged$' out || wrong "a liar is not flagged: $(cat out)"
    "$HAIL" h2 repair >out
    ends 0 hail-verify h2
    cp -a home h4 && rm h4/provider-1/5-0 h4/provider-3/5-0
    rebuilds 0 h4
    told 'number 5: stripe 0 is at 4 providers only: a put that was cut off, or a file that is lost; hail-salvage may join it'
    [ "$("$HAIL" h4 list | tr '\n' ' ')" = 'n2 4224 n7 384 ' ] || wrong "a lost file is listed: $("$HAIL" h4 list)"
    cp -a home h5
    for place in 0 1; do head -c 512 /dev/urandom >h5/provider-$place/5-0; done
    rebuilds 4 h5
    told 'n5: does not come back now'
    same h5 n2 long
}

rebuilding_two() {
    local numbers='9 4 2 1'
    lost_home plain 9 4 2 1 4 8 0
    rm -r home/provider-8
    lie home/provider-4
    rebuilds 0 home
    all_files home
}

# A provider's folder with wrong blocks, fewer, others, and such as no file can have.
lie() {
    (
        cd "$1" || exit
        for block in 2-*; do head -c 256 /dev/urandom >"$block"; done
        rm 7-0
        for block in 999-0 18446744073709551614-0 0-0 2-900 2-4000000 5-1 5-3; do head -c 256 /dev/urandom >"$block"; done
        head -c 2048 /dev/urandom >7-0
        ln -s 2-0 77-0 && mkdir 6-0 && mkfifo 3-0
    )
}

# Whatever is in doubt is refused, and nothing is written.
refusing() {
    local numbers='6 3 1 1' both='for p in 0 1; do' place later
    lost_home plain 6 3 1 1 4 8 0
    refuses 'see hail-restore' 'touch journal.before'
    refuses 'see hail-restore' 'cp ../lost journal'
    make_key >other && key=other refuses 'no file comes back' 'true'
    numbers='6 2 1 1' refuses 'no file comes back' 'true'
    numbers='5 2 1 1' refuses 'provider 5 has blocks, and N is 5' 'true'
    numbers='6 1 2 1' refuses 'no file comes back' 'true'
    numbers='6 3 1 4' refuses 'no file has the profile 4; those found have 1 2' 'true'
    refuses 'number 2: stripe 7 is missing, and stripe 10 is there; -x 2 leaves it out' 'rm provider-?/2-7'
    refuses 'number 2: more than 1 providers hold blocks of each of the sizes 256 512' "$both head -c 512 /dev/zero >provider-\$p/2-0; done"
    refuses 'number 77: more than 1 providers hold blocks of 48 bytes, which no profile has' "$both head -c 48 /dev/zero >provider-\$p/77-0; done"
    refuses 'number 77: no file is so long that it has stripe 10923' "$both head -c 256 /dev/zero >provider-\$p/77-10923; done"
    refuses 'hold blocks of number 0, which no put can have had' "$both head -c 256 /dev/zero >provider-\$p/0-0; done"
    later=$((($(date +%s) + 1000) * 1048576))
    refuses "hold blocks of number $later, which no put can have had: is the clock set back?" "$both head -c 256 /dev/zero >provider-\$p/$later-0; done"
    options="-x $later" refuses "hold blocks of number $later" "$both head -c 256 /dev/zero >provider-\$p/$later-0; done"
    refuses 'blocks written more than a day after now' "touch -d '+2 days' provider-[01]/2-0"
    options="-b $later" refuses "an earlier rebuild gave $later" 'true'
    refuses 'provider-2 is the folder of provider-3, or lies in it' 'rm -r provider-3; ln -s provider-2 provider-3'
    refuses 'provider-3 is the folder of provider-2, or lies in it' 'mv provider-3 provider-2/inner; ln -s provider-2/inner provider-3'
    refuses 'provider 1 is remote' 'mkdir remote-1'
    refuses 'provider 7 has blocks' 'cp -r provider-3 provider-7'
    refuses 'number 5: stripe 0 is at 4 providers, and provider 0 shows nothing: bring it back; -x 5 leaves it out' 'rm -r provider-0 provider-1/5-0'
    refuses 'no file is found' 'rm -r provider-?/*'
    refuses 'no file is found' 'rm -r provider-?'
    mkdir copies && cp lost copies/journal
    refuses "$PWD/copies has a copy of the journal: see hail-restore" "echo $PWD/copies >copies"
    refuses "$PWD/nowhere is away, and may have a copy" "echo $PWD/nowhere >copies"
    for place in 0 1; do for number in $(seq 1000 2024); do head -c 96 /dev/zero >"many-$place-$number"; done; done
    refuses 'more than a store has' 'for p in provider-?; do for n in $(seq 1000 2024); do ln ../many-0-1000 $p/$n-0 2>/dev/null || cp ../many-0-1000 $p/$n-0; done; done'
    rm many-*
    status=2 refuses 'no store has these numbers' 'true' '6 4 1 1'
    status=2 refuses 'ROUNDS PICKS TOLERANCE or none' 'true' '6 3 1 1 4'
    echo abc >other && status=2 key=other refuses 'the key is 64 hexadecimal digits' 'true'
    key=key rebuilds 2 nowhere
}

# What is in doubt can be left out.
leaving_out() {
    local numbers='6 3 1 1'
    lost_home plain 6 3 1 1 4 8 0
    cp -a home h1 && rm h1/provider-?/2-7
    options='-x 2' rebuilds 0 h1
    told 'number 2: left out, as -x says'
    [ "$("$HAIL" h1 list | tr '\n' ' ')" = 'n5 1152 n7 384 ' ] || wrong "with a number left out is listed $("$HAIL" h1 list)"
}

# A clock that stands long ago, a disk that is full, and kills at each call of hail.
rebuilding_harmed() {
    local numbers='6 3 1 1' call place number
    lost_home plain 6 3 1 1 4 8 0
    python3 -B -c 'import runpy, sys, time; time.time = lambda: 86400.0; sys.argv = sys.argv[1:]; runpy.run_path(sys.argv[0], run_name="__main__")' \
        "$tools/hail-rebuild" home 6 3 1 1 <key >out 2>err
    [ $? -eq 1 ] && [ ! -e home/journal ] || wrong 'a clock of 1970 is taken'
    told 'the clock stands at second 86400, long ago: set it'
    cp -a home full
    for place in 0 1 2 3 4 5; do for number in $(seq 100 170); do cp home/provider-0/2-0 full/provider-$place/$number-0; done; done
    (ulimit -f 1 && exec "$tools/hail-rebuild" full 6 3 1 1) <key 2>&1 | cat >out
    told 'File too large'
    [ -z "$(ls -A full | grep -v provider)" ] || wrong "a full disk leaves $(ls -A full)"
    for call in 1 2 3 4 5; do
        rm -f calls
        spy "[ \$(wc -l <$PWD/calls) -ne $call ] || kill -KILL \$PPID"
        spied hail-rebuild home 6 3 1 1 <key && wrong "kill $call does nothing"
        [ ! -e home/journal ] || wrong "kill $call leaves a journal"
    done
    [ -z "$(find tmp -type f)" ] && rm -rf tmp/* || wrong "kills leave below TMPDIR $(find tmp -type f)"
    rebuilds 0 home
    all_files home
}

# In place of hail: notes the call, does this, and then is hail.
spy() {
    printf '#!/bin/bash\necho call >>%s/calls\n%s\nexec "%s" "$@"\n' "$PWD" "$1" "$HAIL" >spy
    chmod +x spy
}

# A companion over the spy; where it is killed, another shell tells so.
spied() {
    HAIL=$PWD/spy bash -c '"$@"; exit $?' bash "$tools/$1" "${@:2}" >out 2>err
}

# A provider whose folder has one file an object; its header is damaged, or a mark.
stack() {
    python3 -B - "$1" <<'PYTHON'
import os, struct, sys
folder = sys.argv[1]
objects = {}
for name in os.listdir(folder):
    number, stripe = name.split("-")
    with open(f"{folder}/{name}", "rb") as file:
        objects.setdefault(number, {})[int(stripe)] = file.read()
    os.unlink(f"{folder}/{name}")
for number, blocks in objects.items():
    size = len(blocks[0])
    data = b"HAILstk1" + struct.pack("<Q", size)
    for stripe in sorted(blocks):
        data += blocks[stripe] + b"hail" + struct.pack("<I", stripe)
    with open(f"{folder}/{number}", "wb") as file:
        file.write(data)
PYTHON
}

stacked() {
    local numbers='6 3 1 1'
    lost_home plain 6 3 1 1 4 8 0
    stack home/provider-2
    : >home/stack-2
    cp lost home/journal
    "$tools/hail-status" home >out 2>err
    grep -Eq '^  2 +stacked +yes .* 13 +0 ' out || wrong "of a stacked provider is told $(cat out err)"
    printf 'xx' | dd of=home/provider-2/2 bs=1 seek=3 conv=notrunc status=none
    printf 'xx' | dd of=home/provider-2/5 bs=1 seek=530 conv=notrunc status=none
    "$tools/hail-status" home >out 2>err
    grep -Eq '^  2 +stacked +yes .* 12 +1 ' out || wrong "of a damaged stacked provider is told $(cat out err)"
    rm home/journal && cp -a home h1
    rebuilds 0 h1
    all_files h1
    rm home/provider-1/2-3 home/provider-2/2 # two lack stripe 3
    rebuilds 0 home
    told 'number 2: stripe 3 is at 4 providers only'
}

# Each table of the documents below a line `<!-- hail-plan WORDS -->` is the one that these words make, blanks beside its bars aside.
tables_are_as_planned() {
    local page words
    grep -c '^<!-- hail-plan ' "$root"/docs/*.md | grep -v ':0$' | cut -d: -f1 >pages
    [ -s pages ] || wrong 'no document has a table of hail-plan'
    while read -r page; do
        sed -n 's/^<!-- hail-plan \(.*\) -->$/\1/p' "$page" >plans
        while IFS= read -r words; do
            eval "ends 0 hail-plan $words"
            grep '^|' out | sed 's/ *| */|/g' >planned
            awk -v plan="<!-- hail-plan $words -->" '$0 == plan { found = 1; next } found && /^\|/ { print; table = 1; next } table { exit }' "$page" | sed 's/ *| */|/g' >shown
            cmp -s planned shown || wrong "$page has another table than hail-plan $words"
        done <plans
    done <pages
}

# What hail-plan tells, as worked out by hand, and as the program over memory comes to.
planning() {
    local shape
    ends 0 hail-plan --svg plan.svg
    told '| 6 3 1 | 2.67 | 5466 | up to 1 | 2 to 4 | 5 or more | all 6 |'
    told '| 3 | 911 | 96.5% | 86.9% | 32.5% |'
    told '| 6 3 1 | 40 | 9537 | 10 | 107 | 107 | 107 | 214 | 8688207 | 107 | 9537 |'
    told '| 6 3 1 | 1.5e-04 | 1.0e-03 | 4.3e-03 | 1.2e-02 |'
    told '| beside: 2 copies | 1.5e-05 | 1.0e-04 | 4.4e-04 | 1.3e-03 |'
    python3 -c 'import sys, xml.dom.minidom as dom; sys.exit(len(dom.parse("plan.svg").getElementsByTagName("polyline")) != 12)' || wrong 'the picture has other lines'
    ends 0 hail-plan --only costs --shapes 6-3-1 --gigabytes 40 --pages 4096 131072 # of 911 blocks of 2,048 bytes; 1,876,676 bytes are 15 pages
    told '| 6 3 1 | 40 | 9537 | 10 | 107 | 214 | 6833 | 8688207 | 113 | 9537 |'
    ends 0 hail-plan --only finds --shapes 6-3-1
    told '| one block of 1 MiB | 86.9% | 57% | 1.11% |'
    ends 0 hail-plan --only times --gigabytes 40 --measured 'here: put=0.8 scrub=0.1'
    [ "$(tail -n 1 out)" = '| here, 40 | 2.1 h | - | - | 16 min | - |' ] || wrong "times are told as $(cat out)"
    for shape in 6-3-2 3-1-1 17-3-1 6-0-1 6-3 a; do ends 2 hail-plan --shapes $shape; done
    for shape in '--loss 2' '--days 0' '--profile 5' '--length 0' '--audits 65-1' '--measured x' '--only all' '--pages 0'; do ends 2 hail-plan $shape; done
    ends 1 hail-plan --svg nowhere/plan.svg
    tables_are_as_planned
    ends 0 hail-plan --only choice --shapes 5-2-1 6-3-1 7-2-2 9-4-2 12-7-2 16-9-3 --svg losses.svg
    cmp -s losses.svg "$root/docs/losses.svg" || wrong 'the picture of the guide is another'
    for shape in 5-2-1 9-4-2 16-9-3; do planned $shape; done
    audits_simulated
    losses_simulated
}

# A file of 5,000 bytes at this shape and profile 1 has as many stripes as the program scrubs; it comes back with B providers lost, and not with
# one more.
planned() {
    local n l b place stripes said
    IFS=- read -r n l b <<<"$1"
    said=$("$tools/hail-plan" --only shapes --shapes "$1" --profile 1 --length 5000 | sed -n "s/^| $n $l $b | [0-9.]* | \([0-9]*\) .*/\1/p")
    {
        echo "init $n $l $b 1 1 1 0 $(make_key)"
        printf 'reopen\nbegin put f %s\nrun 1\nbegin scrub\nrun 2\n' "$(head -c 5000 /dev/zero | od -An -v -tx1 | tr -d ' \n')"
        for ((place = 0; place < b; place++)); do echo "lose $place 1 0"; done
        printf 'begin get f\nrun 3\nlose %d 1 0\nbegin get f\nrun 4\n' "$b"
    } | "$HAIL" - replay | cut -c 1-20 >out
    stripes=$(sed -n 's/^scrubbed \([0-9]*\) .*/\1/p' out)
    [ "$((stripes * n))" = "$said" ] || wrong "at $1 hail has $stripes stripes, and hail-plan tells $said blocks"
    [ "$(grep -cE '^got ' out) $(grep -c '^lost ' out)" = '1 1' ] || wrong "at $1 losses come out as $(cat out)"
}

# 20 stripes at 4 1 1, profile 0; provider 1 loses one block; 4 rounds of 2 picks miss it with (1 - 1/20)^8 = 0.6634. Within five deviations.
audits_simulated() {
    local said
    {
        printf 'init 4 1 1 0 4 2 4096 000102030405060708090a0b0c0d0e0f101112131415161718191a1b1c1d1e1f\nreopen\n'
        printf 'begin put f %s\nrun 1\nlose 1 1 7\n' "$(head -c 640 /dev/zero | od -An -v -tx1 | tr -d ' \n')"
        for job in $(seq 2 601); do printf 'begin audit\nrun %d\n' "$job"; done
    } | "$HAIL" - replay | awk '/^audited/ { all++; if ($7 == 0) missed++ } END { print missed + 0, all + 0 }' >found
    said=$("$tools/hail-plan" --only audits --shapes 4-1-1 --profile 0 --length 640 --audits 4-2 | sed -n 's/^| 1 | 20 | \([0-9.]*\)% .*/\1/p')
    echo "$(cat found) $said" | awk '{ p = $3 / 100; exit !($2 == 600 && p > 0.66 && p < 0.67 && ($1 - $2 * p) ^ 2 < 25 * $2 * p * (1 - p)) }' ||
        wrong "hail-plan tells that $said% of audits miss a block, and of MISSED ALL $(cat found) do"
}

# 10 stripes at 4 1 1, profile 0; behind a put each of four providers loses all with 0.1, else each block with 0.02; then a get.
losses_simulated() {
    local said
    awk 'BEGIN {
        srand(20261130)
        print "init 4 1 1 0 1 1 0 000102030405060708090a0b0c0d0e0f101112131415161718191a1b1c1d1e1f\nreopen"
        for (turn = 1; turn <= 500; turn++) {
            printf "begin put f "; for (k = 0; k < 320; k++) printf "%02x", (k + turn) % 256; print "\nrun " 2 * turn - 1
            for (j = 0; j < 4; j++) { all = rand() < 0.1; for (s = 0; s < 10; s++) if (all || rand() < 0.02) print "lose " j, turn, s }
            print "begin get f\nrun " 2 * turn
        } }' | "$HAIL" - replay | awk '/^got/ { got++ } /^lost/ { lost++ } END { print lost + 0, got + lost }' >found
    said=$("$tools/hail-plan" --only losses --shapes 4-1-1 --profile 0 --length 320 --loss 0.1 --rot 0.02 --days 365 | sed -n 's/^| 4 1 1 | \([0-9.e+-]*\) |$/\1/p')
    echo "$(cat found) $said" | awk '{ p = $3; exit !($2 == 500 && p > 0.05 && ($1 - $2 * p) ^ 2 < 25 * $2 * p * (1 - p)) }' ||
        wrong "hail-plan tells a loss of $said, and of LOST ALL $(cat found)"
}

# The journal in its place, as copies have it: its records in the first area.
is_copied() {
    local length
    length=$(od -An -v -tu1 -w32 "$1/journal" | LC_ALL=C awk -f "$(dirname "$(readlink -f "$tools/hail-gc")")/journal.awk" | sed -n 's/^text //p')
    (cd "$2" && sha256sum -c --quiet journal.sum) >out 2>&1 || wrong "the copy in $2 is not what its checksum says"
    if [ "$(head -c 8 "$1/journal" | tail -c 1)" = 2 ]; then
        { printf HAILJRN1; tail -c +8388609 "$1/journal" | head -c "$length"; } | cmp -s - "$2/journal" || wrong "the copy in $2 is another"
    else
        head -c "$length" "$1/journal" | cmp -s - "$2/journal" || wrong "the copy in $2 is another"
    fi
    [ "$(ls "$2" | tr '\n' ' ')" = 'journal journal.sum ' ] || wrong "beside a copy stands $(ls "$2")"
    [ "$(stat -c %a "$2/journal")" = 600 ] || wrong 'a copy can be read by others'
}

# hail-keep does as hail, and each place has the journal behind it.
keeping() {
    new_home home 6 3 1 0 1 4 0
    mkdir one two
    printf '# places\n\n%s\n  %s\n| cat >%s/taken; echo $SUM >%s/sum\n' "$PWD/one" "$PWD/two" "$PWD" "$PWD" >home/copies
    ends 1 hail-keep -c home
    told "home: the copy of the journal is behind: $PWD/one"
    [ "$(wc -l <out)" -eq 3 ] || wrong "of copies behind is told $(cat out)"
    [ "$(seq 1 9 | "$tools/hail-keep" home put notes 2>err)" = 'stored notes 18' ] || wrong "hail-keep says $(cat err)"
    is_copied home one
    is_copied home two
    cmp -s one/journal taken && [ "$(cat sum)" = "$(sha256sum <taken | head -c 64)" ] || wrong 'the command took another copy'
    ends 0 hail-keep -c home
    touch -d '-1 hour' one/journal taken
    cp one/journal.sum before
    ends 0 hail-keep home get notes
    [ "$(cat out)" = "$(seq 1 9)" ] || wrong "hail-keep gets $(cat out)"
    ends 0 hail-keep home
    [ one/journal -ot before ] && [ taken -ot before ] || wrong 'a copy that is as the journal is written again'
    ends 3 hail-keep home get none
    ends 2 hail-keep home frob
    ends 0 hail-keep home audit
    ends 0 hail-keep home upgrade
    ends 0 hail-keep home drop notes
    is_copied home one
    seq 1 5 | "$tools/hail-keep" home put five >out 2>err
    for place in 1 2 3 4; do seq 1 $place | "$tools/hail-keep" home put "f$place" >"said-$place" 2>&1 & done
    wait
    is_copied home one
    is_copied home two
    cmp -s one/journal taken || wrong 'behind four puts at once the command took another copy'
    restored_from one
    noted
    ends 0 hail-keep home pack
    is_copied home one
    restored_from one
}

# hail-restore takes the copy.
restored_from() {
    "$HAIL" home list >before
    mv home/journal journal
    ends 0 hail-restore home "$1/journal" 0
    "$HAIL" home list | cmp -s - before || wrong 'a restored copy lists other files'
    ends 0 hail-keep home
}

# What was done has a line with its time.
noted() {
    rm -r home/provider-2
    "$tools/hail-keep" home audit >out 2>err
    ends 0 hail-keep home repair
    rm home/provider-1/*
    ends 0 hail-keep home scrub
    grep -q '^scrub stripes ' out || wrong "hail-keep scrubs with $(cat out)"
    cut -d ' ' -f 2- home/history >out
    [ "$(cat out)" = 'audit 0 undecided 0 flagged none
upgrade 0
audit 0 undecided 0 flagged 2
repair 0
scrub 0 wrong 1' ] || wrong "noted is $(cat out)"
    head -c 70000 /dev/zero | tr '\0' '\n' >>home/history
    ends 0 hail-keep home audit
    [ "$(stat -c %s home/history)" -lt 40000 ] && tail -n 1 home/history | grep -q ' audit 0 ' || wrong 'a long history is not made shorter'
}

# No copy is replaced that is newer, of another store, or by a bad journal; and none is made where it can't be.
not_copied() {
    new_home home 6 3 1 0 1 4 0
    mkdir one
    echo "$PWD/one" >home/copies
    cp home/journal old
    seq 1 9 | "$tools/hail-keep" home put notes >out
    cp -a one good
    cp home/journal journal && cp old home/journal
    ends 3 hail-keep home
    told 'has a copy that is newer than the journal, which is kept; put nothing'
    cp journal home/journal
    printf X | dd of=home/journal bs=1 seek=60 conv=notrunc status=none
    ends 4 hail-keep home
    cp journal home/journal
    printf '| cat >%s/taken\n' "$PWD" >home/copies
    ends 0 hail-keep home
    cp old home/journal
    ends 3 hail-keep home
    told 'took a copy that is newer'
    cp journal home/journal
    echo "$PWD/one" >home/copies
    cp -a home other && rm other/journal && rm -r other/provider-* && make_key | "$HAIL" other init 4 1 1 0 1 1 0 >out 2>err
    ends 3 hail-keep other
    told 'has a copy of another store, which is kept'
    diff -r one good || wrong 'a copy was replaced'
    broken_off
    away_or_full
    copies_of_others
}

# What a kill leaves: one of the pairs is whole, and the next copying mends the other.
broken_off() {
    seq 1 8 | "$tools/hail-keep" home put more >out
    cp good/journal.sum one/journal.sum && cp one/journal one/journal.new && (cd one && sha256sum journal.new >journal.new.sum) && echo x >one/journal.part
    ends 1 hail-keep -c home
    ends 0 hail-keep home
    rm -f one/journal.part
    is_copied home one
    echo x >one/journal.new
    ends 0 hail-keep home
    is_copied home one
}

away_or_full() {
    mv one away
    seq 1 7 | "$tools/hail-keep" home put again >out 2>err
    [ "$? $(cat out)" = '1 stored again 14' ] || wrong "with a place away a put says $(cat out err)"
    told "no copy of the journal: $PWD/one: is away"
    [ ! -e one ] || wrong 'hail-keep makes the folder of a copy'
    mv away one
    "$HAIL" home list >out
    for name in $(seq 1 12); do echo x | HAIL_KEEPS=1 "$HAIL" home put "a-name-that-is-long-so-that-the-journal-becomes-so-too-$name" >out; done
    (ulimit -f 1 && exec "$tools/hail-keep" home) >said 2>&1 && wrong 'a full disk is not told'
    (cd one && sha256sum -c --quiet journal.sum) || wrong 'a full disk spoils the copy'
    ends 0 hail-keep home
    rm -f one/*.part
    is_copied home one
    mv one away
    ends 1 hail-watch home
    told "no copy of the journal: $PWD/one: is away"
    mv away one
    ends 0 hail-watch home
    is_copied home one
    printf '| exit 3\n' >home/copies
    ends 1 hail-keep home
    told 'no copy of the journal: | exit 3: ended with 3'
}

copies_of_others() {
    echo "$PWD/home" >home/copies
    ends 2 hail-keep home
    told 'is the home itself'
    mkdir home/provider-2/inner && echo "$PWD/home/provider-2/inner" >home/copies
    ends 2 hail-keep home
    told 'lies in provider-2, and the journal has the key'
    [ -z "$(ls home/provider-2/inner)" ] && rmdir home/provider-2/inner || wrong 'a provider has the journal'
    printf '| touch %s/run\n' "$PWD" >home/copies && chmod g+w home/copies
    ends 2 hail-keep home
    told 'others may write'
    [ ! -e run ] || wrong 'a command of others was run'
    chmod g-w home/copies
    if [ "$(id -u)" -eq 0 ]; then
        chown 12345 home/copies
        ends 2 hail-keep home
        told 'others may write'
        [ ! -e run ] || wrong 'a command of its owner was run'
        chown 0 home/copies
    fi
    echo one >home/copies
    ends 2 hail-keep home
    told 'neither the whole path of a folder nor | and a command'
    ends 2 hail-keep nowhere
    ends 2 hail-keep -n
    ends 2 hail-keep -e frob home
    rm home/copies
    ends 0 hail-keep home
    ends 0 hail-keep -c home
}

# Behind what may have changed the journal, the launcher, hail-remote, hail-init and hail-restore copy it where the home names places.
by_itself() {
    local hail=$PWD/package/bin/hail
    make_launcher
    mkdir home one && echo "$PWD/one" >home/copies
    new_home home 6 3 1 0 1 4 0
    is_copied home one
    [ "$(seq 1 9 | "$hail" home put notes 2>&1)" = 'stored notes 18' ] || wrong 'the launcher puts otherwise'
    is_copied home one
    mv home/provider-2 aside && : >home/provider-2
    for command in "$hail" "$tools/hail-keep"; do
        seq 1 9 | "$command" home put other >out 2>err
        [ "$? $(cat err)" = '13 hail: provider fault 2' ] || wrong "a put that fails says $(cat out err)"
        is_copied home one
    done
    rm home/provider-2 && mv aside home/provider-2
    seq 1 9 | HAIL_KEEPS=1 "$hail" home put third >out
    "$hail" home get notes >out
    "$hail" home put no/name </dev/null >out 2>err
    [ "$? $(cat err)" = '17 hail: bad name' ] || wrong "a name that is none is told as $(cat err)"
    ends 1 hail-keep -c home
    mv one away
    seq 1 5 | "$hail" home put five >out 2>err
    [ "$? $(cat out)" = '0 stored five 10' ] || wrong "with a place away the launcher puts $(cat out err)"
    told "no copy of the journal: $PWD/one: is away"
    mv away one
    "$hail" home audit >out
    is_copied home one
    by_restoring
    by_watching
    mv home ./-home && { seq 1 4 | "$hail" -home put four >out 2>err || wrong "a home -home says $(cat out err)"; } && mv ./-home home
    is_copied home one
    mkdir far && mv home/provider-4 far/ && echo "4 '$HAIL' '$PWD/far' serve 4" >home/remotes
    seq 1 6 | "$tools/hail-remote" home put six >out 2>err || wrong "a put over a far end says $(cat out err)"
    is_copied home one
    ln -sf nowhere home/copies
    seq 1 3 | "$hail" home put three >out 2>err
    told "home/copies can't be read"
}

# hail-watch copies, and tells of a place that is away, also where it makes no audit: a repair is due, or a provider does not answer.
by_watching() {
    rm -r home/provider-3
    ends 1 hail-watch home
    mv one away
    ends 1 hail-watch home
    told 'a repair is due'
    told "no copy of the journal: $PWD/one: is away"
    HAIL_KEEPS=1 "$HAIL" home repair >out
    mv home/provider-5 aside && ln -s nowhere home/provider-5
    ends 4 hail-watch home
    told "no copy of the journal: $PWD/one: is away"
    mv away one
    ends 4 hail-watch home
    is_copied home one
    rm home/provider-5 && mv aside home/provider-5
}

# No copy is restored while a place has a newer one, which the next copying would replace.
by_restoring() {
    cp -a one old
    printf '%s\n| cat >%s/taken\n' "$PWD/one" "$PWD" >home/copies
    seq 1 7 | "$tools/hail-keep" home put seven >out
    mv home/journal journal
    ends 3 hail-restore home old/journal 20
    told "$PWD/one/journal has a newer copy than old/journal"
    mv one away
    ends 3 hail-restore home old/journal 20
    told "$PWD/one is away, and may have a newer copy"
    told "| cat >$PWD/taken has a newer copy than old/journal"
    [ ! -e home/journal ] || wrong 'an older copy is restored'
    mv away one
    ends 0 hail-restore home one/journal 20
    is_copied home one
    cmp -s one/journal taken || wrong 'behind a restore a command took no copy'
    "$HAIL" home get seven | cmp -s - <(seq 1 7) || wrong 'a restored journal lacks a file'
    echo "$PWD/one" >home/copies
}

# The list is stored where it has changed; several homes at once.
listing() {
    new_home home 6 3 1 0 1 4 0
    seq 1 9 | "$HAIL" home put notes >out
    ends 0 hail-keep -n home
    "$HAIL" home get hail-names >list
    [ "$(head -n -1 list)" = 'hail-names 1
1 18 0 notes' ] || wrong "the list is $(cat list)"
    cp home/journal before
    ends 0 hail-keep -n home
    cmp -s home/journal before || wrong 'a list that has not changed is stored again'
    "$HAIL" home drop notes >out
    ends 0 hail-keep -n home
    [ "$("$HAIL" home get hail-names | head -n -1)" = 'hail-names 1' ] || wrong 'the list of no files is another'
    new_home two 4 1 1 0 1 1 0
    ends 0 hail-keep -e scrub home two
    [ "$(grep -c '^scrub stripes' out) $(grep -n '^two:$' out)" = '2 9:two:' ] || wrong "of two homes is told $(cat out)"
    ends 7 hail-keep -e repair home two
    ends 0 hail-keep -e watch home two
    [ -z "$(cat out err)" ] || wrong "of two homes that are well is told $(cat out err)"
    rm -r home/provider-2 && mkdir home/provider-2
    ends 1 hail-keep -e watch two home
    [ "$(head -n 2 out)" = 'home:
provider 2 is flagged' ] || wrong "of a home that is not well is told $(cat out)"
}

# How stores stand is told.
standing() {
    new_home home 6 3 1 0 1 4 0
    seq 1 30 | "$HAIL" home put notes >out
    : | "$HAIL" home put empty >out
    ends 0 hail-status home
    told 'files       2 of 1024, 81 B'
    told '  nothing to do'
    told 'copies      of the journal there are none'
    ends 0 hail-keep home audit
    rm -r home/provider-2 && mkdir home/provider-2
    ends 1 hail-status home
    told 'to do: provider 2 lacks 1 blocks: scrub'
    "$tools/hail-keep" home audit >out
    ends 1 hail-status home
    told 'last audit  20'
    told 'now, undecided 0 flagged 2, number 2'
    told 'to do: audit 2 flagged provider 2: look why, then repair'
    rm -r home/provider-3
    mkdir home/remote-4 && echo "4 sleep 99.3$$" >home/remotes
    mkdir two && echo "$PWD/two" >home/copies
    ends 1 hail-status -t 15 home
    told 'to do: provider 3 does not answer: No such file or directory'
    told 'to do: provider 4 does not answer: no answer in time'
    told "to do: the copy of the journal is behind: $PWD/two"
    told 'copies      1, of which 1 are behind'
    ! is_left "sleep 99.3$$" || wrong 'a far end is left'
    echo '4 90s "$HAIL" far serve 4' >home/remotes && mkdir far
    ends 1 hail-status home
    grep -Eq '^  4 +remote +yes +- ' out || wrong "of a remote provider is told $(cat out)"
    as_a_page
    standing_wrong
}

# The page is well-formed, and has neither the key nor a name.
as_a_page() {
    local key
    key=$(cat key)
    mv home 'ho<m>e & "co"' && ends 1 hail-status --html 'ho<m>e & "co"' && mv 'ho<m>e & "co"' home
    python3 -c '
import re, sys, xml.dom.minidom as dom
text = open("out").read().replace("<!DOCTYPE html>", "").replace("&nbsp;", " ")
page = dom.parseString(re.sub(r"<meta([^>]*)>", r"<meta\1/>", text))
fields = [one for one in page.getElementsByTagName("svg") if one.getAttribute("role") == "img"]
sys.exit(len(fields) != 6 or any(len(one.getElementsByTagName("rect")) != 2 for one in fields))' || wrong 'the page is not as it should be'
    grep -qiE "$key|notes" out && wrong 'the page shows a key or a name'
    for look in lost away age0 empty; do grep -q "<g class=\"$look\"><title>" out || wrong "no cell of the page is $look"; done
}

standing_wrong() {
    chmod g+w home/copies
    ends 1 hail-status home
    told 'copies      not looked at'
    told "to do: hail-keep: others may write $PWD/home/copies, whose commands would be run"
    chmod g-w home/copies
    exec 7<home && flock -x 7
    timeout 30 "$tools/hail-status" -t 2 home >out 2>err
    told 'busy: a command has it alone'
    exec 7<&-
    printf X | dd of=home/journal bs=1 seek=8 conv=notrunc status=none
    ends 4 hail-status home
    ends 2 hail-status nowhere
    ends 2 hail-status -t 0 home
    ends 2 hail-status
}

# Homes over the same providers, each with its own key from one.
homes() {
    local place
    make_key >root
    for place in 0 1 2 3; do mkdir "base-$place"; done
    makes 2 4 1 1 0 1 1 0 base-0 base-1 base-2
    told 'N is 4, and there are 3 folders'
    makes 2 4 1 1 0 1 1 0 base-0 base-1 base-2 base-2
    told "is another provider's, or lies in it"
    makes 2 4 2 1 0 1 1 0 base-0 base-1 base-2 base-3
    [ ! -e homes ] || wrong 'refused words make homes'
    makes 0 4 1 1 0 1 1 0 base-0 base-1 base-2 base-3
    [ "$(cat out)" = "$PWD/homes/home-001: ready
$PWD/homes/home-002: ready" ] || wrong "of new homes is told $(cat out)"
    seq 1 9 | "$HAIL" homes/home-002 put notes >out && [ -e base-3/home-002/1 ] || wrong 'a home has no folder at its provider'
    "$tools/hail-homes" -k 2 <root >second
    [ "$(od -An -v -tx1 -j 18 -N 32 homes/home-002/journal | tr -d ' \n')" = "$(cat second)" ] || wrong 'a home has another key than is told'
    [ "$(cat second)" != "$("$tools/hail-homes" -k 1 <root)" ] && [ "$(cat second)" != "$(cat root)" ] || wrong 'homes have one key'
    rm -r homes/home-002
    "$tools/hail-homes" -l homes 2 4 1 1 0 1 1 0 base-0 base-1 base-2 base-3 <root >out 2>err || wrong "homes are not linked: $(cat out err)"
    [ "$(cat out)" = "$PWD/homes/home-002: linked" ] && [ ! -e homes/home-002/journal ] || wrong "of links is told $(cat out)"
    "$tools/hail-rebuild" homes/home-002 4 1 1 0 1 1 0 <second >out 2>err || wrong "a home is not rebuilt: $(cat out err)"
    count=3 makes 0 4 1 1 0 1 1 0 base-0 base-1 base-2 base-3
    [ "$(cat out)" = "$PWD/homes/home-003: ready" ] || wrong "of one more home is told $(cat out)"
    rm homes/home-003/journal homes/home-003/provider-2 && rmdir base-3/home-003
    count=3 makes 3 4 1 1 0 1 1 0 base-0 base-1 base-2 base-3
    homes_wrong
}

# hail-homes with these words.
makes() {
    local wanted=$1 status
    shift
    "$tools/hail-homes" homes "${count-2}" "$@" <"${key:-root}" >out 2>err
    status=$?
    [ "$status" -eq "$wanted" ] || wrong "hail-homes $* ends with $status, not $wanted: $(cat out err)"
}

homes_wrong() {
    rm homes/home-003/provider-3
    count=3 makes 0 4 1 1 0 1 1 0 base-0 base-1 base-2 base-3
    make_key >other
    key=other makes 3 4 1 1 0 1 1 0 base-0 base-1 base-2 base-3
    told 'home-001 is of another key, or has other numbers'
    makes 3 4 1 1 1 1 1 0 base-0 base-1 base-2 base-3
    mkdir base-1/home-004 && : >base-1/home-004/1-0
    count=4 makes 3 4 1 1 0 1 1 0 base-0 base-1 base-2 base-3
    told 'base-1/home-004 is there already, and not empty'
    count=0 makes 2 4 1 1 0 1 1 0 base-0 base-1 base-2 base-3
    echo x >other && key=other makes 2 4 1 1 0 1 1 0 base-0 base-1 base-2 base-3
    ends 2 hail-homes -k 0
    ends 2 hail-homes
}

# Files move to another shape, each compared before the old one goes.
moving() {
    new_home old 4 1 1 0 1 1 0
    new_home new 6 3 1 1 1 1 0
    for name in a b c d; do seq 1 "$((RANDOM % 100 + 1))" | tee "$name" | "$HAIL" old put "$name" >out; done
    ends 0 hail-keep -n old
    rm -r old/provider-0
    cp -a old before
    ends 0 hail-move -k old new
    [ "$("$HAIL" old list | wc -l) $("$HAIL" new list | wc -l) $(head -n 1 out)" = "5 4 copied a $(stat -c %s a)" ] || wrong "a copy tells $(cat out)"
    "$HAIL" new drop c >out
    echo other | "$HAIL" new put d >out
    ends 1 hail-move old new
    told "d is another in $PWD/new: it stays in both"
    [ "$("$HAIL" old list | cut -d ' ' -f 1 | tr '\n' ' ')" = 'd hail-names ' ] || wrong "behind a move OLD lists $("$HAIL" old list)"
    for name in a b c; do "$HAIL" new get $name | cmp -s - $name || wrong "$name came over as another"; done
    moving_harmed
    moving_refused
}

# A kill at each call of hail: each file is whole in one of the homes, and the next move ends it. A provider of NEW that refuses; a lost file.
moving_harmed() {
    local call
    new_home empty 6 3 1 1 1 1 0
    cp -a before two && "$HAIL" two drop c >out && "$HAIL" two drop d >out
    for call in 1 2 3 4 6 7 8; do
        rm -rf old new calls && cp -a two old && cp -a empty new
        spy "[ \$(wc -l <$PWD/calls) -ne $call ] || kill -KILL \$PPID"
        spied hail-move old new
        for name in a b; do { "$HAIL" new get $name 2>err || "$HAIL" old get $name; } | cmp -s - $name || wrong "kill $call loses $name"; done
        ends 0 hail-move old new
        for name in a b; do "$HAIL" new get $name | cmp -s - $name || wrong "$name is another behind kill $call"; done
    done
    rm -rf tmp/* old new && cp -a before old && cp -a empty new
    rm old/provider-1/2-* && rm -rf new/provider-5 && : >new/provider-5
    ends 1 hail-move old new
    told "a can't be put into $PWD/new: hail: provider fault 5"
    [ "$("$HAIL" old list | wc -l)" -eq 5 ] || wrong 'a move that is stuck drops files'
    rm new/provider-5
    ends 1 hail-move old new
    told "b does not come back from $PWD/old: hail: lost row 0"
    [ "$("$HAIL" old list | cut -d ' ' -f 1 | tr '\n' ' ')" = 'b hail-names ' ] || wrong "beside a lost file OLD lists $("$HAIL" old list)"
}

moving_refused() {
    ends 2 hail-move old old
    ends 2 hail-move old nowhere
    ends 2 hail-move -p 5 old new
    cp -a old twin && ends 3 hail-move old twin
    told 'both homes have one key'
    new_home inner 4 1 1 0 1 1 0
    rm -rf inner/provider-2 && ln -s "$PWD/old/provider-2" inner/provider-2
    ends 3 hail-move old inner
    told "old/provider-2 leads to $PWD/inner/provider-2, or into it"
    new_home full 4 1 1 0 1 1 0
    mkdir place && echo "$PWD/gone" >full/copies
    rm -rf old && cp -a before old
    ends 1 hail-move old full
    told 'is away'
    [ "$("$HAIL" old list | wc -l)" -eq 5 ] || wrong 'a file was dropped, and no place had the journal'
}

all='rebuilding by_name from_paper rebuilding_damaged rebuilding_two refusing leaving_out rebuilding_harmed stacked
    planning keeping not_copied by_itself listing standing homes moving'
run_all ${*:-$all}
exit $failed
