#!/bin/bash
# Tests that the companions do the same over folders, over stacks, and over a home with both; test.sh calls all but the two longest. One home is
# made three times, with the same key and so the same blocks, damaged alike, and what each command says and leaves is compared. It tells what goes
# otherwise, and ends with 0 exactly where nothing does. HAIL names the program, TOOLS the folder of the companions.
set -u

called=forms
. "$(dirname "$0")/test-lib.sh"
without_launcher
cd "$scratch" || exit 1
forms='plain stacks mixed'

# block WORD HOME PLACE NUMBER STRIPE: what is done to a block, of either form: `lose`, `spoil` (each byte is another), `few` (its first symbol is
# another), `add` (there is one, of 16 bytes a symbol). block all HOME: a line for each block that is there.
cat >block <<'PYTHON'
import hashlib, os, struct, sys

def slot(home, place, number, stripe):
    """The file of a block, and where its bytes begin and how many there are."""
    folder = f"{home}/provider-{place}"
    if not os.path.lexists(f"{home}/stack-{place}"):
        path = f"{folder}/{number}-{stripe}"
        return path, 0, os.path.getsize(path) if os.path.exists(path) else 256
    path, size = f"{folder}/{number}", 256
    if os.path.exists(path):
        with open(path, "rb") as file:
            magic, size = struct.unpack("<8sQ", file.read(16))
            assert magic == b"HAILstk1"
    return path, 16 + stripe * (size + 8), size

def change(word, home, place, number, stripe):
    path, at, size = slot(home, place, number, stripe)
    stacked = at > 0
    if word == "lose" and not stacked:
        return os.unlink(path)
    with open(path, "r+b" if os.path.exists(path) else "w+b") as file:
        file.seek(at)
        old = file.read(size)
        many = {"spoil": size, "few": 16, "add": 0, "lose": 0}[word]
        block = bytes(255 - byte for byte in old[:many]) + old[many:]
        if word == "add":
            block = bytes(size)
            file.seek(0)
            file.write(b"HAILstk1" + struct.pack("<Q", size) if stacked else b"")
        file.seek(at)
        file.write(block)
        if stacked:
            file.write(bytes(8) if word == "lose" else b"hail" + struct.pack("<I", stripe))

def blocks(home, place):
    """Each block at a provider."""
    folder = f"{home}/provider-{place}"
    stacked = os.path.lexists(f"{home}/stack-{place}")
    for name in os.listdir(folder) if os.path.isdir(folder) else []:
        if not os.path.isfile(f"{folder}/{name}") or name.isdigit() != stacked:
            continue
        with open(f"{folder}/{name}", "rb") as file:
            data = file.read()
        if not stacked:
            yield (*map(int, name.split("-")), data)
            continue
        (size,) = struct.unpack("<Q", data[8:16])
        for stripe in range((len(data) - 16) // (size + 8)):
            at = 16 + stripe * (size + 8)
            if data[at + size : at + size + 8] == b"hail" + struct.pack("<I", stripe):
                yield int(name), stripe, data[at : at + size]

if sys.argv[1] == "all":
    for place in range(6):
        for number, stripe, data in sorted(blocks(sys.argv[2], place)):
            print(place, number, stripe, len(data), hashlib.sha256(data).hexdigest()[:16])
else:
    change(sys.argv[1], sys.argv[2], *map(int, sys.argv[3:6]))
PYTHON

block() { python3 -B "$scratch/block" "$@"; }

# Does this to the block in each home.
each_block() {
    local form
    for form in $forms; do block "$1" "$form/home" "${@:2}" || wrong "block $* fails"; done
}

# Does this in the folder of each home.
each() {
    local form
    for form in $forms; do (cd "$form" && eval "$1") >out 2>&1 || wrong "$form: $1: $(cat out)"; done
}

# What is told without what the forms differ in: gc names the file of an object; numbers from the clock.
bare() {
    sed -E 's/^(provider-[0-9]+\/[0-9]+)-[0-9]+$/\1/; s/[0-9]{15,}/CLOCK/g; s/\bstacked\b/folder /' "$1" | uniq
}

# A companion, or the program by the word hail, ends with this status over each home, and tells the same.
alike() {
    local wanted=$1 form command=$2
    shift 2
    [ "$command" = hail ] && command=$HAIL || command=$tools/$command
    for form in $forms; do
        (cd "$form" && "$command" "$@" <"${source:-/dev/null}" >../out 2>../err)
        [ $? -eq "$wanted" ] || wrong "$form: $command $* ends otherwise than with $wanted: $(cat out err)"
        bare out >"told.$form"
        bare err >>"told.$form"
        cmp -s told.plain "told.$form" || wrong "$form: $command $* tells $(cat "told.$form"), and over folders $(cat told.plain)"
    done
}

# The homes have the same blocks; with a word, those that `keep` noted under it.
same_blocks() {
    local form
    for form in $forms; do
        block all "$form/home" >"blocks.$form"
        cmp -s blocks.plain "blocks.$form" || wrong "${FUNCNAME[1]}: $form has other blocks: $(diff blocks.plain "blocks.$form" | head -n 3)"
    done
    [ $# -eq 0 ] || cmp -s "blocks.$1" blocks.plain || wrong "${FUNCNAME[1]}: the blocks are other ones: $(diff "blocks.$1" blocks.plain | head -n 3)"
}
keep() { block all plain/home >"blocks.$1"; }

# One home three times: files of 4, 2, 0 and 3 stripes, numbers 1 to 4.
new_homes() {
    local form place
    rm -rf plain stacks mixed
    mkdir plain
    head -c 32 /dev/urandom | od -An -v -tx1 | tr -d ' \n' >key
    "$tools/hail-init" -f plain/home 6 3 1 1 4 8 0 <key >out || wrong "no home: $(cat out)"
    seq 1 400 | "$HAIL" plain/home put notes >out
    seq 1 200 | "$HAIL" plain/home put other >out
    "$HAIL" plain/home put empty </dev/null >out
    seq 1 300 | "$HAIL" plain/home put third >out
    for form in stacks mixed; do
        cp -a plain "$form"
        for place in 0 1 2 3 4 5; do
            [ "$form" = mixed ] && [ $((place % 2)) -eq 0 ] || "$tools/hail-stack" "$form/home" $place || wrong "$place is not turned"
        done
    done
    keep whole
}

gets() {
    alike 0 hail home get notes
    alike 0 hail home get other
    alike 0 hail home get third
}

whole() {
    new_homes
    same_blocks whole
    gets
    alike 0 hail-watch home
    alike 0 hail-verify -v home
    alike 0 hail-gc home
    alike 0 hail-salvage home 3
    alike 0 hail-salvage home 3 1
    alike 0 hail home scrub
    alike 0 hail home list
    same_blocks whole
}

lost_blocks() {
    new_homes
    each_block lose 2 1 0
    each_block lose 2 1 3
    each_block lose 4 2 1
    alike 1 hail-verify home
    alike 1 hail-salvage home 3 1
    gets
    each_block lose 2 4 0
    each_block lose 2 4 1
    alike 0 hail home scrub
    alike 0 hail-verify home
    same_blocks whole
    each 'rm -r home/provider-5'
    alike 1 hail-watch home
    alike 1 hail-watch home
    alike 0 hail home repair
    alike 0 hail-watch home
    same_blocks whole
}

altered_blocks() {
    new_homes
    each_block spoil 2 1 0
    each_block few 3 1 0
    each_block spoil 4 4 2
    alike 1 hail-verify home
    gets
    alike 0 hail home scrub
    same_blocks whole
    for stripe in 0 1 2 3; do each_block spoil 1 1 $stripe; done
    alike 1 hail-watch home
    alike 0 hail home repair
    alike 0 hail-verify home
    same_blocks whole
    each_block spoil 0 1 2
    each_block spoil 5 1 2
    alike 4 hail home get notes
    alike 1 hail-verify home
    alike 4 hail home scrub
}

# A put fails at this provider: a file stands in the place of its folder.
put_fails() {
    each "mv home/provider-$1 away && : >home/provider-$1"
    source=$scratch/bytes alike 13 hail home put "$2"
    each "rm home/provider-$1 && mv away home/provider-$1"
}

left_behind() {
    new_homes
    head -c 600 /dev/urandom >bytes
    put_fails 3 fourth
    put_fails 5 fifth
    each_block add 2 999 0
    alike 0 hail-gc home
    alike 0 hail-gc home remove
    same_blocks
    alike 1 hail-watch home
    alike 0 hail-gc home remove 6
    each_block lose 2 999 0
    alike 0 hail home drop third
    alike 0 hail-gc home
    same_blocks
}

# A file of a stack that has no block goes, unless it is that of a file in effect or of a number not given yet.
no_block_at_all() {
    local number
    new_homes
    seq 9 | "$HAIL" stacks/home put later >out && "$HAIL" stacks/home drop later >out
    for number in 1 5 77; do head -c 16 plain/home/../../stacks/home/provider-1/2 >"stacks/home/provider-3/$number"; done
    [ "$("$tools/hail-gc" stacks/home 2>err)" = provider-3/5 ] || wrong "of files without a block hail-gc lists $("$tools/hail-gc" stacks/home)"
}

other_journals() {
    new_homes
    each 'cp home/journal copy && sha256sum copy >copy.sum'
    each 'seq 1 500 | "$HAIL" home put fifth && "$HAIL" home drop other && seq 1 90 | "$HAIL" home put third'
    each 'mv home/journal later'
    alike 3 hail-watch home
    alike 3 hail-init home 6 3 1 1 4 8 0
    alike 5 hail-restore home copy 0
    alike 1 hail-restore home copy 5
    alike 1 hail-verify home
    alike 0 hail-gc home
    each 'mv later home/journal'
    alike 0 hail-verify home
    each 'cp copy home/journal'
    alike 3 hail-watch home
    alike 3 hail-gc home remove
    each 'rm home/journal'
    source=$scratch/key alike 0 hail-rebuild home 6 3 1 1
    alike 0 hail home get n1
    alike 0 hail home get n5
    alike 0 hail-verify home
    same_blocks
}

# Files are moved from a home of each form to stacks, and from there to folders.
moving() {
    local form
    new_homes
    for form in $forms; do
        new_place -s "$form/new"
        new_place -f "$form/newer"
        tells 0 'copied notes 1492' hail-move -k "$form/home" "$form/new"
        tells 0 'moved notes 1492' hail-move "$form/new" "$form/newer"
        "$HAIL" "$form/newer" get notes | cmp -s - <(seq 1 400) || wrong "$form: what was moved does not come back"
        [ -f "$form/newer/provider-0/2-0" ] && [ -z "$(find "$form"/new/provider-? -type f)" ] || wrong "$form: moving leaves $(ls "$form"/new*/provider-0)"
    done
}
new_place() {
    head -c 32 /dev/urandom | od -An -v -tx1 | tr -d ' \n' | "$tools/hail-init" "$1" "$2" 5 2 1 1 4 8 0 >out || wrong "no home: $(cat out)"
}

# A home that was made anew without its marks, or with too many: each companion tells it before it takes blocks for lost.
misread() {
    new_homes
    cp stacks/home/journal copy && sha256sum copy >copy.sum
    rm stacks/home/stack-2
    tells 1 'provider 2 has a file for each object, and is taken for a folder of blocks: make an empty file stacks/home/stack-2' hail-watch stacks/home
    tells 0 'provider 2 has a file for each object' hail-gc stacks/home
    tells 1 'provider 2 has a file for each object' hail-verify stacks/home
    tells 0 'provider 2 has a file for each object' hail-salvage stacks/home 3
    mv stacks/home/journal journal
    tells 3 "stacks/home/stack-2" hail-watch stacks/home
    tells 3 'provider 2 has a file for each object' hail-restore stacks/home copy 5
    source=key tells 1 'provider 2 has the other form' hail-rebuild stacks/home 6 3 1 1
    rm stacks/home/stack-?
    tells 3 'provider 5 holds blocks, and there is no journal' hail-watch stacks/home
    tells 3 'blocks are held by provider-0 provider-1' hail-init stacks/home 6 3 1 1 4 8 0
    for place in 0 1 2 3 4 5; do : >"stacks/home/stack-$place"; done
    mv journal stacks/home/journal
    tells 0 '' hail-watch stacks/home
    : >plain/home/stack-4
    tells 1 'provider 4 has a file for each block, and is taken for a stack: remove plain/home/stack-4' hail-watch plain/home
    tells 1 'no audit, the 2. time in a row' hail-watch plain/home
    tells 1 'no audit, the 3. time in a row' hail-watch plain/home
    tells 1 'provider 4 is flagged' hail-watch plain/home # nobody keeps audits away for ever so
}

# A companion ends with this status, and tells this.
tells() {
    local wanted=$1 text=$2
    shift 2
    "$tools/$1" "${@:2}" <"${source:-/dev/null}" >out 2>err
    [ $? -eq "$wanted" ] || wrong "$* ends otherwise than with $wanted: $(cat out err)"
    grep -qF -- "$text" out err || [ -z "$text" ] || wrong "$* tells $(cat out err), not $text"
}

# Several homes over the same providers: stacks, or with -f folders; where they were lost their links and marks come back.
several() {
    local form folder
    for form in '' -f; do
        rm -rf base homes && mkdir base
        for folder in 0 1 2 3 4 5; do mkdir base/$folder; done
        head -c 32 /dev/urandom | od -An -v -tx1 | tr -d ' \n' >key
        source=key tells 0 'home-002: ready' hail-homes $form homes 2 6 3 1 1 4 8 0 base/{0..5}
        seq 1 400 | "$HAIL" homes/home-002 put notes >out
        [ -e "base/3/home-002/1${form:+-0}" ] || wrong "hail-homes $form makes $(ls base/3/home-002)"
        rm -r homes
        source=key tells 0 'home-002: linked' hail-homes -l homes 2 6 3 1 1 4 8 0 base/{0..5}
        "$tools/hail-homes" -k 2 <key >own
        source=own tells 0 'rebuilt: 1 files' hail-rebuild homes/home-002 6 3 1 1
        "$HAIL" homes/home-002 get n1 | head -c 1492 | cmp -s - <(seq 1 400) || wrong "hail-homes $form: the file does not come back"
    done
}

# hail-init makes stacks, and folders where it is told so.
first_form() {
    local form
    for form in '' -s -f; do
        rm -rf new
        head -c 32 /dev/urandom | od -An -v -tx1 | tr -d ' \n' | "$tools/hail-init" $form new 6 3 1 1 4 8 0 >out || wrong "hail-init $form: $(cat out)"
        seq 1 400 | "$HAIL" new put notes >out
        [ "$(find new -name 'stack-*' | wc -l) $(find new/provider-? -type f | wc -l)" = "$([ "$form" = -f ] && echo 0 24 || echo 6 6)" ] || wrong "hail-init $form makes $(ls new new/provider-0)"
    done
}

for test in ${*:-first_form whole lost_blocks altered_blocks left_behind no_block_at_all other_journals moving misread several}; do "$test"; done
exit $failed
