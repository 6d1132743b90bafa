#!/bin/sh
# A tour: three files are stored over six folders; one folder is lost, the loss is found and mended; it is lost again and another is
# altered, and the files come back; another folder lies, and is found and mended too; a file gets a profile of its own. It shows each command
# with its answer, ends with 0 exactly where each answer was the one due, and leaves nothing behind. docs/tour.txt is a recording of it. HAIL
# names another program than the one of this repository.
set -eu

root=$(CDPATH='' cd -P -- "$(dirname "$0")/.." && pwd -P)
hail=${HAIL:-$root/hail}
scratch=$(mktemp -d)
trap 'rm -rf "$scratch"' EXIT
cd "$scratch"

fail() {
    echo "tour: $1" >&2
    exit 1
}

# The command ends with this status and writes this text: FILE is its source, WORDS are its words.
answers() {
    wanted=$1 text=$2 file=$3
    shift 3
    echo "$ hail home $*$([ "$file" = /dev/null ] || echo " < $file")"
    status=0
    "$hail" home "$@" <"$file" >out 2>err || status=$?
    cat out err
    [ "$status" -eq "$wanted" ] || fail "it ends with $status, not $wanted"
    [ "$(cat out err)" = "$text" ] || fail "the answer due was: $text"
}

# The file of this name comes back as it was stored.
comes_back() {
    echo "$ hail home get $1 > back"
    "$hail" home get "$1" </dev/null >back || fail "$1 is not given"
    cmp "$1" back || fail "$1 came back otherwise"
}

# Changes the first byte of four symbols of a block.
alter() {
    for place in 0 1 2 3; do
        printf '\377' | dd of="$1" bs=1 seek=$((16 * place + 5)) conv=notrunc 2>/dev/null
    done
}

# The audit of this number ends so; the provider after it is flagged with this count, or nobody where it is left out.
audits() {
    text="audit $1 undecided 0"
    for place in 0 1 2 3 4 5; do
        if [ "$place" = "${2:-none}" ]; then
            text="$text
provider $place count $3 flagged"
        else
            text="$text
provider $place count 0 ok"
        fi
    done
    answers 0 "$text" /dev/null audit
}

echo '# A store over six providers: three hold the file, three hold parity, and one of the six may be wrong.'
mkdir home
head -c 32 /dev/urandom | od -An -v -tx1 | tr -d ' \n' >key
answers 0 ready key init 6 3 1 4 16 64 0

echo '# Three files: an empty one, a text, and 1 MiB.'
: >empty
seq 1 40 >notes.txt
seq 1 200000 | head -c 1048576 >numbers
answers 0 'stored empty 0' empty put empty
answers 0 'stored notes.txt 111' notes.txt put notes.txt
answers 0 'stored numbers 1048576' numbers put numbers
answers 0 'empty 0
notes.txt 111
numbers 1048576' /dev/null list

echo '# The folder of provider 2 is lost. Everything comes back.'
cp -r home/provider-2 kept
rm -r home/provider-2
comes_back empty
comes_back notes.txt
comes_back numbers

echo '# An audit asks each provider for one symbol a round and file, and finds the loss. Until it is mended no other audit begins.'
audits 1 2 32
answers 6 'hail: repair due' /dev/null audit
answers 0 'repaired 1' /dev/null repair
diff -r kept home/provider-2 || fail 'the blocks of provider 2 are other ones'
audits 2

echo '# Provider 2 is lost again, and a block of provider 5 is altered in four places: it bears sixteen. Everything comes back.'
mv home/provider-2 kept-2
cp home/provider-5/3-0 before
alter home/provider-5/3-0
! cmp -s before home/provider-5/3-0 || fail 'nothing was altered'
comes_back empty
comes_back notes.txt
comes_back numbers
mv before home/provider-5/3-0
mv kept-2 home/provider-2

echo '# Both are as before. Provider 4 lies: it gives the blocks of provider 3 for its own. The file comes back, and the audit finds who lies.'
cp -r home/provider-4 kept-4
for block in home/provider-3/*; do cp "$block" home/provider-4/; done
comes_back numbers
audits 3 4 32
answers 0 'repaired 3' /dev/null repair
diff -r kept-4 home/provider-4 || fail 'the blocks of provider 4 are other ones'

echo '# A file is dropped; what is left of it on the providers goes too.'
answers 0 'dropped notes.txt' /dev/null drop notes.txt
[ -z "$(find home -name '2-*')" ] || fail 'a block of the dropped file is left'
answers 3 'hail: no such name' /dev/null get notes.txt
answers 0 'empty 0
numbers 1048576' /dev/null list

echo '# With two folders lost, nothing is given that could be wrong. An audit can not tell who lost what, and says undecided.'
cp -r home/provider-0 kept-0
rm -r home/provider-0 home/provider-1
answers 4 'hail: lost row 0' /dev/null get numbers
answers 0 'audit 4 undecided 16
provider 0 count 0 ok
provider 1 count 0 ok
provider 2 count 0 ok
provider 3 count 0 ok
provider 4 count 0 ok
provider 5 count 0 ok' /dev/null audit

echo '# One of the two comes back, and the store is made whole.'
mv kept-0 home/provider-0
comes_back numbers
audits 5 1 16
answers 0 'repaired 5' /dev/null repair
comes_back numbers
audits 6

echo '# The journal gets its second version. From then on a file may have a profile of its own; those stored before keep theirs.'
answers 0 upgraded /dev/null upgrade
answers 0 'stored notes.txt 111' notes.txt put notes.txt 2
[ "$(stat -c %s home/provider-5/4-0)" -eq 512 ] || fail 'the file has blocks of another profile'
comes_back notes.txt
comes_back numbers
audits 7
echo '# The tour is done.'
