#!/bin/bash
# Refuses one allocation a run, over a real home, of whose providers every other is a stack: memory.sh [RUNS]
# It goes through init, put, get, audit, repair, list, scrub, upgrade, a put at a profile and two packs, and refuses of each command the first allocation,
# then the second and so on, at most RUNS of them, spread over all that the command makes. Such a run must end with 70, with a counted fault
# of a device where an allocation of a call without an answer for want of memory was refused, or as it would have ended; where its very
# words found none it may tell them as no command. Then the same command, over the home that the run left, must end well, or as where its
# work was done, and the file must come back byte for byte.
# At last a put of 4 MiB must take no more memory than an init and 1 MiB.
# It prints 'N runs, W wrong', ends with 0 exactly where W is 0, and leaves nothing behind. Without a C compiler it tries nothing.
set -u

runs=${1:-40}
root=$(CDPATH='' cd -P -- "$(dirname "$0")/.." && pwd -P)
program=${HAIL:-$root/out/hail}
command -v cc >/dev/null 2>&1 || { echo 'memory: there is no C compiler, and nothing is tried'; exit 0; }
"${HAIL:-$root/hail}" - list >/dev/null 2>&1 </dev/null
[ -x "$program" ] || { echo 'memory: there is no program' >&2; exit 1; }
scratch=$(mktemp -d) || exit 1
trap 'rm -rf "$scratch"' EXIT
cd "$scratch" || exit 1

# The allocation whose number is in REFUSED is refused, and how many there were goes to the file that ALLOCATIONS names; how many kB of
# memory the process had at most to that which PEAK names.
cat >refuse.c <<'END'
#include <fcntl.h>
#include <stdio.h>
#include <stdlib.h>
#include <sys/resource.h>
#include <unistd.h>

static long made, refused = -1;

static int is_refused(void)
{
    if (refused < 0) {
        const char *number = getenv("REFUSED");
        refused = number ? atol(number) : 0;
    }
    return ++made == refused;
}

void *malloc(size_t size)
{
    extern void *__libc_malloc(size_t);
    return is_refused() ? NULL : __libc_malloc(size);
}

void *realloc(void *block, size_t size)
{
    extern void *__libc_realloc(void *, size_t);
    return is_refused() ? NULL : __libc_realloc(block, size);
}

static void put_down(const char *variable, long number)
{
    char text[32];
    const char *name = getenv(variable);
    int file = name ? open(name, O_WRONLY | O_CREAT | O_TRUNC, 0600) : -1;
    if (file < 0)
        return;
    int length = snprintf(text, sizeof text, "%ld\n", number);
    if (write(file, text, length) != length)
        _exit(99);
    close(file);
}

__attribute__((destructor)) static void tell(void)
{
    struct rusage used;
    put_down("ALLOCATIONS", made);
    if (getrusage(RUSAGE_SELF, &used) == 0)
        put_down("PEAK", used.ru_maxrss);
}
END
cc -shared -fPIC -O1 -o refuse.so refuse.c || { echo 'memory: the C compiler fails, and nothing is tried'; exit 0; }

tried=0 wrong=0
seq 1 500 | head -c 1000 >text
echo 000102030405060708090a0b0c0d0e0f101112131415161718191a1b1c1d1e1f >key

note_wrong() {
    echo "memory: $1" >&2
    wrong=$((wrong + 1))
}

# Runs a command over the home with one allocation refused, none where its number is 0; its bytes are in `out`.
run() {
    local number=$1
    shift
    LD_PRELOAD=$scratch/refuse.so REFUSED=$number ALLOCATIONS=$scratch/made "$program" home "$@" <"$source" >out 2>err
}

# How a command whose work was done before ends.
when_done() {
    case $1 in
        init) echo 10 ;;
        audit) echo 6 ;;
        repair) echo 7 ;;
        upgrade) echo 24 ;;
        *) echo 0 ;;
    esac
}

# The file is there as it was put.
comes_back() {
    source=/dev/null
    run 0 get a && cmp -s out text
}

# One run of a command over a copy of the home with this allocation refused, and the same command after it.
try_one() {
    local number=$1 input=$source
    shift
    rm -rf home
    cp -a before home
    run "$number" "$@"
    local status=$?
    tried=$((tried + 1))
    case $1/$status in
        */0 | */12 | */13 | */14 | */15 | */70) ;;
        */2) [ "$number" -le $(($# + 8)) ] || note_wrong "$* ends with $status where the allocation $number is refused" ;;    # the words found none
        repair/4 | scrub/4) ;;    # the blocks of a second provider could not be fetched
        *) note_wrong "$* ends with $status where the allocation $number is refused" ;;
    esac
    [ "$status" -ne 0 ] || [ "$1" != get ] || cmp -s out text || note_wrong "get gives other bytes where the allocation $number is refused"
    source=$input
    run 0 "$@"
    status=$?
    [ "$status" -eq 0 ] || [ "$status" -eq "$(when_done "$1")" ] || note_wrong "$* then ends with $status, after $number"
    [ "$1" = init ] || comes_back || note_wrong "the file does not come back after $* where the allocation $number was refused"
    source=$input
}

# A command of the home: each of its allocations refused in turn, or a sample of them, and then the command itself.
goes_on() {
    rm -rf before
    cp -a home before
    local input=$source
    run 0 "$@" || note_wrong "$* ends with $?"
    local all step number
    all=$(cat made)
    rm -rf after
    cp -a home after
    step=$(((all + runs - 1) / runs))
    for ((number = 1; number <= all; number += step)); do
        source=$input
        try_one "$number" "$@"
    done
    rm -rf home
    cp -a after home
    echo "$*: $all allocations, of which every ${step}. was refused"
}

mkdir home
touch home/stack-{0,2}
source=key && goes_on init 4 1 1 0 1 1 0
source=text && goes_on put a
source=/dev/null
goes_on get a
rm -r home/provider-2
goes_on audit
goes_on repair
goes_on get a
goes_on list
rm home/provider-0/1
goes_on scrub
goes_on upgrade
source=text && goes_on put a 2
source=/dev/null
goes_on pack
goes_on pack

# Runs a command over the large home; the file `peak` has how much memory it had at most, in kB.
measure() {
    LD_PRELOAD=$scratch/refuse.so PEAK=$scratch/peak "$program" large "$@" <"$source" >out 2>err || note_wrong "$* ends with $?"
}

# A put has one stripe in memory: a file of 4 MiB takes at most 1 MiB more than an init.
head -c 4194304 /dev/urandom >long
mkdir large
source=key && measure init 6 3 1 4 8 16 0 && least=$(cat peak)
source=long && measure put long && most=$(cat peak)
source=/dev/null && measure get long
cmp -s out long || note_wrong 'the long file does not come back'
echo "an init takes ${least} kB, a put of 4 MiB ${most}, a get of it $(cat peak)"
[ "$most" -le $((least + 1024)) ] || note_wrong "a put of 4 MiB takes ${most} kB, an init ${least}"

echo "$tried runs, $wrong wrong"
[ "$wrong" -eq 0 ]
