#!/bin/bash
# Tests of hail-stack and of homes with stacks, called by test.sh: each answer that goes otherwise is told, and it ends with 0 exactly where
# none does. HAIL names the program, TOOLS the folder of the companions.
set -u

called=stacks
. "$(dirname "$0")/test-lib.sh"
without_launcher
cd "$scratch" || exit 1

# A command ends with this status.
ends() {
    local wanted=$1
    shift
    "$@" >out 2>err </dev/null
    local status=$?
    [ "$status" -eq "$wanted" ] || wrong "$* ends with $status, not $wanted: $(cat out err)"
}

told() {
    grep -qF -- "$1" out err || wrong "$1 is not told, but $(cat out err)"
}

# A home of plain folders with three files: one of several stripes, one of one, and an empty one. A word is the last line of the long one.
new_home() {
    seq 1 "${1:-4000}" >long
    seq 1 20 >short
    rm -rf home
    mkdir home
    make_key | "$HAIL" home init 6 3 1 1 4 8 0 >out || wrong "init: $(cat out)"
    "$HAIL" home put long <long >out && "$HAIL" home put short <short >out && "$HAIL" home put none </dev/null >out || wrong "put: $(cat out)"
}

# The files come back, an audit flags nobody, and a scrub finds nothing.
is_whole() {
    local name
    for name in long short; do
        "$HAIL" home get "$name" 2>err | cmp -s - "$name" || wrong "$1: $name does not come back: $(cat err)"
    done
    ends 0 "$HAIL" home audit
    ! grep -q flagged out || wrong "$1: $(cat out)"
    ends 0 "$HAIL" home scrub
    ! grep -qE 'symbols [1-9]|blocks [1-9]' out || wrong "$1: $(cat out)"
}

# What a folder has in it, with its bytes.
contents() {
    (cd "home/provider-$1" && find . -type f -printf '%P\n' | sort | xargs -r sha256sum)
}

# Each provider is turned and turned back: the blocks are as they were, and all is well in between.
turns() {
    new_home
    local place
    for place in 0 3 5; do contents $place >"before-$place"; done
    for place in 0 3 5; do ends 0 "$tools/hail-stack" home $place; done
    [ "$(ls home/provider-3)" = $'1\n2' ] || [ "$(ls home/provider-3)" = $'1\n2\n3' ] || wrong "a stack has $(ls home/provider-3)"
    [ "$(stat -c '%a %s' home/stack-3)" = '600 0' ] || wrong "stack-3 is $(stat -c '%a %s' home/stack-3)"
    is_whole 'three stacks'
    ends 0 "$tools/hail-stack" home 3
    "$HAIL" home put more <short >out || wrong "a put into stacks: $(cat out)"
    [ -f home/provider-3/4 ] && [ -f home/provider-2/4-0 ] || wrong 'a put goes into the wrong form'
    "$HAIL" home drop more >out || wrong "a drop: $(cat out)"
    [ ! -e home/provider-3/4 ] || wrong 'a drop leaves a file in a stack'
    for place in 0 3 5; do ends 0 "$tools/hail-stack" home $place back; done
    for place in 0 3 5; do contents $place | cmp -s - "before-$place" || wrong "provider $place comes back otherwise"; done
    is_whole 'turned back'
}

# The bytes of the file, by another program: the blocks of a plain folder, each with its mark, behind the header.
has_the_form() {
    new_home
    cp -r home/provider-1 plain
    ends 0 "$tools/hail-stack" home 1
    python3 - plain home/provider-1 >out 2>&1 <<'PYTHON' || wrong "the form: $(cat out)"
import os, struct, sys
plain, stack = sys.argv[1:]
blocks = {}
for name in os.listdir(plain):
    number, stripe = map(int, name.split("-"))
    blocks.setdefault(number, {})[stripe] = open(os.path.join(plain, name), "rb").read()
for number, of in blocks.items():
    size = len(of[0])
    wanted = b"HAILstk1" + struct.pack("<Q", size)
    for stripe in range(max(of) + 1):
        wanted += of[stripe] + b"hail" + struct.pack("<I", stripe) if stripe in of else bytes(size + 8)
    assert open(os.path.join(stack, str(number)), "rb").read() == wanted, number
assert sorted(os.listdir(stack)) == sorted(map(str, blocks))
PYTHON
    rm -r plain
    # what hail writes itself has the same bytes
    cp home/provider-1/1 turned
    rm home/provider-1/1
    ends 0 "$HAIL" home audit
    ends 0 "$HAIL" home repair
    cmp -s turned home/provider-1/1 || wrong 'hail writes a stack otherwise than hail-stack'
}

# A kill at any moment leaves one form whole and in effect, and another call ends the turn.
survives_kills() {
    local round back
    new_home
    for round in $(seq 1 24); do
        back=$([ -e home/stack-2 ] && echo back)
        { timeout -s KILL "0.$(printf %03d $((round * 13 % 200 + 20)))" "$tools/hail-stack" home 2 $back >out 2>err </dev/null; } 2>/dev/null
        "$HAIL" home get long 2>err | cmp -s - long || wrong "a kill costs a file: $(cat err)"
        ends 0 "$HAIL" home audit
        ! grep -q flagged out || wrong "a kill costs blocks: $(cat out)"
        back=$([ -e home/stack-2 ] || echo back)
        "$tools/hail-stack" home 2 $back >out 2>err </dev/null || [ $? -eq 1 ] || wrong "behind a kill: $(cat out err)"
        is_whole "behind kill $round"
        [ ! -e home/provider-2/hail-stack.new ] || wrong 'a half turn is left'
    done
}

# What is not in effect is never removed, and what can't be turned is left.
refuses() {
    new_home
    ends 2 "$tools/hail-stack"
    ends 2 "$tools/hail-stack" home
    ends 2 "$tools/hail-stack" home 16
    ends 2 "$tools/hail-stack" home 1 forth
    ends 2 "$tools/hail-stack" nowhere 1
    told 'no store in nowhere'
    ends 2 "$tools/hail-stack" home 9
    told 'no folder home/provider-9'
    mkdir home/remote-1
    ends 2 "$tools/hail-stack" home 1
    told 'provider 1 is remote'
    rmdir home/remote-1
    ln -s provider-1 home/provider-8
    ends 3 "$tools/hail-stack" home 1
    told 'providers 1 and 8 are one folder'
    rm home/provider-8
    head -c 16 /dev/zero >home/provider-1/1-1
    ends 3 "$tools/hail-stack" home 1
    told 'object 1 has blocks of'
    [ ! -e home/stack-1 ] && [ ! -e home/provider-1/hail-stack.new ] || wrong 'a refusal leaves something'
    head -c 17 /dev/zero >home/provider-1/1-1
    echo stale >home/provider-1/2
    ends 1 "$tools/hail-stack" home 1
    [ -f home/provider-1/hail-stack.aside/1-1 ] && [ "$(cat home/provider-1/hail-stack.aside/2)" = stale ] || wrong 'what differs is not put aside'
    ends 0 "$HAIL" home scrub
    is_whole 'a mended stack'
    printf x | dd of=home/provider-1/1 conv=notrunc 2>/dev/null
    ends 3 "$tools/hail-stack" home 1 back
    told 'does not say how long its blocks are'
    is_whole 'a stack whose header is damaged'
    cmp -s <(head -c 8 home/provider-1/1) <(printf xAILstk1) || wrong 'a reading changes a header'
}

# Links, pipes and folders in a file's place are no objects, and are not waited for or followed; a store puts a file there.
only_plain_files() {
    new_home
    ends 0 "$tools/hail-stack" home 4
    rm home/provider-4/1 && mkfifo home/provider-4/1
    mv home/provider-4/2 kept && ln -s ../../kept home/provider-4/2
    ends 0 timeout 20 "$HAIL" home audit
    told 'provider 4 count'
    ends 0 timeout 20 "$HAIL" home repair
    [ -f home/provider-4/1 ] && [ ! -L home/provider-4/2 ] || wrong 'a pipe or a link is left'
    is_whole 'behind pipes and links'
}

# Two numbers for one folder are found before anything is written; a get goes on.
finds_twins() {
    local command
    new_home
    rm -r home/provider-5 && ln -s provider-2 home/provider-5
    cp -r home before
    for command in put repair scrub; do
        ends 13 "$HAIL" home $command ${command/#[rs]*/}
        diff -r before home >/dev/null || wrong "$command writes where two providers have one folder"
    done
    ends 13 "$HAIL" home put new
    told 'provider fault 5'
    diff -r before home >/dev/null || wrong 'a put writes where two providers have one folder'
    "$HAIL" home get long | cmp -s - long || wrong 'a get stops where two providers have one folder'
    rm -rf before
}

# A stack that is said to be remote too is refused, and nothing is written there.
refuses_both() {
    new_home
    ends 0 "$tools/hail-stack" home 3
    mkdir home/remote-3
    contents 3 >before-3
    "$HAIL" home put new <short >out 2>err
    [ $? -eq 13 ] || wrong "a put to a refused provider: $(cat out err)"
    told 'provider fault 3'
    contents 3 | cmp -s - before-3 || wrong 'a refused provider is written to'
    "$HAIL" home get long | cmp -s - long || wrong 'a get stops at a refused provider'
    rmdir home/remote-3
}

# What stands in the place of a stack's file: a hole, a device, a socket, a file of blocks of another length, one that says nothing of its blocks. Each
# is a provider that has nothing of the object, and no command waits for it, reads it whole or fails by it; a repair puts the file there.
odd_files() {
    local odd
    new_home
    ends 0 "$tools/hail-stack" home 4
    for odd in 'truncate -s 1T' 'mkfifo' 'mkdir' 'ln -s nowhere' 'ln -s .' "cp $PWD/another" 'touch' 'head_of' 'socket_at' 'mknod_at'; do
        rm -r home/provider-4/1
        { printf 'HAILstk1\0\1\0\0\0\0\0\0' && head -c 5000 /dev/urandom; } >another
        $odd home/provider-4/1 || wrong "$odd can't be done"
        "$HAIL" home get long 2>err | cmp -s - long || wrong "$odd in a file's place: the file does not come back: $(cat err)"
        ends 0 timeout 600 "$HAIL" home audit
        told 'provider 4 count'
        grep -q 'provider 4 .* flagged' out || wrong "$odd in a file's place is not flagged"
        ends 0 timeout 600 "$HAIL" home repair
        is_whole "behind $odd in a file's place"
        ends 0 timeout 600 "$tools/hail-verify" home
        ends 0 timeout 600 "$tools/hail-status" home
    done
    mkdir home/provider-4/4 && : >home/provider-4/4/something
    "$HAIL" home put new <short >out 2>err
    [ $? -eq 13 ] || wrong "a put where no file can be made ends otherwise than with 13: $(cat out err)"
    told 'provider fault 4'
    [ -e home/provider-4/4/something ] || wrong 'a store removes what is no block'
}
head_of() { head -c 15 home/provider-4/2 >"$1"; }
socket_at() { python3 -c 'import socket, sys; socket.socket(socket.AF_UNIX).bind(sys.argv[1])' "$1"; }
mknod_at() { mknod "$1" c 1 5 2>/dev/null || mkfifo "$1"; }

# Every part of a stack's beginning altered: nothing else of the file is lost by it, unless it names another length of a block.
altered_headers() {
    local at
    new_home
    ends 0 "$tools/hail-stack" home 2
    cp home/provider-2/1 right
    for at in 0 7 8 9 10 15; do
        printf '\377' | dd of=home/provider-2/1 bs=1 seek=$at conv=notrunc status=none
        ends 0 "$HAIL" home audit
        ! grep -q flagged out || wrong "a beginning altered at $at costs blocks"
        printf '\377' | dd of=home/provider-2/1 bs=1 seek=$((16 + 2 * 264 + 256)) conv=notrunc status=none
        ends 0 "$HAIL" home scrub
        told 'provider 2 symbols 16 blocks 1'
        cmp -s right home/provider-2/1 || wrong "a scrub does not mend a beginning altered at $at"
    done
    printf '\1' | dd of=home/provider-2/1 bs=1 seek=9 conv=notrunc status=none
    printf '\140' | dd of=home/provider-2/1 bs=1 seek=8 conv=notrunc status=none
    ends 0 "$HAIL" home scrub
    cmp -s right home/provider-2/1 || wrong 'a scrub does not begin a file of another length anew'
}

# A file system that is full, or a file as long as it may be, in the midst of a stack's file: a fault of that provider. No file is lost, and with
# room again all goes on.
no_room() {
    local command
    new_home
    for command in 0 1 2 3 4 5; do ends 0 "$tools/hail-stack" home $command; done
    (trap '' XFSZ && ulimit -f 6 && "$HAIL" home put long <short >out 2>err) || wrong "a put that fits is refused: $(cat err)"
    "$HAIL" home put long <long >out
    seq 4001 9000 >longer
    (trap '' XFSZ && ulimit -f 6 && "$HAIL" home put longer <longer >out 2>err)
    [ $? -eq 13 ] || wrong "a put that does not fit ends otherwise than with 13: $(cat err)"
    is_whole 'a put that did not fit'
    rm home/provider-3/* && "$HAIL" home audit >out
    (trap '' XFSZ && ulimit -f 6 && "$HAIL" home repair >out 2>err)
    [ $? -eq 13 ] || wrong "a repair that does not fit ends otherwise than with 13: $(cat err)"
    "$HAIL" home get long | cmp -s - long || wrong 'a repair that does not fit costs a file'
    ends 0 "$HAIL" home repair
    is_whole 'a repair with room'
    full_disk
}

# The same on a small file system of its own, where one can be mounted.
full_disk() {
    local size
    mkdir -p small
    for size in 4k 8k 12k 16k; do
        mount -t tmpfs -o size=$size small small 2>/dev/null || { echo 'stacks: no small file system can be mounted, and none is tried' >&2; return; }
        rm -r home/provider-5 && ln -s ../small home/provider-5
        "$HAIL" home audit >out 2>err
        "$HAIL" home repair >out 2>err
        [ $? -eq 13 ] || wrong "a repair on a full disk of $size ends otherwise than with 13: $(cat err)"
        "$HAIL" home put more <long >out 2>err
        [ $? -eq 13 ] || wrong "a put on a full disk of $size ends otherwise than with 13: $(cat err)"
        told 'provider fault 5'
        "$HAIL" home get long | cmp -s - long || wrong 'a full disk costs a file'
        rm home/provider-5
        umount small
        "$HAIL" home repair >out 2>err || wrong "a repair behind a full disk: $(cat err)"
        is_whole "behind a full disk of $size"
    done
}

# Each call that writes, syncs or opens fails once: the command says so, nothing acknowledged is lost, and all goes on.
faults() {
    local call error at status old=one new=two swap tried=0
    command -v strace >/dev/null || { echo 'stacks: there is no strace, and no call is made to fail' >&2; return; }
    new_home
    for at in 0 1 2 3 4 5; do ends 0 "$tools/hail-stack" home $at; done
    seq 1 300 >one
    seq 1 250 >two
    "$HAIL" home put changing <one >out || wrong "put: $(cat out)"
    for call in fsync:EIO write:ENOSPC write:EIO openat:EMFILE openat:EROFS lseek:EIO unlink:EROFS; do
        error=${call#*:} call=${call%:*}
        for ((at = 1; at < 200; at += 1 + at / 12)); do
            strace -f -qq -o trace -e trace=$call -e "inject=$call:error=$error:when=$at" "$HAIL" home put changing <$new >out 2>err
            status=$?
            grep -q INJECTED trace || break
            tried=$((tried + 1))
            after_fault "$call $at with $error" $status
        done
    done
    [ $tried -gt 60 ] || wrong "only $tried calls were made to fail"
    is_whole 'behind faults'
}
after_fault() {
    "$HAIL" home get changing >got 2>err || wrong "behind $1: $(cat err)"
    if [ "$2" -eq 0 ] || [ "$2" -eq 15 ]; then
        cmp -s got $new || wrong "behind $1 the new file is not there, though put ended with $2"
        swap=$old old=$new new=$swap
    elif cmp -s got $new; then # the record may have taken effect
        swap=$old old=$new new=$swap
    else
        [[ " 8 12 13 " == *" $2 "* ]] || wrong "put ends with $2 behind $1"
        cmp -s got $old || wrong "behind $1 the old file is not there"
    fi
}

# Programs over one home at once, one of which is killed again and again: each file that comes is one that was put.
two_at_once() {
    local round
    new_home
    for round in 0 1 2 3 4 5; do ends 0 "$tools/hail-stack" home $round; done
    for round in 1 2 3 4 5 6 7 8; do
        (for _ in 1 2 3; do "$HAIL" home put long <long && "$HAIL" home put short <short; done) >/dev/null 2>putting &
        (for _ in 1 2 3 4; do "$HAIL" home get long | cmp - long || echo wrong; done) >getting 2>&1 &
        { timeout -s KILL 0.0$((round * 7 + 10)) "$HAIL" home put short <short >/dev/null 2>&1; } 2>/dev/null
        "$tools/hail-stack" home 2 $([ $((round % 2)) -eq 0 ] || echo back) >out 2>&1 || [ $? -eq 1 ] || wrong "hail-stack beside others: $(cat out)"
        wait
        [ ! -s putting ] && [ ! -s getting ] || wrong "beside one another: $(cat putting getting)"
    done
    "$tools/hail-gc" home remove >out 2>&1
    is_whole 'programs beside one another'
}

# hail-stack is killed at each call that changes something: one form is whole and in effect, and another call ends the turn.
killed_at_each_call() {
    local back call at cut=0
    command -v strace >/dev/null || { echo 'stacks: there is no strace, and hail-stack is not killed at each call' >&2; return; }
    new_home 60
    rm -rf before && cp -a home before
    rm -rf turned && cp -a home turned && "$tools/hail-stack" turned 2
    for back in '' back; do
        for call in mkdir write fsync rename rmdir unlink; do
            for ((at = 1; at < 100; at++)); do
                rm -rf home && cp -a "$([ -n "$back" ] && echo turned || echo before)" home
                { strace -qq -o trace -e trace=$call -e "inject=$call:signal=SIGKILL:when=$at" "$tools/hail-stack" home 2 $back >out 2>err </dev/null; } 2>/dev/null
                [ $? -eq 137 ] || break
                cut=$((cut + 1))
                turn_was_cut "killed at $call $at of turning${back:+ }$back"
            done
        done
    done
    [ $cut -gt 20 ] || wrong "hail-stack makes only $cut calls: $(cat out err trace)"
    rm -rf turned before
}
turn_was_cut() {
    "$HAIL" home audit >out 2>err || wrong "$1: $(cat err)"
    ! grep -q flagged out || wrong "$1: blocks are not in effect"
    "$tools/hail-stack" home 2 $back >out 2>err || wrong "$1: another call ends with $?: $(cat out err)"
    { [ -e home/stack-2 ] && [ -z "$back" ]; } || { [ ! -e home/stack-2 ] && [ -n "$back" ]; } || wrong "$1: another call does not end the turn"
    [ "$(ls home/provider-2 | grep -c -e hail-stack)" -eq 0 ] || wrong "$1: $(ls home/provider-2) is left"
    is_whole "$1"
}

# A far end serves a stack.
serves() {
    new_home
    ends 0 "$tools/hail-stack" home 0
    printf '\2\1\0\0\0\0\0\0\0\0\0\0\0\20' | "$HAIL" home serve 0 >served 2>err || wrong "serve: $(cat err)"
    { printf '\1' && head -c 272 home/provider-0/1 | tail -c 256; } | cmp -s - served || wrong 'a stack is served otherwise'
}

for test in ${*:-turns has_the_form survives_kills killed_at_each_call refuses only_plain_files odd_files altered_headers no_room faults two_at_once
    finds_twins refuses_both serves}; do "$test"; done
exit $failed
