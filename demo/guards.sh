#!/bin/bash
# What the program keeps out of a home: a second program at the same time, standard streams that came closed, what a hostile provider
# puts in the place of a block, two providers in one folder, and a file that is too long. It tells each case that goes otherwise, ends with 0
# exactly where none does, and leaves nothing behind.
set -u

. "$(dirname "$0")/common.sh"

# A new home of this profile, or 1, with one file, `notes`, and the key that no other home has.
new_home() {
    local profile=${1:-1}
    rm -rf home
    mkdir home
    head -c 32 /dev/urandom | od -An -v -tx1 | tr -d ' \n' | "$hail" home init 6 3 1 "$profile" 4 8 0 >out || wrong 'init'
    "$hail" home put notes <notes >out || wrong 'put notes'
}

# The file comes back as it was stored.
intact() {
    "$hail" home get notes </dev/null >back 2>err && cmp -s back notes || wrong "notes is not given after $1: $(cat err)"
}

# Eight puts at once: all eight are acknowledged, and all eight files are there.
eight_at_once() {
    local k
    new_home
    for k in 1 2 3 4 5 6 7 8; do
        (seq $k 300 | "$hail" home put "file$k" >"told$k" 2>&1) &
    done
    wait
    for k in 1 2 3 4 5 6 7 8; do
        seq $k 300 >wanted
        [ "$(cat "told$k")" = "stored file$k $(stat -c %s wanted)" ] || wrong "of eight puts one says $(cat "told$k")"
        "$hail" home get "file$k" </dev/null 2>err | cmp -s - wanted || wrong "file$k is not given: $(cat err)"
    done
    intact 'eight puts'
}

# A put whose source is slow keeps a second one waiting, whose file is there too.
slow_and_quick() {
    new_home
    (sleep 1; echo slow) | "$hail" home put slow >slow &
    sleep 0.3
    echo quick | "$hail" home put quick >quick
    wait
    [ "$(cat slow quick)" = 'stored slow 5
stored quick 6' ] || wrong "a slow and a quick put say $(cat slow quick)"
    [ "$("$hail" home list </dev/null)" = 'notes 10
quick 6
slow 5' ] || wrong "after both there is $("$hail" home list </dev/null)"
}

# Gets whose output is taken half a second later, one after the other while the file `reading` is there.
slow_gets() {
    while [ -e reading ]; do
        "$hail" home get large </dev/null 2>>refused | { sleep 0.5; cmp -s - large || echo 'other bytes' >>refused; }
    done
}

# A put among four such loops, of which one is always at work, waits for the gets before it, and not for those that come later.
put_among_gets() {
    local k
    new_home 4
    head -c 100000 /dev/urandom >large
    "$hail" home put large <large >out || wrong 'put large'
    : >reading
    for k in 1 2 3 4; do
        slow_gets &
        sleep 0.1
    done
    sleep 1
    timeout 20 "$hail" home put written <notes >out 2>err || wrong "a put among gets ends with $?"
    rm reading
    wait
    [ ! -s refused ] || wrong "a get beside a put says $(head -n 1 refused)"
    intact 'a put among gets'
}

# The command ends with this status where it was started with these streams closed, and the home is whole.
closed() {
    local wanted=$1 streams=$2
    shift 2
    case $streams in
        in) "$hail" home "$@" <&- >out 2>err ;;
        out) "$hail" home "$@" <notes >&- 2>err ;;
        err) "$hail" home "$@" <notes >out 2>&- ;;
        all) "$hail" home "$@" <&- >&- 2>&- ;;
    esac
    local status=$?
    [ $status -eq "$wanted" ] || wrong "$* with $streams closed ends with $status"
    intact "$* with $streams closed"
}

closed_streams() {
    local streams
    new_home
    for streams in in all; do
        closed 14 $streams put notes
    done
    closed 15 out put notes
    closed 0 err put notes
    closed 0 in audit
    closed 15 out audit
    closed 0 err audit
    closed 15 all audit
    for streams in 'in 0' 'out 15' 'err 0' 'all 15'; do
        rm -r home/provider-1
        "$hail" home audit >out </dev/null || wrong 'audit'
        closed "${streams#* }" "${streams% *}" repair
    done
    closed 15 out upgrade
    closed 24 in upgrade
    closed 15 out pack
    closed 0 in pack
    closed 0 err pack
    closed 15 all pack
    closed 15 out scrub
    closed 0 in scrub
    closed 0 err scrub
    rm -r home/provider-1
    closed 15 all scrub
}

# What stands in the place of the next block, or of one that is there, is not followed, not waited for, and not written to.
hostile_blocks() {
    new_home
    echo precious >precious
    ln -s ../journal home/provider-2/2-0
    ln -s ../../precious home/provider-3/2-0
    ln -s ../../precious home/provider-4/new
    mkfifo home/provider-5/2-0
    timeout 20 "$hail" home put other <notes >out 2>err || wrong "a put over links ends with $?"
    [ "$(cat precious)" = precious ] || wrong 'a put follows a link'
    intact 'a put over links'
    rm home/provider-2/1-0
    mkfifo home/provider-2/1-0
    timeout 20 "$hail" home get notes >back </dev/null && cmp -s back notes || wrong 'a pipe hinders a get'
    timeout 20 "$hail" home audit >out </dev/null && grep -q '^provider 2 .* flagged$' out || wrong 'a pipe is no lost block'
    rm home/provider-2/1-0
    ln -s ../provider-3/1-0 home/provider-2/1-0
    cp home/provider-3/1-0 third
    [ "$("$hail" home repair </dev/null)" = 'repaired 1' ] || wrong 'a link hinders a repair'
    cmp -s third home/provider-3/1-0 || wrong 'a repair writes through a link'
    intact 'a repair over a link'
    mv home/journal kept
    mkfifo home/journal
    timeout 20 "$hail" home list >out 2>err </dev/null
    [ $? -eq 12 ] || wrong 'a pipe as journal is no fault'
}

# An empty folder in a block's place gives way; one with something in it is a fault of its provider, until it is emptied.
hostile_folders() {
    new_home
    mkdir home/provider-2/2-0 home/provider-3/new
    "$hail" home put other <notes >out 2>err || wrong "a put over empty folders ends with $?"
    mkdir home/provider-4/3-0
    : >home/provider-4/3-0/kept
    "$hail" home put more <notes >out 2>err
    [ "$? $(cat err)" = '13 hail: provider fault 4' ] || wrong "a put over a folder that is not empty says $(cat err)"
    rm home/provider-4/3-0/kept
    "$hail" home put more <notes >out 2>err || wrong "a put over a folder that was emptied ends with $?"
    intact 'puts over folders'
}

# Two providers in one folder: a put is a fault of the second, and nothing is stored.
one_folder() {
    new_home
    rm -r home/provider-4
    ln -s provider-1 home/provider-4
    "$hail" home put other <notes >out 2>err
    [ "$? $(cat err)" = '13 hail: provider fault 4' ] || wrong "a put into one folder twice says $(cat err)"
    [ "$("$hail" home list </dev/null)" = 'notes 10' ] || wrong 'a put into one folder twice has an effect'
    intact 'a put into one folder twice'
}

# A put that is too long ends in the middle: no file has changed, and its number is not used again.
too_long() {
    new_home 4
    head -c 4194305 /dev/zero | "$hail" home put notes >out 2>err
    [ "$? $(cat err)" = '16 hail: too long' ] || wrong "a put that is too long says $(cat err)"
    intact 'a put that is too long'
    [ -e home/provider-5/2-909 ] && [ ! -e home/provider-5/2-910 ] || wrong 'a put that is too long leaves no whole stripes, or more'
    "$hail" home put other <notes >out 2>err && [ -e home/provider-0/3-0 ] || wrong "a put behind it ends with $?"
}

# Nobody else can read what was made.
own_files() {
    new_home
    [ "$(stat -c %a home/journal home/provider-0 home/provider-0/1-0 | tr '\n' ' ')" = '600 700 600 ' ] ||
        wrong 'others can read the home'
}

seq 1 5 >notes
eight_at_once
slow_and_quick
put_among_gets
closed_streams
hostile_blocks
hostile_folders
one_folder
too_long
own_files
exit $failed
