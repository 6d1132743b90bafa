#!/bin/bash
# Schedules and trials by the program, over memory and over real folders: the status, the text and the bytes that are due.
# It tells each that goes otherwise, ends with 0 exactly where none does, and leaves nothing behind.
set -u

. "$(dirname "$0")/common.sh"

# The words end with this status and write this text, the line on standard error behind it: SOURCE is their input.
row() {
    local wanted=$1 text=$2 source=$3
    shift 3
    "$hail" "$@" <"$source" >out 2>err
    local status=$?
    [ "$status" -eq "$wanted" ] || wrong "$* ends with $status, not $wanted"
    [ "$(cat out err)" = "$text" ] || wrong "$* writes $(cat out err), not $text"
}

# A new home.
new_home() {
    rm -rf home
    mkdir home
}

digits=000102030405060708090a0b0c0d0e0f101112131415161718191a1b1c1d1e1f
: >empty

# An upgrade runs alone. Behind it a put may name a profile; one that was put before keeps the setup's, and both come back.
{
    echo "init 4 1 1 0 2 2 0 $digits"
    cat <<'SCHEDULE'
reopen
begin put a/b 00 5
begin put a 00 5
begin put a 00 0
begin put a 6f6c64
begin upgrade
run 1
begin upgrade
begin get a
step 2
run 2
begin upgrade
begin put b 6e6577 3
run 3
lose 1 1 0
lose 2 2 0
begin get a
run 4
begin get b
run 5
stop -
reopen
list
SCHEDULE
} >schedule
told='ready
opened
refused BadName
refused BadProfile
refused OldVersion
job 1
refused Busy
put
job 2
refused Busy
more
upgraded
refused NewVersion
job 3
put
replaced
replaced
job 4
got 6f6c64
job 5
got 6e6577
stopped
opened
names 2
a 3
b 3'
row 0 "$told" schedule - replay
new_home
row 0 "$told" schedule home replay
[ "$(stat -c %s home/provider-0/1-0 home/provider-0/2-0 | tr '\n' ' ')" = '96 1024 ' ] || wrong 'a file has blocks of another profile'
for line in 'begin put a 00 256' 'begin put a 00 01' 'begin upgrade 2'; do
    echo "$line" >bad
    row 19 'hail: bad schedule line 1' bad - replay
done

# A scrub runs alone, counts what differs and mends it; a stop and a reopening drop it. The file has two stripes of 32 bytes.
bytes=$(printf '%080d' 7)
{
    echo "init 4 1 1 0 2 2 0 $digits"
    echo 'begin scrub'
    echo reopen
    echo "begin put a $bytes"
    cat <<'SCHEDULE'
begin scrub
run 1
alter 0 1 0 0 5
lose 3 1 1
begin scrub
begin scrub
begin get a
begin upgrade
step 1
step 2
run 2
begin scrub
run 3
begin get a
begin scrub
run 4
begin scrub
step 5
stop -
step 5
reopen
step 5
begin scrub
reopen
run 6
lose 0 1 0
lose 1 1 0
begin scrub
run 7
begin get a
run 8
SCHEDULE
} >schedule
told="ready
closed
opened
job 1
refused Busy
put
replaced
replaced
job 2
refused Busy
refused Busy
refused Busy
refused NoSuchJob
more
scrubbed 2 symbols 1 0 0 6
job 3
scrubbed 2 symbols 0 0 0 0
job 4
refused Busy
got $bytes
job 5
more
stopped
closed
opened
refused NoSuchJob
job 6
opened
refused NoSuchJob
replaced
replaced
job 7
lost 0 0
job 8
lost 0 0"
row 0 "$told" schedule - replay
new_home
row 0 "$told" schedule home replay
row 19 'hail: bad schedule line 1' <(echo 'begin scrub 2') - replay

# A pack runs alone, in five steps; a stop in one leaves the same files, whatever the switch byte is.
{
    echo "init 4 1 1 0 2 2 0 $digits"
    cat <<'SCHEDULE'
reopen
begin pack
begin upgrade
begin pack
run 1
begin put a 07
run 2
begin put a 0708
run 3
begin pack
begin get a
step 4
step 4
step 4
stop 00
reopen
list
begin pack
step 5
step 5
step 5
stop ff
reopen
list
begin pack
run 6
begin get a
run 7
SCHEDULE
} >schedule
told='ready
opened
refused OldVersion
job 1
refused Busy
upgraded
job 2
put
job 3
put
job 4
refused Busy
more
more
more
stopped
opened
names 1
a 2
job 5
more
more
more
stopped
opened
names 1
a 2
job 6
packed 108 81
job 7
got 0708'
row 0 "$told" schedule - replay
new_home
row 0 "${told/packed 108/packed 89}" schedule home replay
row 19 'hail: bad schedule line 1' <(echo 'begin pack 2') - replay

# Two puts beside one another, an audit that is given up, a get and a drop: the same lines over memory and over folders.
cat >schedule <<SCHEDULE
# a store of four providers
begin get a
reopen
init 4 1 1 0 2 2 0 $digits
reopen
begin put a 6861696c
step 1
begin put b 73746f6e65
step 2
run 1
run 2
step 2
begin audit
stop -
step 3
reopen
step 3
begin get a
run 4
begin drop a
run 5
list
SCHEDULE
told='closed
refused NotSetUp
ready
opened
job 1
more
job 2
waiting 1
put
put
refused NoSuchJob
job 3
stopped
closed
opened
refused NoSuchJob
job 4
got 6861696c
job 5
dropped
names 1
b 5'
row 0 "$told" schedule - replay
new_home
row 0 "$told" schedule home replay
row 0 'b 5' empty home list
row 0 stone empty home get b

# The longest file at profile 2: 3,641 stripes of 1,152 bytes, so that block 3,640 is the last. With that one lost it still comes back.
seq 1 700000 | head -c 4194304 | od -An -v -tx1 | tr -d ' \n' >hex
{
    printf 'init 6 3 1 2 4 8 0 %s\nreopen\nbegin put a ' $digits
    cat hex
    printf '\nrun 1\nlose 5 1 3641\nlose 5 1 3640\nbegin get a\nrun 2\n'
} >long
{
    printf 'ready\nopened\njob 1\nput\nnothing held\nreplaced\njob 2\ngot '
    cat hex
    echo
} >due
"$hail" - replay <long >out 2>err || wrong "the longest file ends with $? ($(cat err))"
cmp -s out due || wrong 'the longest file comes back otherwise'

# A later schedule goes on with the store, and numbers its jobs from 1: damage, an audit that finds it, a repair, and more damage.
cat >schedule <<SCHEDULE
reopen
alter 2 2 0 0 5
lose 2 2 0
lose 2 2 0
alter 4 2 0 0 5
begin repair
begin audit
run 1
begin repair
run 2
lose 2 2 0
begin get b
run 3
SCHEDULE
told='opened
replaced
replaced
nothing held
nothing held
refused NothingDue
job 1
audited 1 undecided 0 counts 0 0 2 0
job 2
repaired 1
replaced
job 3
got 73746f6e65'
row 0 "$told" schedule home replay

# Where the output is full the events end with the first line; a bad line and a folder as input leave the store as it is.
cp -r home kept
"$hail" home replay <schedule >/dev/full 2>err
[ $? -eq 15 ] && [ "$(cat err)" = 'hail: sink fault' ] || wrong 'a full output is no sink fault'
printf 'reopen\nbegin drop b\nfly\n' >bad
row 19 'hail: bad schedule line 3' bad home replay
row 14 'hail: source fault' . home replay
diff -r kept home || wrong 'a replay that did no event leaves another store'

# The longest schedule, and one that is a byte longer.
head -c 16777216 /dev/zero | tr '\0' '#' >long
row 0 '' long home replay
printf '#' >>long
row 16 'hail: too long' long home replay

# Words that spell neither.
row 2 'hail: usage' empty - replay 7
row 2 'hail: usage' empty - trial
row 2 'hail: usage' empty - trial 07
row 2 'hail: usage' empty - trial 18446744073709551616

# The trial: what is lost is found and mended, over memory and over folders.
seven='trial 7
events 225
gets 6 right 6
audits 3 flagged 2 3 4
repairs 3
stops 2'
row 0 "$seven" empty - trial 7
new_home
row 0 "$seven" empty home trial 7
row 0 'trial 65536' empty home list

exit "$failed"
