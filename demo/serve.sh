#!/bin/bash
# A provider served over standard input and output: requests as bytes, and the answers, statuses and blocks that are due.
# It tells each that goes otherwise, ends with 0 exactly where none does, and leaves nothing behind.
set -u

. "$(dirname "$0")/common.sh"

# The bytes that hexadecimal digits spell.
bytes() {
    printf "$(sed 's/../\\x&/g' <<<"$1")"
}

# The hexadecimal digits of standard input.
digits() {
    od -An -v -tx1 | tr -d ' \n'
}

# The digits of a number in so many bytes, the lowest first.
number() {
    local left=$1 count=$2
    while ((count-- > 0)); do
        printf '%02x' $((left & 255))
        left=$((left >> 8))
    done
}

# The requests: kind, object, then stripe and size, and the block of a store.
store() {
    echo "01$(number "$1" 8)$(number "$2" 4)$(number $((${#3} / 32)) 1)$3"
}
fetch() {
    echo "02$(number "$1" 8)$(number "$2" 4)$(number "$3" 1)"
}
remove() {
    echo "04$(number "$1" 8)"
}

# The words end with this status, this line on standard error and these answers to the requests of SOURCE.
row() {
    local wanted=$1 answers=$2 line=$3 source=$4
    shift 4
    "$hail" "$@" <"$source" >out 2>err
    local status=$?
    [ "$status" -eq "$wanted" ] || wrong "$* ends with $status, not $wanted"
    [ "$(digits <out)" = "$answers" ] || wrong "$* answers $(digits <out), not $answers"
    [ "$(cat err)" = "$line" ] || wrong "$* tells $(cat err), not $line"
}

# The bytes, one after the other.
slowly() {
    local at
    for ((at = 0; at < ${#1}; at += 2)); do
        bytes "${1:at:2}"
        sleep 0.01
    done
}

# The same with the requests as digits, over both memories, at once and byte after byte.
requests() {
    local status=$1 answers=$2 line=$3 asked=$4
    bytes "$asked" >asked
    for place in - +; do
        row "$status" "$answers" "$line" asked "$place" serve 0
    done
    row "$status" "$answers" "$line" <(slowly "$asked") - serve 0
}

five=05000000000000000000000000000000
: >empty

# What is not held, what was stored, a bad request behind a whole one, an end inside a request.
requests 0 00 '' "$(fetch 1 0 6)"
requests 0 "0101$five" '' "$(store 1 0 "$five")$(fetch 1 0 1)"
requests 25 01 'hail: bad frame at 9' "$(remove 1)09"
requests 25 '' 'hail: bad frame at 0' 010000000000

# Words, streams that fail, and requests of more than 16 MiB.
row 0 '' '' empty - serve 15
row 2 '' 'hail: usage' empty - serve 16
row 2 '' 'hail: usage' empty - serve 00
row 2 '' 'hail: usage' empty - serve
row 14 '' 'hail: source fault' . - serve 0
"$hail" - serve 0 <asked >/dev/full 2>err
[ $? -eq 25 ] || wrong 'a full output is noticed before an answer'
bytes "$(remove 1)" >asked
"$hail" - serve 0 <asked >/dev/full 2>err
[ $? -eq 15 ] && [ "$(cat err)" = 'hail: sink fault' ] || wrong 'a full output is no sink fault'
{ bytes 01 && head -c 12 /dev/zero && bytes 80 && head -c 2048 /dev/zero; } >long
for _ in {1..13}; do
    cat long long >longer
    mv longer long
done
row 16 "$(head -c 8136 /dev/zero | tr '\0' '\1' | digits)" 'hail: too long' long - serve 0

# A trial over providers behind links is as one over the providers.
"$hail" - trial 7 >told </dev/null || wrong 'a trial ends otherwise than with 0'
"$hail" + trial 7 </dev/null | cmp -s - told || wrong 'a trial over links tells otherwise'

# A store of 40 files. Its third provider moves to another home through a server: each request is sent once the answer before came.
mkdir home other
echo 000102030405060708090a0b0c0d0e0f101112131415161718191a1b1c1d1e1f | "$hail" home init 4 1 1 0 2 2 0 >out || wrong 'no store is set up'
for ((file = 1; file <= 40; file++)); do
    seq "$file" 100 | head -c "$file" | "$hail" home put "file$file" >out || wrong "file$file is not stored"
done

# Sends a request to the server, and takes the first byte of its answer.
asks() {
    bytes "$1" >&8
    answer=$(head -c 1 <&9 | digits)
}

mkfifo asking answering
"$hail" other serve 2 <asking >answering &
process=$!
exec 8>asking 9<answering
for file in home/provider-2/*-*; do
    place=${file##*/}
    asks "$(store "${place%-*}" "${place#*-}" "$(digits <"$file")")"
    [ "$answer" = 01 ] || wrong "the store of $place answers $answer"
done
diff -r home/provider-2 other/provider-2 || wrong 'the server holds other blocks'
count=0
for file in home/provider-2/*-*; do
    place=${file##*/}
    asks "$(fetch "${place%-*}" "${place#*-}" 6)"
    [ "$answer" = 01 ] && head -c 96 <&9 | cmp -s - "$file" || wrong "the fetch of $place gives another block"
    count=$((count + 1))
done
[ "$count" -ge 40 ] || wrong "only $count blocks were moved"
asks "$(fetch 1 0 7)"
[ "$answer" = 00 ] || wrong "a fetch of another size answers $answer"
exec 8>&-
wait "$process" || wrong 'the server ends otherwise than with 0'

# The store goes on with the blocks of the other home.
rm -r home/provider-2
mv other/provider-2 home/
"$hail" home audit >out || wrong 'an audit ends otherwise than with 0'
! grep -q flagged out || wrong 'an audit flags the provider that moved'
for ((file = 1; file <= 40; file++)); do
    "$hail" home get "file$file" | cmp -s - <(seq "$file" 100 | head -c "$file") || wrong "file$file comes back otherwise"
done

# What is removed is gone.
bytes "$(remove 1)$(fetch 1 0 6)$(fetch 2 0 6)" >asked
row 0 "0100""01$(digits <home/provider-2/2-0)" '' asked home serve 2
[ ! -e home/provider-2/1-0 ] || wrong 'a removed block is there'

exit "$failed"
