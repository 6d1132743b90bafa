#!/bin/bash
# Kills the program at random moments of puts, drops, audits, repairs, scrubs, an upgrade and packs over a real home, of whose providers every
# other is a stack: kill.sh [KILLS [SEED]]
# After half of the kills the journal is upgraded; behind that each put names a profile, and the journal is packed.
# One provider at a time loses its folder. After each kill the home is looked at: each acknowledged file must come back byte for
# byte, and what the killed command was about as it was before or as it was to be. It prints 'N kills, L lost, W wrong', ends
# with 0 exactly where L and W are 0, and leaves nothing behind.
set -u

kills=${1:-100}
RANDOM=${2:-1}
root=$(CDPATH='' cd -P -- "$(dirname "$0")/.." && pwd -P)
program=${HAIL:-$root/out/hail}
"${HAIL:-$root/hail}" - list >/dev/null 2>&1 </dev/null
[ -x "$program" ] || { echo 'kill: there is no program' >&2; exit 1; }
scratch=$(mktemp -d) || exit 1
trap 'rm -rf "$scratch"' EXIT
cd "$scratch" || exit 1

killed=0 lost=0 wrong=0 turns=0
upgraded=''    # not empty once the journal has its second version
names=(a b c d e f)
declare -A content    # by name the file with its bytes; a name that is not in effect has none
declare -A lasts      # by command how many microseconds it took when it was not killed

tell() {
    echo "kill: $1" >&2
}

note_wrong() {
    tell "$1"
    wrong=$((wrong + 1))
}

# Runs a command to its end; its bytes are in `out`, its line is in `err`.
run() {
    "$program" home "$@" <"$source" >out 2>err
}

# Starts a command, kills it at a random moment of its usual time, and says in `status` how it ended, 137 where it was killed.
cut() {
    local usual=${lasts[$1]:-20000} begin=${EPOCHREALTIME/[.,]/}
    "$program" home "$@" <"$source" >out 2>err &
    local pid=$!
    sleep "$(awk -v u="$usual" -v r=$RANDOM 'BEGIN { printf "%.4f", u * r / 32768 / 1000000 }')"
    kill -9 $pid 2>/dev/null
    { wait $pid; } 2>/dev/null
    status=$?
    if [ $status -eq 137 ]; then
        killed=$((killed + 1))
    else
        lasts[$1]=$((${EPOCHREALTIME/[.,]/} - begin))
    fi
}

# Whether a name is as one of the two says: a file with its bytes, or nothing where it is not in effect.
is_as() {
    if [ -z "$2" ]; then
        ! grep -q "^$1 " listed
    else
        source=/dev/null
        grep -q "^$1 $(stat -c %s "$2")\$" listed && run get "$1" && cmp -s out "$2"
    fi
}

# Each name is as it was acknowledged; the one that a killed command spoke of may also be as the command was to leave it.
look() {
    local spoken=$1 later=$2 name
    source=/dev/null
    run list || { note_wrong "list ends with $? ($(cat err))"; return; }
    cp out listed
    for name in "${names[@]}"; do
        is_as "$name" "${content[$name]:-}" && continue
        if [ "$name" = "$spoken" ] && is_as "$name" "$later"; then
            content[$name]=$later
            continue
        fi
        tell "$name is lost"
        lost=$((lost + 1))
        unset "content[$name]"
    done
}

# Ends a repair that is due, and lets the next provider lose its folder.
settle() {
    source=/dev/null
    run repair
    local ended=$?
    [ $ended -eq 0 ] || [ $ended -eq 7 ] || note_wrong "repair ends with $ended ($(cat err))"
    run audit || note_wrong "audit ends with $? ($(cat err))"
    if grep -q flagged out; then
        run repair || note_wrong "repair ends with $? ($(cat err))"
    fi
}

# One command, killed or not, and a look at what it left.
turn() {
    local name=${names[RANDOM % 6]} file kind=$((RANDOM % 9)) spoken='' later=''
    source=/dev/null
    [ -n "$upgraded" ] || [ $killed -lt $((kills / 2)) ] || kind=upgrade
    [ -z "$upgraded" ] || [ $((RANDOM % 4)) -ne 0 ] || kind=pack
    case $kind in
        upgrade)
            cut upgrade
            [ $status -ne 0 ] && [ $status -ne 24 ] || upgraded=yes
            ;;
        0 | 1 | 2 | 3)
            file=file$turns
            head -c $((RANDOM % 3000)) /dev/urandom >"$file"
            source=$file spoken=$name later=$file
            cut put "$name" ${upgraded:+$((RANDOM % 5))}
            ;;
        4)
            spoken=$name
            cut drop "$name"
            ;;
        pack) cut pack ;;
        5) cut audit ;;
        6) cut repair ;;
        7)
            settle
            rm -rf "home/provider-$((RANDOM % 6))"
            run audit || note_wrong "audit ends with $? ($(cat err))"
            cut repair
            ;;
        8)
            settle
            rm -rf "home/provider-$((RANDOM % 6))"
            cut scrub
            source=/dev/null
            [ $status -eq 0 ] || run scrub || note_wrong "scrub ends with $? ($(cat err))"
            ;;
    esac
    case $status in
        0) [ -z "$spoken" ] || content[$spoken]=$later ;;
        137) ;;
        3) [ -z "${content[$spoken]:-}" ] || note_wrong "$spoken is not there for its drop" ;;
        6 | 7) ;;
        24) [ "$kind" = upgrade ] || note_wrong "command $kind ends with 24" ;;
        *) note_wrong "command $kind ends with $status ($(cat err))" ;;
    esac
    look "$spoken" "$later"
}

mkdir home
touch home/stack-{0,2,4}
head -c 32 /dev/urandom | od -An -v -tx1 | tr -d ' \n' >key
source=key
run init 6 3 1 1 4 8 0 || note_wrong "init ends with $?"
while [ $killed -lt "$kills" ] && [ $turns -lt $((20 * kills + 20)) ]; do
    turns=$((turns + 1))
    turn
done
settle
look '' ''
echo "$killed kills, $lost lost, $wrong wrong"
[ $lost -eq 0 ] && [ $wrong -eq 0 ]
