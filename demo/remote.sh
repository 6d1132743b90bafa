#!/bin/bash
# A home with two providers on other machines, by hail-remote over sshd on this machine's loopback: puts, gets, an audit, a repair and drops
# of so many files (40), far ends that are killed or silent, so many kills (12) of the program, and the same store over plain folders and back.
# It counts what an audit moves.
# It tells each that goes otherwise, ends with 0 exactly where none does, and leaves nothing behind. Without sshd it says so and ends with 0.
set -u

files=${1:-40} kills=${2:-12}
root=$(CDPATH='' cd -P -- "$(dirname "$0")/.." && pwd -P)
. "$(dirname "$0")/common.sh"

sshd=$(PATH=$PATH:/usr/sbin command -v sshd) || { echo 'remote: there is no sshd, and nothing is tried'; exit 0; }
port=$((20000 + RANDOM % 20000))
remote=$root/tools/hail-remote
export HAIL=$hail

# A server that lets a key do one thing alone: serve this provider from a home of its own.
mkdir -p run far2 far4 home
for number in 2 4; do
    ssh-keygen -q -t ed25519 -N '' -f "key$number"
    echo "command=\"$hail $PWD/far$number serve $number\",restrict $(cat "key$number.pub")" >>allowed
done
ssh-keygen -q -t ed25519 -N '' -f host
cat >config <<END
Port $port
ListenAddress 127.0.0.1
HostKey $PWD/host
AuthorizedKeysFile $PWD/allowed
PidFile $PWD/pid
StrictModes no
UsePAM no
PasswordAuthentication no
PermitRootLogin prohibit-password
MaxStartups 100
END
mkdir -p /run/sshd 2>/dev/null
"$sshd" -f config -E log || { echo 'remote: sshd does not start, and nothing is tried'; cat log; exit 0; }
end() {
    kill "$(cat pid)" 2>/dev/null
    rm -rf "$scratch"
}
trap end EXIT

# The command by which a provider is reached.
reach() {
    echo "ssh -F none -o BatchMode=yes -o ConnectTimeout=10 -o ServerAliveInterval=5 -o ServerAliveCountMax=2 -o LogLevel=ERROR" \
        "-o StrictHostKeyChecking=no -o UserKnownHostsFile=/dev/null -i $PWD/key$1 -p $port 127.0.0.1"
}

# The command ends with this status; its bytes are in `out`, its words in `err`. SOURCE is its input.
says() {
    local wanted=$1
    shift
    "$remote" "${limit[@]}" home "$@" <"$source" >out 2>err
    local status=$?
    [ "$status" -eq "$wanted" ] || wrong "$* ends with $status, not $wanted: $(head -n 3 err)"
}

# Both providers are reached so.
both() {
    { echo "2 $(reach 2)"; echo "4 $(reach 4)"; } >home/remotes
}

limit=() source=/dev/null
both
head -c 32 /dev/urandom | od -An -v -tx1 | tr -d ' \n' >key
source=key && says 0 init 6 3 1 4 16 64 0
for ((k = 1; k <= files; k++)); do
    head -c $((RANDOM % 9000)) /dev/urandom >"f$k"
    source=f$k && says 0 put "f$k"
done
[ ! -e home/provider-2 ] && [ ! -e home/provider-4 ] || wrong 'a remote provider has blocks here'
source=/dev/null
for ((k = 1; k <= files; k += 7)); do
    says 0 get "f$k"
    cmp -s out "f$k" || wrong "f$k comes back otherwise"
done

# One loses what it has: it is flagged and mended.
rm -r far2/provider-2
says 0 audit
grep -q '^provider 2 .* flagged$' out && [ "$(grep -c flagged out)" -eq 1 ] || wrong "an audit says $(cat out)"
says 0 repair
says 0 scrub
grep -q '^provider 2 symbols 0 blocks 0$' out || wrong "a scrub says $(cat out)"

# What an audit of the longest file moves.
head -c 4194304 /dev/urandom >big
source=big && says 0 put big
{ echo "2 tee $PWD/asked | $(reach 2) | tee $PWD/told"; echo "4 $(reach 4)"; } >home/remotes
for ((k = 1; k <= files; k++)); do "$remote" home drop "f$k" </dev/null >/dev/null || wrong "f$k is not dropped"; done
source=/dev/null && says 0 audit
asked=$(stat -c %s asked) told=$(stat -c %s told)
[ $((asked + told)) -lt 4096 ] || wrong "an audit moves $asked and $told bytes"

# A far end that is killed in the middle, and one that never answers.
{ echo "2 timeout -s KILL 0.2 $(reach 2)"; echo "4 $(reach 4)"; } >home/remotes
source=big && says 13 put other
source=/dev/null && says 0 get big
cmp -s out big || wrong 'a file comes back otherwise without a far end'
{ echo "2 sleep 1000"; echo "4 $(reach 4)"; } >home/remotes
limit=(-t 3)
source=big && says 13 put other
source=/dev/null && says 4 get big    # the time limit gives both far ends up, more than one of six
limit=()
{ echo "2 false"; echo "4 $(reach 4)"; } >home/remotes
says 0 get big
cmp -s out big || wrong 'a file comes back otherwise beside a far end that does not start'

# A far end that is silent is given up behind its own time, and named; the other goes on.
{ echo "2 2s sleep 1000"; echo "4 $(reach 4)"; } >home/remotes
says 0 get big
cmp -s out big || wrong 'a file comes back otherwise beside a silent far end'
grep -q '^hail-remote: provider 2 is given up: no answer for 2 seconds$' err || wrong "of a silent far end is told $(cat err)"

# Ends a repair that is due, as behind one that was killed.
settle() {
    "$remote" home repair </dev/null >out 2>err
    case $? in 0 | 7) ;; *) wrong "a repair that was due says $(cat err)" ;; esac
}

# Kills of hail or of hail-remote at some moment of a put, a scrub or a repair: what was acknowledged comes back.
both
: >new
for ((k = 1; k <= kills; k++)); do
    case $((k % 3)) in
        0) words='put cut' && head -c 100000 /dev/urandom >new ;;
        1) words=scrub && rm -rf far2/provider-2 ;;
        2) settle && words=repair source=/dev/null && rm -rf far2/provider-2 && says 0 audit ;;
    esac
    "$remote" home $words <new >out 2>err &
    pid=$!
    sleep "0.$((RANDOM % 10))$((RANDOM % 10))"
    ((RANDOM % 2)) || pid=$(pgrep -P $pid | tail -n 1)
    kill -9 $pid 2>/dev/null
    wait 2>/dev/null
    [ "$words" != 'put cut' ] || ! grep -q '^stored' out || cp new cut
    source=/dev/null && says 0 get big
    cmp -s out big || wrong "behind a killed $words a file comes back otherwise"
    "$remote" home get cut >out 2>err </dev/null
    [ $? -eq 3 ] && [ ! -e cut ] || cmp -s out cut || { cmp -s out new && cp new cut; } || wrong "behind a killed $words cut comes back otherwise: $(cat err)"
done
settle
says 0 scrub
says 0 scrub
! grep '^provider' out | grep -qv ' blocks 0$' || wrong "behind the kills a scrub leaves $(cat out)"

# The same store over plain folders, and back.
both
mkdir away
mv home/remotes home/remote-2 home/remote-4 away/
ln -s ../far2/provider-2 home/provider-2
ln -s ../far4/provider-4 home/provider-4
"$hail" home get big </dev/null 2>err | cmp -s - big || wrong "over plain folders the file is another: $(cat err)"
echo plain >plain
"$hail" home put plain <plain >out 2>err || wrong "over plain folders a put says $(cat err)"
rm home/provider-2 home/provider-4
mv away/* home/
says 0 get plain
cmp -s out plain || wrong 'what was put over plain folders comes back otherwise'
says 0 audit
! grep -q flagged out || wrong "an audit says $(cat out)"
echo "$files files; an audit of 4 MiB moves $asked bytes to a provider and $told back"
exit $failed
