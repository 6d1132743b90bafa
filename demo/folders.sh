#!/bin/bash
# hail-sftp and git-annex-remote-hail in long: folders.sh [NAME ..] does these of its tests, or all: restic_life, kills, at_once, full, power, sshfs,
# rclone, annex_suite, annex_life. `folders.sh speed [FOLDER [BYTES]]` measures restic beside its own local store, in FOLDER (a disk) or in memory.
# BYTES and SIZE are those of the folders and keys, ROUNDS the kills, FORM that of the homes: -s for stacks, -f for folders. It tells each that
# goes otherwise, ends with 0 exactly where none does, and leaves nothing behind. What needs a program that is not there is passed over, and told.
# tools/test-folders.sh has the fast part.
set -u

called=folders room=/dev/shm
[ "${1-}" != speed ] || [ -z "${2-}" ] || room=$2
. "$(dirname "$0")/../tools/test-lib.sh"
without_launcher
export HOME=$scratch TMPDIR=$scratch XDG_CACHE_HOME=$scratch/cache PATH=$TOOLS:$PATH RESTIC_PASSWORD=a
export GIT_AUTHOR_NAME=a GIT_AUTHOR_EMAIL=a@b GIT_COMMITTER_NAME=a GIT_COMMITTER_EMAIL=a@b
bytes=${BYTES:-60000000}

# Does a step, and tells it with its seconds.
step() {
    local label=$1 since=$EPOCHREALTIME
    shift
    "$@" >said 2>&1 || wrong "$label ends with $?: $(tail -n 3 said)"
    awk -v label="$label" -v since="$since" -v now="$EPOCHREALTIME" 'BEGIN { printf "%-52s %6.1f s\n", label, now - since }'
}

# `homes` are so many new homes at 6 3 1, a set.
new_set() {
    local k
    homes=()
    for ((k = 0; k < $1; k++)); do
        make_key | hail-init ${FORM:--s} "h$k" 6 3 1 4 16 64 0 >said || wrong "no home: $(cat said)"
        homes+=("$PWD/h$k")
    done
    hail-sftp --init "${homes[@]}" || wrong 'no set'
}

on_hail() {
    restic -q -o sftp.command="hail-sftp ${homes[*]}" -r sftp:x:/repo "$@"
}

each_home() {
    local home
    for home in "${homes[@]}"; do "$HAIL" "$home" "$@" || return 1; done
}

# How many hail files the homes have.
hail_files() {
    each_home list | wc -l
}

# The newest snapshot of a folder comes back as it is.
comes_back() {
    rm -rf back
    on_hail restore latest --path "$PWD/$1" --target back --no-lock && diff -r --no-dereference "$1" "back/$1"
}

# A folder with so many bytes that can't be compressed, in big and small files, and some links and text.
make_tree() {
    mkdir -p "$1/deep/er" && seq 1 50000 >"$1/numbers" && ln -s ../numbers "$1/deep/link" && : >"$1/empty"
    head -c "$(($2 * 3 / 4))" /dev/urandom >"$1/deep/big"
    head -c "$(($2 / 4))" /dev/urandom | split -b 100000 -a 4 - "$1/deep/er/part"
}

# Of each home's provider $1 one block in 40 is altered, in so many symbols: a block of 2,048 bytes is a file, or of a stack the bytes from 16 on.
alter() {
    python3 - "$@" "${homes[@]}" <<'END'
import os, sys
place, symbols = sys.argv[1], int(sys.argv[2])
blocks = []
for home in sys.argv[3:]:
    folder = f'{home}/provider-{place}'
    for name in sorted(os.listdir(folder)):
        path = f'{folder}/{name}'
        count = 1 if '-' in name else (os.path.getsize(path) - 16) // 2056
        blocks += [(path, 0 if '-' in name else 16 + 2056 * block) for block in range(count)]
for path, start in blocks[::40]:
    with open(path, 'r+b') as file:
        for symbol in range(symbols):
            file.seek(start + 16 * symbol)
            byte = file.read(1)[0]
            file.seek(start + 16 * symbol)
            file.write(bytes([byte ^ 1]))
END
}

lose() {
    local home
    for home in "${homes[@]}"; do rm -rf "$home/provider-$1"; done
}

restic_life() {
    have restic python3-paramiko || return
    new_set 3
    make_tree tree "$bytes"
    step init on_hail init
    step backup on_hail backup tree
    step 'check --read-data' on_hail check --read-data
    step 'restore and compare' comes_back tree
    head -c $((bytes / 6)) /dev/urandom >tree/more
    step 'second backup' on_hail backup tree
    lose 2
    alter 5 4
    echo '-- provider 2 is lost, and of provider 5 one block in 40 altered in four symbols'
    step 'check --read-data' on_hail check --read-data
    step 'restore and compare' comes_back tree
    step audit each_home audit
    [ "$(grep -c '^provider 2 .* flagged' said)" -eq 3 ] || wrong 'the audits flag otherwise'
    step repair each_home repair
    alter 5 128
    echo '-- of provider 5 one block in 40 is altered in every symbol'
    step 'check --read-data' on_hail check --read-data
    step scrub each_home scrub
    lose 4
    echo '-- provider 4 is lost'
    step 'restore and compare' comes_back tree
    step 'scrub' each_home scrub
    rm tree/deep/big
    step 'third backup' on_hail backup tree
    step 'forget --keep-last 1 --prune' on_hail forget --keep-last 1 --prune
    step 'check --read-data' on_hail check --read-data
    step 'restore and compare' comes_back tree
}

# The hail-sftp that a process started, or the first hail that this one runs.
victim_below() {
    local bridge
    bridge=$(ps -o pid=,comm= --ppid "$1" | awk '$2 == "hail-sftp" { print $1; exit }')
    if [ "$2" = hail-sftp ]; then echo "$bridge"; else ps -o pid= --ppid "${bridge:-0}" | head -n 1; fi
}

# A backup that is killed at a random moment: hail-sftp, or the hail below it.
killed_backup() {
    local victim=$1 running process
    restic -q -o sftp.command="hail-sftp ${homes[*]}" -r sftp:x:/repo backup extra >said 2>&1 &
    running=$!
    sleep "$(awk -v r=$RANDOM 'BEGIN { print 0.7 + r / 32768 * 2 }')"
    for _ in {1..200}; do
        process=$(victim_below $running "$victim")
        [ -z "$process" ] && kill -0 $running 2>/dev/null || break
        sleep 0.01
    done
    [ -z "$process" ] || kill -9 "$process" 2>/dev/null
    # restic tries again for long where its hail-sftp died
    for _ in {1..100}; do kill -0 $running 2>/dev/null || break; sleep 0.1; done
    kill -9 $running 2>/dev/null
    wait $running 2>/dev/null
}

kills() {
    have restic python3-paramiko || return
    local round before
    new_set 2
    make_tree tree 5000000
    mkdir extra
    on_hail init && on_hail backup tree || wrong 'no backup'
    for ((round = 1; round <= ${ROUNDS:-8}; round++)); do
        head -c 30000000 /dev/urandom >extra/new
        killed_backup "$([ $((round % 2)) -eq 0 ] && echo hail || echo hail-sftp)"
        before=$(hail_files)
        on_hail unlock >said 2>&1
        step "check --read-data behind kill $round" on_hail check --read-data
        echo "   hail files: $before, then $(hail_files)"
    done
    step 'restore and compare' comes_back tree
    step 'forget --prune' on_hail forget --keep-last 1 --prune
    step 'check --read-data' on_hail check --read-data
}

at_once() {
    have restic python3-paramiko || return
    local one two
    new_set 2
    make_tree a 20000000
    make_tree b 20000000
    on_hail init || wrong 'no repository'
    on_hail backup a & one=$!
    on_hail backup b & two=$!
    step 'snapshots beside two backups' on_hail snapshots
    wait $one || wrong 'one of two backups at once fails'
    wait $two || wrong 'the other of two backups at once fails'
    step 'check --read-data' on_hail check --read-data
    step 'restore one' comes_back a
    step 'restore the other' comes_back b
}

# A set whose names run out in a backup: it fails, what was there stays, room comes by a prune or by one more home.
full() {
    have restic python3-paramiko || return
    new_set 1
    { echo reopen; for ((k = 1; k <= 960; k++)); do printf 'begin put full%d -\nrun %d\n' "$k" "$k"; done; } | "$HAIL" h0 replay >said || wrong 'a home is not filled'
    make_tree a 10000000
    make_tree b 200000000
    on_hail init && on_hail backup a || wrong 'no backup'
    timeout 60 restic -q -o sftp.command="hail-sftp ${homes[*]}" -r sftp:x:/repo backup b >said 2>&1 && wrong 'a backup without room ends well'
    echo "   $(hail_files) hail files"
    on_hail unlock --remove-all >said 2>&1 || wrong "locks stay: $(tail -n 3 said)"
    step 'prune of a full store' on_hail prune --max-repack-size 0
    echo "   $(hail_files) hail files"
    step 'restore and compare' comes_back a
    make_key | hail-init ${FORM:--s} h1 6 3 1 4 16 64 0 >said
    hail-sftp --add h0 h1 || wrong 'no home is added'
    homes+=("$PWD/h1")
    step 'backup once a home is added' on_hail backup b
    step 'check --read-data' on_hail check --read-data
    step 'restore and compare' comes_back b
}

# Cuts of the power and kills at every step of a change, and a fault at each.
power() {
    have /usr/bin/python3 || return
    (cd "$root/tools" && FULL=1 /usr/bin/python3 -B -m unittest folders_tests.test_cuts) >said 2>&1 || { wrong 'a cut does harm'; tail -n 30 said >&2; }
    tail -n 3 said
}

sshfs() {
    have sshfs fusermount3 python3-paramiko || return
    new_set 2
    make_tree tree 9000000
    mkdir mnt
    command sshfs -o ssh_command="$TOOLS/hail-sftp ${homes[*]} --" x:/ mnt || { echo 'folders: no mount can be had: sshfs is passed over' >&2; return; }
    step 'files are copied into a mount' cp -r tree/numbers tree/deep/big tree/empty mnt/
    sleep 2
    step 'and read' cmp tree/deep/big mnt/big
    for place in 1 4194300 4194304 6749000; do cmp -n 100001 -i $place tree/deep/big mnt/big || wrong "reading at $place"; done
    step 'a file is renamed over another' mv mnt/big mnt/numbers
    step 'and read' cmp tree/deep/big mnt/numbers
    { echo more >>mnt/numbers; } 2>said && sleep 1
    step 'what was appended is not there' cmp tree/deep/big mnt/numbers
    step 'df' df mnt
    fusermount3 -u mnt
}

# rclone through sshd of this machine, which runs hail-sftp alone for a key.
rclone() {
    local sshd port=$((20000 + RANDOM % 20000)) far
    have rclone ssh-keygen python3-paramiko || return
    sshd=$(PATH=$PATH:/usr/sbin command -v sshd) || { echo 'folders: there is no sshd: rclone is passed over' >&2; return; }
    new_set 2
    make_tree tree 12000000 && rm tree/deep/link
    ssh-keygen -q -t ed25519 -N '' -f key && ssh-keygen -q -t ed25519 -N '' -f host
    echo "environment=\"HAIL=$HAIL\",command=\"$TOOLS/hail-sftp ${homes[*]}\",restrict $(cat key.pub)" >allowed
    printf '%s\n' "Port $port" 'ListenAddress 127.0.0.1' "HostKey $PWD/host" "AuthorizedKeysFile $PWD/allowed" "PidFile $PWD/pid" 'StrictModes no' \
        'UsePAM no' 'PasswordAuthentication no' 'PermitRootLogin prohibit-password' 'PermitUserEnvironment yes' 'Subsystem sftp internal-sftp' >config
    mkdir -p /run/sshd 2>/dev/null
    "$sshd" -f config -E log || { echo 'folders: sshd does not start: rclone is passed over' >&2; return; }
    far=":sftp,host=127.0.0.1,port=$port,user=$(id -un),key_file=$PWD/key,shell_type=none:"
    on_far() { command rclone --config none -q --retries 1 "$@"; }
    step 'copy' on_far copy tree "${far}tree"
    step 'check --download' on_far check --download tree "${far}tree"
    step 'a file is moved' on_far moveto "${far}tree/deep/big" "${far}tree/moved"
    step 'and read' cmp tree/deep/big <(on_far cat "${far}tree/moved")
    step 'times are kept' test "$(on_far lsf --format t "${far}tree/numbers")" = "$(date -r tree/numbers '+%F %T')"
    step 'purge' on_far purge "${far}tree"
    [ "$(hail_files)" -eq 2 ] || wrong "a purge leaves $(hail_files) files"
    kill "$(cat pid)"
}

# git-annex's own test of a remote: with and without chunks and encryption, as it tries them itself.
annex_suite() {
    have git git-annex gpg || return
    new_set 2
    git init -q repo && cd repo && git annex init -q here >../said 2>&1 || wrong 'git-annex does not begin'
    git annex initremote -q hail type=external externaltype=hail homes=../h0:../h1 chunk=4MiB encryption=none >../said 2>&1 || wrong "initremote: $(cat ../said)"
    step 'testremote --fast' git annex testremote --fast --size="${SIZE:-1MiB}" hail
    step 'testremote' git annex testremote --size="${SIZE:-1MiB}" hail
    grep -A 2 '^All' said
}

# Keys with an encryption, and losses between copies.
annex_life() {
    have git git-annex gpg || return
    new_set 2
    git init -q repo && cd repo && git annex init -q here >../said 2>&1 && git config annex.numcopies 1
    mkdir photos && for k in 1 2 3; do head -c $((bytes / 40)) /dev/urandom >"photos/p $k.jpg"; done
    head -c $((bytes / 6)) /dev/urandom >film.avi && : >empty && git annex add -q . && git commit -qm x
    find . -name .git -prune -o -type l -print | sort | xargs -d '\n' sha256sum >../sums
    git annex initremote -q hail type=external externaltype=hail homes=../h0:../h1 chunk=4MB encryption=shared >../said 2>&1 || wrong 'initremote'
    same() { git annex get -q . && sha256sum -c --quiet ../sums; }
    step 'copy' git annex copy -q --to hail .
    step 'drop here: each is read back first' git annex drop -q .
    lose 2
    step 'provider 2 is lost: get' same
    step 'fsck' git annex fsck -q --from hail .
    each_home audit >../said && each_home repair >../said || wrong 'no repair'
    alter 5 128
    git annex drop -q . || wrong 'no drop while blocks are altered'
    step 'blocks of provider 5 are altered: get' same
    each_home scrub >../said || wrong 'no scrub'
    lose 1 && lose 4
    git annex drop -q . >../said 2>&1 && wrong 'a copy is dropped that could not be read back'
    [ -z "$(git annex find --not --in here)" ] || wrong 'a last copy is gone'
}

# MB/s of what restic read, over hail-sftp and over its local store, in turn.
speed() {
    have restic python3-paramiko || return
    local turn
    bytes=${3:-$bytes}
    new_set 3
    make_tree tree "$bytes"
    echo "$bytes bytes, $(df --output=fstype . | tail -n 1), $(nproc) processors,$(uptime | sed 's/.*load/ load/')"
    rate() {
        local label=$1 since=$EPOCHREALTIME
        shift
        "$@" >said 2>&1 || wrong "$label: $(tail -n 3 said)"
        awk -v label="$label" -v since="$since" -v now="$EPOCHREALTIME" -v bytes="$bytes" \
            'BEGIN { printf "%-28s %7.1f s %7.2f MB/s\n", label, now - since, bytes / (now - since) / 1e6 }'
    }
    on_hail init && restic -q -r plain init || wrong 'no repository'
    for turn in 1 2; do
        rate "local backup" restic -q -r plain backup --force tree
        rate "hail backup" on_hail backup tree
        rm -rf back; rate 'local restore' restic -q -r plain restore latest --target back
        rm -rf back; rate 'hail restore' on_hail restore latest --target back
        rate 'local check --read-data' restic -q -r plain check --read-data
        rate 'hail check --read-data' on_hail check --read-data
        head -c "$((bytes / 2))" /dev/urandom >tree/deep/big && rm -r tree/deep/er && bytes=$((bytes / 2))
    done
    uptime
}

if [ "${1-}" = speed ]; then
    cd "$scratch" && speed "$@"
    exit $failed
fi
for test in ${*:-restic_life kills at_once full power sshfs rclone annex_suite annex_life}; do
    mkdir "$scratch/$test" && cd "$scratch/$test" || exit 1
    echo "== $test"
    "$test"
done
exit $failed
