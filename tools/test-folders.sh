#!/bin/bash
# Tests of hail-sftp and git-annex-remote-hail over real homes: the fast part, for the gate. test-folders.sh NAME .. runs these tests alone. What
# needs a package that is missing (python3, python3-paramiko, restic, git-annex) is passed over, and told. demo/folders.sh has the long ones.
# Homes are made in memory where that can be: a put's time is its syncs.
set -u

called=folders room=/dev/shm
. "$(dirname "$0")/test-lib.sh"
without_launcher
export HOME=$scratch TMPDIR=$scratch XDG_CACHE_HOME=$scratch/cache

# A home at 5 2 1, and a set of it.
new_home() {
    make_key | "$TOOLS/hail-init" "$1" 5 2 1 4 16 64 0 >out && "$TOOLS/hail-sftp" --init "$1" || wrong "no home $1"
}

# The modules of tests, each by itself.
modules() {
    local module running=() names=("$@")
    have /usr/bin/python3 || return
    is_there python3-paramiko || echo 'folders: there is no python3-paramiko: tests of hail-sftp are passed over' >&2
    for module in "${names[@]}"; do
        (cd "$root/tools" && /usr/bin/python3 -B -m unittest "folders_tests.$module") >"$scratch/$module.log" 2>&1 &
        running+=($!)
    done
    for module in "${!running[@]}"; do
        wait "${running[module]}" || { wrong "${names[module]} goes otherwise"; cat "$scratch/${names[module]}.log" >&2; }
    done
}

python() {
    modules test_forms test_sftp test_cuts test_annex
}

# The client of OpenSSH, over a home whose name has a blank.
openssh() {
    have sftp python3-paramiko || return
    new_home 'a home'
    seq 1 9000 >file
    printf '%s\n' 'mkdir d' 'put file d/one' 'rename d/one d/two' 'get d/two back' '-rename d nowhere' 'ls -l d' 'df' >batch
    sftp -q -b batch -D "$TOOLS/hail-sftp '$PWD/a home'" >out 2>err || wrong "sftp ends otherwise: $(tail -n 2 out err)"
    cmp file back || wrong 'a file comes back otherwise'
    grep -q '^-rw------- .* 43893 .* two$' out || wrong "it lists $(cat out)"
}

# restic's life in short, with a provider lost on the way, and all that is kept beside the home's files.
restic_life() {
    have restic python3-paramiko || return
    new_home home
    export RESTIC_PASSWORD=a
    restic() { command restic -q -o sftp.command="$TOOLS/hail-sftp $PWD/home" -r sftp:x:/repo "$@"; }
    mkdir -p tree/deep && seq 1 40000 >tree/numbers && head -c 300000 /dev/urandom >tree/deep/random && : >tree/empty
    restic init >out 2>&1 && restic backup tree >out 2>&1 || wrong "no backup: $(cat out)"
    rm -r home/provider-1 home/folders
    restic check --read-data >out 2>&1 || wrong "check: $(cat out)"
    "$HAIL" home audit >out && "$HAIL" home repair >out || wrong "no repair: $(cat out)"
    rm -r home/provider-4
    restic restore latest --target back >out 2>&1 && diff -r tree back/tree || wrong "no restore: $(cat out)"
    unset -f restic
}

# git-annex's own test of a remote, fast.
annex() {
    have git git-annex || return
    export PATH=$TOOLS:$PATH GIT_AUTHOR_NAME=a GIT_AUTHOR_EMAIL=a@b GIT_COMMITTER_NAME=a GIT_COMMITTER_EMAIL=a@b
    make_key | "$TOOLS/hail-init" home 4 1 1 4 4 8 0 >out || wrong "no home: $(cat out)"
    git init -q repo && cd repo && git annex init -q here >out 2>&1 || wrong "git-annex does not begin: $(cat out)"
    git annex initremote -q hail type=external externaltype=hail homes=../home chunk=4MiB encryption=none >out 2>&1 || wrong "initremote: $(cat out)"
    git annex testremote --fast --size=20000 hail >out 2>&1 || { wrong 'testremote --fast fails'; tail -n 30 out >&2; }
}

run_all ${*:-python openssh restic_life annex}
exit $failed
