#!/bin/bash
# A store whose providers are mounts, by sshfs (a server of this user alone, behind a pipe) and by NFS, as folders and as stacks, and by rclone
# (without a cache), as folders; stacks are refused there: storage.sh [sshfs] [rclone] [nfs]
# Each provider is a link to a folder inside its mount. A file is put, given and audited. Then a mount ends: a put and a repair are told as
# its fault, the file comes back, the audit flags it, and nothing lands in the folder below. Mounted again it is repaired. With sshfs the
# server also dies in the midst of a put: the old file or the new one is there, and the new one where it was told as stored; and where
# the provider is the mount itself, what lands in the folder below is not told as stored.
# It tells each case that goes otherwise, ends with 0 exactly where none does, and leaves nothing behind. A kind of mount that can't be had
# here is named, and not tried: on Debian the packages sshfs, openssh-server (its sftp-server) and rclone, with /dev/fuse; nfs-kernel-server
# (it must run) and nfs-common, for root.
set -u

tools=${TOOLS:-$(CDPATH='' cd -P -- "$(dirname "$0")/../tools" && pwd -P)}
. "$(dirname "$0")/common.sh"
trap 'leave' EXIT
program=${HAIL:-$(dirname "$hail")/out/hail}

# Ends a mount, if it is one.
end_mount() {
    local try
    for try in 1 2 3 4 5 6 7 8 9 10; do
        mountpoint -q "$scratch/near/$1" || return 0
        fusermount3 -u "$scratch/near/$1" 2>/dev/null || umount "$scratch/near/$1" 2>/dev/null || sleep 0.2
    done
    fusermount3 -u -z "$scratch/near/$1" 2>/dev/null || umount -l "$scratch/near/$1"
}

end_all() {
    local place
    for place in 0 1 2 3 4 5; do end_mount $place; done
    [ "${kind-}" != nfs ] || exportfs -u "127.0.0.1:$scratch/far" 2>/dev/null
    wait
}

leave() {
    end_all
    cd / && rm -rf "$scratch"
}

"$hail" - row 4 1 1 7 7 7 9 >/dev/null || { echo 'storage: there is no program' >&2; exit 1; }

# Waits until a mount is there.
is_mounted() {
    local try
    for try in $(seq 50); do
        mountpoint -q "$scratch/near/$1" && return 0
        sleep 0.1
    done
    return 1
}

# Mounts the far folder of this number; its server's process is in `server-N`.
mount_by_sshfs() {
    printf '#!/bin/sh\necho $$ >"%s"\nexec /usr/lib/openssh/sftp-server\n' "$scratch/server-$1" >connect-$1
    chmod +x connect-$1
    sshfs -o ssh_command="$scratch/connect-$1" "here:$scratch/far/$1" "$scratch/near/$1" && is_mounted "$1"
}

mount_by_rclone() {
    rclone mount "$scratch/far/$1" "$scratch/near/$1" --vfs-cache-mode off --config /dev/null >>rclone.log 2>&1 &
    is_mounted "$1"
}

# One export of this machine holds all far folders.
mount_by_nfs() {
    exportfs -i -o rw,sync,no_root_squash,no_subtree_check,fsid=7100 "127.0.0.1:$scratch/far" >>nfs.log 2>&1 &&
        mount -t nfs -o hard,vers=4.2 "127.0.0.1:$scratch/far/$1" "$scratch/near/$1" >>nfs.log 2>&1 && is_mounted "$1"
}

# The command ends so, and writes these lines: ends STATUS LINES WORDS, with the input of `source`.
ends() {
    local status=$1 lines=$2
    shift 2
    timeout 60 "$program" home "$@" <"$source" >out 2>err
    [ "$? $(cat out err)" = "$status $lines" ] || wrong "$kind: $* says $(cat out err)"
    source=/dev/null
}

# The file comes back as it was put.
given() {
    timeout 60 "$program" home get file </dev/null >back 2>err && cmp -s back "$1" || wrong "$kind: the file is not given $2: $(cat err)"
}

# The audit flags just these.
flags() {
    timeout 60 "$program" home audit </dev/null >out 2>err || wrong "$kind: an audit says $(cat err)"
    [ "$(awk '$NF == "flagged" { print $2 }' out)" = "$1" ] || wrong "$kind: an audit says $(cat out)"
}

# Six mounts, and a store on them.
begin() {
    local place
    rm -rf home far near
    mkdir home far near
    for place in 0 1 2 3 4 5; do
        mkdir far/$place near/$place
        "mount_by_$kind" $place || return 1
        mkdir near/$place/hail
        ln -s "$scratch/near/$place/hail" home/provider-$place
        [ "$form" = folders ] || : >home/stack-$place
    done
    head -c 32 /dev/urandom | od -An -v -tx1 | tr -d ' \n' >key
    source=key && ends 0 ready init 6 3 1 4 4 8 0
}

# The mount of provider 2 ends, and comes back.
mount_ends() {
    given first 'over mounts'
    flags ''
    [ "$(ls far/2/hail | wc -l)" -eq "$(ls far/3/hail | wc -l)" ] || wrong "$kind: a mount misses blocks"
    end_mount 2
    source=second && ends 13 'hail: provider fault 2' put file
    given first 'without a mount'
    flags 2
    ends 13 'hail: provider fault 2' repair
    [ -z "$(ls -A near/2)" ] || wrong "$kind: blocks land below a mount that is gone"
    "mount_by_$kind" 2 || wrong "$kind: no second mount"
    ends 0 'repaired 2' repair
    flags ''
    source=second && ends 0 'stored file 50000' put file
    given second 'after the mount is back'
}

# The server of provider 2 dies in a put.
server_dies() {
    timeout 60 "$program" home put file <third >out 2>err &
    sleep 0.3
    kill -9 "$(cat server-2)" 2>/dev/null
    wait $!
    case $? in
        0) given third 'after a put whose server died behind it' ;;
        12 | 13) given second 'after a put whose server died' ;;
        *) wrong "$kind: a put whose server dies says $(cat err)" ;;
    esac
    [ -z "$(ls -A near/2 2>/dev/null)" ] || wrong "$kind: blocks land below a mount whose server died"
}

# A mount that is the provider's folder itself ends in a put: blocks may land below it, and are not told as stored.
bare_mount_ends() {
    end_mount 2
    mount_by_sshfs 2 || wrong "$kind: no third mount"
    rm home/provider-2
    ln -s "$scratch/near/2" home/provider-2
    timeout 60 "$program" home put file <third >out 2>err &
    until [ "$(ls far/2 | wc -l)" -gt $([ "$form" = stacks ] && echo 1 || echo 5) ] || ! kill -0 $! 2>/dev/null; do :; done
    until fusermount3 -u near/2 2>/dev/null; do mountpoint -q near/2 || break; done
    wait $!
    case $? in
        0) [ -z "$(ls -A near/2 2>/dev/null)" ] || wrong "$kind: blocks below a mount that ended are told as stored" ;;
        12 | 13) ;;
        *) wrong "$kind: a put whose mount ends says $(cat err)" ;;
    esac
}

# A put to stacks over a mount that can't read what is being written ends with 13, and no file is there by it. Turned into folders they take it.
stacks_are_refused() {
    local place
    source=first && ends 13 'hail: provider fault 0' put file
    source=/dev/null && ends 0 '' list
    for place in 0 1 2 3 4 5; do "$tools/hail-stack" home $place back >out 2>&1 || wrong "$kind: hail-stack back says $(cat out)"; done
    source=first && ends 0 'stored file 40000' put file
    given first 'from stacks that became folders'
}

# The tools of the kind of mount are there, and what mounts it.
can_mount() {
    local tool tools
    case $kind in
        sshfs) tools='fusermount3 sshfs /usr/lib/openssh/sftp-server' ;;
        rclone) tools='fusermount3 rclone' ;;
        nfs) tools='exportfs mount.nfs' ;;
    esac
    for tool in $tools; do
        command -v "$tool" >/dev/null 2>&1 || { echo "storage: $kind is not tried, there is no $tool"; return 1; }
    done
    if [ "$kind" = nfs ]; then
        [ "$(cat /proc/fs/nfsd/threads 2>/dev/null || echo 0)" -gt 0 ] || { echo 'storage: nfs is not tried, there is no server'; return 1; }
    else
        [ -w /dev/fuse ] || { echo "storage: $kind is not tried, there is no /dev/fuse"; return 1; }
    fi
}

# The story of one kind of mount and one form of folders, where it can be had.
try_kind() {
    kind=$1 form=$2
    can_mount || return 0
    begin || { echo "storage: $kind is not tried, nothing can be mounted"; return 0; }
    if [ "$kind $form" = 'rclone stacks' ]; then
        stacks_are_refused
    else
        source=first && ends 0 'stored file 40000' put file
        mount_ends
        [ "$kind" != sshfs ] || { server_dies; bare_mount_ends; }
    fi
    end_all
}

head -c 40000 /dev/urandom >first
head -c 50000 /dev/urandom >second
head -c 300000 /dev/urandom >third
for each in ${*:-sshfs rclone nfs}; do
    try_kind "$each" folders
    try_kind "$each" stacks
done
exit $failed
