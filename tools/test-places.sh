# Tests of what the companions do where a home lies oddly, has no room, or is called twice at once: sourced by test.sh, whose functions they use.

# The journal may lie elsewhere, behind a link: what it leads to is restored, and never a journal beside it.
linked_journal() {
    new_home 6 3 1 1 4 8 0
    copy_journal
    mkdir disk && mv home/journal disk/ && ln -s "$PWD/disk/journal" home/journal
    seq 1 20 | "$HAIL" home put fourth >out
    for tool in watch gc verify 'watch -j'; do says 0 '' hail-$tool home; done
    head -c 9 disk/journal >short && cat short >disk/journal
    says 1 'restored: the next put has number 7
number 4: a file that was put since the copy, whose name is lost; hail-salvage may join its bytes' hail-restore home copy 3
    [ -L home/journal ] && [ -e disk/journal.before ] && [ ! -e disk/journal.new ] && [ "$(ls home | grep -c journal)" -eq 1 ] ||
        wrong "hail-restore over a link leaves $(ls home disk)"
    says 0 '' hail-watch home
    mv disk away
    "$tools/hail-watch" home >out
    [ $? -eq 3 ] || wrong "a journal that is away is watched with $(cat out)"
    says 2 '' hail-restore home copy 3
    told 'home/journal is a link that leads nowhere: bring back what it leads to'
    "$tools/hail-rebuild" home 6 3 1 1 4 8 0 <key >out 2>err
    [ "$? $(cat err)" = "1 hail-rebuild: $PWD/home/journal is there: see hail-restore" ] || wrong "over a journal that is away hail-rebuild says $(cat out err)"
    mv away disk
    says 0 '' hail-verify home
}

# Paths of a home, and of what is written for a while, with spaces, newlines, backslashes and what shells and awk take otherwise.
odd_paths() {
    local folder=$'odd = "\\t" $(x)\n * \'y\'' home
    mkdir -p "$folder/tmp" "$folder/back"
    export TMPDIR="$PWD/$folder/tmp"
    new_home 6 3 1 1 4 8 0
    home="$folder/ home"
    mv home "$home"
    says 0 '' hail-watch "$home"
    "$HAIL" "$home" upgrade >out && "$HAIL" "$home" pack >out
    cp "$home/journal" "$folder/copy" && sha256sum <"$folder/copy" >"$folder/copy.sum"
    for tool in watch gc verify 'watch -j'; do says 0 '' hail-$tool "$home"; done
    ln -s "$PWD/back" here && mkdir back && echo "$PWD/here" >"$home/copies"
    says 0 '' hail-keep "$home"
    [ -s back/journal ] || wrong 'a home in an odd path is not copied'
    says 0 '1 4 1536 notes 1492
2 2 768 other 692
3 3 1152 third 1092' hail-salvage "$home" 3
    "$tools/hail-salvage" "$home" 3 2 2>err | head -c 692 | cmp -s - <(seq 1 200) || wrong "of a home in an odd path is salvaged otherwise: $(cat err)"
    rm "$home/provider-1/2-1"
    "$tools/hail-salvage" "$home" 3 2 >out 2>err
    told 'are missing, and zero here'
    says 1 'other: comes back; wrong blocks at provider 1' hail-verify "$home"
    "$HAIL" "$home" scrub >out
    says 0 '' hail-stack "$home" 2
    says 3 '' hail-restore "$home" "$folder/copy" 5
    rm "$home/journal"
    says 3 '' hail-restore "$home" "$folder/copy" 5
    told 'has a newer copy than'
    cp back/journal "$folder/copy" && sha256sum <"$folder/copy" >"$folder/copy.sum"
    says 0 'restored: the next put has number 9' hail-restore "$home" "$folder/copy" 5
    put_of_eight "$home" && rm "$home/journal" back/journal*
    "$tools/hail-rebuild" "$home" 6 3 1 1 4 8 0 <key >out 2>err || wrong "a home in an odd path is rebuilt with $(cat out err)"
    [ -z "$(ls -A "$TMPDIR")" ] || wrong "below an odd TMPDIR is left $(ls -A "$TMPDIR")"
}
put_of_eight() {
    echo eight | "$HAIL" "$1" put eight >out || wrong "a put into an odd path says $(cat out)"
}

# The test that calls this goes on where it has mounts of its own, for which it is run once more.
in_own_mounts() {
    [ -z "${OWN_MOUNTS-}" ] || return 0
    unshare -m true 2>/dev/null || { echo "tools: there can be no mounts of one's own: ${FUNCNAME[1]} is passed over" >&2; return 1; }
    OWN_MOUNTS=1 TMPDIR=$scratch unshare -m "$root/tools/test.sh" "${FUNCNAME[1]}" || failed=1
    return 1
}

# A home that can't be written: who only reads it does so, and all others say that they can't.
read_only_home() {
    local tool
    in_own_mounts || return 0
    new_home 6 3 1 1 4 8 0
    put_fails 3 fourth 600
    copy_journal
    mkdir back && echo "$PWD/back" >home/copies
    mount --bind home home && mount -o remount,bind,ro home || { wrong 'no mount can be read-only'; return; }
    says 0 '' hail-verify home
    says 0 'provider-0/4-0
provider-1/4-0
provider-2/4-0' hail-gc home
    says 0 '' hail-watch -j home
    says 4 'hail-watch: hail: disk fault' hail-watch home
    says 1 '' hail-gc home remove
    says 4 '' hail-restore home copy 5
    says 4 '' hail-stack home 2
    says 12 '' hail-keep home drop notes
    says 0 '' hail-keep home
    says 3 '' hail-init home 6 3 1 1 4 8 0
    umount home
    says 0 '' hail-verify home
    says 0 '' hail-keep -c home
    [ "$(ls -A home | tr '\n' ' ')" = 'copies journal provider-0 provider-1 provider-2 provider-3 provider-4 provider-5 ' ] || wrong "a home that was read-only has $(ls -A home)"
}

# A command that keeps the home, and an audit that does not end: hail-watch waits for neither longer than it is told to, and says so.
held_home() {
    local holder what
    new_home 6 3 1 1 4 8 0
    mkdir remote-2 && echo '2 false' >home/remotes && mv remote-2 home/
    for what in home home/remotes; do
        (flock 9 && : >locked && exec sleep 97.6) 9<"$what" &
        holder=$!
        until [ -e locked ]; do sleep 0.1; done
        says 4 '' hail-watch -t 1 -w 5 home
        told "another command has had home for 1 seconds: where it stands at a mount that hangs, end the process of the mount"
        kill "$holder" && wait "$holder"
        rm -r locked
    done 2>/dev/null
    rm -r home/remote*
    printf '#!/bin/bash\n[ "$2" != audit ] || { echo $$ >auditing; exec sleep 97.5; }\nexec "%s" "$@"\n' "$HAIL" >slow && chmod +x slow
    HAIL=$PWD/slow says 4 '' hail-watch -t 1 -w 5 home
    told 'the audit goes on for 6 seconds, and has home till it ends: where a mount hangs, end the process of the mount'
    kill "$(cat auditing)"
    says 0 '' hail-watch -t 60 home
}

# A mount that hangs once it has answered holds the audit, and so the home, until its process ends. Nobody waits for it in silence.
hanging_mount() {
    in_own_mounts || return 0
    have sshfs /usr/lib/openssh/sftp-server || return
    new_home 6 3 1 1 4 8 0
    mkdir far mnt && mv home/provider-2 far/two && ln -s "$PWD/mnt/two" home/provider-2
    printf '#!/bin/sh\necho $$ >"%s/server"\nexec /usr/lib/openssh/sftp-server\n' "$PWD" >connect && chmod +x connect
    sshfs -o dir_cache=no,entry_timeout=0,attr_timeout=0,ssh_command="$PWD/connect" "here:$PWD/far" mnt 2>err || { echo "tools: sshfs mounts nothing: hanging_mount is passed over: $(cat err)" >&2; return; }
    says 0 '' hail-watch home
    kill -STOP "$(cat server)"
    says 4 'provider 2 does not answer' hail-watch -w 2 home
    kill -CONT "$(cat server)"
    says 0 '' hail-watch home
    printf '#!/bin/bash\n[ "$2" != audit ] || kill -STOP "$(cat server)"\nexec "%s" "$@"\n' "$HAIL" >stopping && chmod +x stopping
    HAIL=$PWD/stopping says 4 '' hail-watch -t 1 -w 5 home
    told 'the audit goes on for 6 seconds'
    says 4 '' hail-watch -t 1 -w 2 home
    told 'another command has had home for 1 seconds'
    kill -KILL "$(cat server)"
    [ "$("$HAIL" home list | wc -l)" -eq 3 ] || wrong 'behind the end of a mount there is no list'
    umount -l mnt 2>/dev/null
    sshfs -o ssh_command="$PWD/connect" "here:$PWD/far" mnt || wrong 'there is no second mount'
    "$HAIL" home repair >out 2>&1
    says 0 '' hail-watch home
    says 0 '' hail-verify home
    umount mnt
}

# A disk without room: each companion says so, nothing is lost, and with room again each ends well.
full_disk() {
    in_own_mounts || return 0
    mkdir disk && mount -t tmpfs -o size=2m none disk || { wrong 'no disk can be made'; return; }
    new_home 6 3 1 1 4 8 0
    mkdir disk/back && mv home disk/ && ln -s disk/home home && echo "$PWD/disk/back" >home/copies
    copy_journal && cp copy copy.sum disk/
    fill_disk
    seq 1 4000 | "$tools/hail-keep" home put fourth >out 2>err
    [ "$? $(head -n 1 err)" = '13 hail: provider fault 0' ] || wrong "without room a put says $(cat out err)"
    told 'no copy of the journal'
    says 1 '' hail-keep home
    told 'no copy of the journal'
    says 3 '' hail-stack home 2
    [ ! -e home/stack-2 ] || wrong 'a folder became a stack where there was no room'
    says 0 '' hail-verify home
    : >home/journal
    fill_disk
    says 4 '' hail-restore home disk/copy 3
    [ ! -e home/journal.new ] || wrong 'hail-restore without room leaves its draft'
    says 4 '' hail-init disk/new 6 3 1 1 4 8 0
    rm disk/filler
    says 0 'restored: the next put has number 8' hail-restore home disk/copy 4
    says 0 '' hail-keep home
    says 0 '' hail-stack home 2
    says 0 '' hail-gc home remove
    says 0 '' hail-verify home
    "$tools/hail-init" disk/new 6 3 1 1 4 8 0 <key >out 2>err || wrong "with room again hail-init says $(cat out err)"
    umount disk
}
fill_disk() {
    cat /dev/zero >>disk/filler 2>/dev/null
}

# Two calls at once of this companion; `ended` has both statuses.
both() {
    local first
    "$tools/$1" "${@:2}" >out-1 2>err-1 <key &
    first=$!
    "$tools/$1" "${@:2}" >out-2 2>err-2 <key
    ended=$?
    wait "$first"
    ended=$(printf '%s\n' "$?" "$ended" | sort -n | tr '\n' ' ')
}

# Two calls of a companion at once end as one behind the other.
two_at_once() {
    local ended
    new_home 6 3 1 1 4 8 0
    put_fails 3 fourth 600
    both hail-gc home remove
    [ "$ended" = '0 0 ' ] && [ ! -e home/provider-0/4-0 ] || wrong "two hail-gc at once end with $ended: $(cat err-1 err-2)"
    both hail-watch home
    [ "$ended" = '0 0 ' ] || wrong "two hail-watch at once end with $ended: $(cat out-1 out-2)"
    mkdir back && echo "$PWD/back" >home/copies
    both hail-keep home
    [ "$ended" = '0 0 ' ] || wrong "two hail-keep at once end with $ended: $(cat err-1 err-2)"
    says 0 '' hail-keep -c home
    copy_journal && rm home/journal
    both hail-restore home copy 4
    [ "$ended" = '0 3 ' ] || wrong "two hail-restore at once end with $ended: $(cat out-1 out-2)"
    both hail-stack home 2
    [ "$ended" = '0 0 ' ] || wrong "two hail-stack at once end with $ended: $(cat out-1 out-2)"
    rm home/journal back/journal*
    both hail-rebuild home 6 3 1 1 4 8 0
    [ "$ended" = '0 1 ' ] || wrong "two hail-rebuild at once end with $ended: $(cat out-1 out-2 err-1 err-2)"
    says 0 '' hail-verify home
    both hail-init -s new 6 3 1 1 4 8 0
    [ "$ended" = '0 4 ' ] || [ "$ended" = '0 2 ' ] || wrong "two hail-init at once end with $ended: $(cat err-1 err-2)"
    [ "$(ls new | grep -c stack)" -eq 6 ] || wrong "two hail-init at once leave $(ls new)"
}

# Provider 2 goes away, in a way of this number, and comes back.
goes_away() {
    case $1 in
        0) mv "$far" "$far.away" ;;
        1) umount "$far" ;;
        2) ln -sfnT nowhere home/provider-2 ;;
    esac
}
comes_home() {
    case $1 in
        0) mv "$far.away" "$far" ;;
        1) mount --bind disk "$far" ;;
        2) ln -sfnT "$far/two" home/provider-2 ;;
    esac
}

# A mount that comes and goes before so many audits, AUDITS of them: at the end nothing was damaged, and no repair is due. It may be gone three
# times in a row; from then on it is audited all the same.
coming_and_going() {
    local far=$PWD/mnt ways=(0 2) way='' time gone=0 audited=0
    new_home 6 3 1 1 4 8 0
    mkdir mnt disk && mv home/provider-2 disk/two
    if [ -n "${OWN_MOUNTS-}" ]; then ways=(1 2) && mount --bind disk mnt; else rmdir mnt && mv disk mnt; fi
    ln -s "$far/two" home/provider-2
    for ((time = 1; time <= ${AUDITS:-12}; time++)); do
        if [ -z "$way" ] && ((time * 7919 % 3 < 2)); then
            way=${ways[time % ${#ways[@]}]} && goes_away "$way"
        elif [ -n "$way" ] && ((gone == 3 || time * 104729 % 5 < 2)); then
            comes_home "$way" && way='' gone=0
        fi
        if [ -z "$way" ]; then
            says 0 '' hail-watch home && audited=$((audited + 1))
        else
            says 4 'provider 2 does not answer' hail-watch home && gone=$((gone + 1))
        fi
    done
    [ -z "$way" ] || comes_home "$way"
    [ "$audited" -ge $((${AUDITS:-12} / 4)) ] || wrong "of ${AUDITS:-12} times $audited were audits"
    [ "$("$HAIL" home repair 2>&1)" = 'hail: nothing due' ] || wrong 'a repair is due where nothing was damaged'
    says 0 '' hail-watch home
    says 0 '' hail-verify home
    for time in 1 2 3; do mv "$far/two" "$far/three" && says 4 'provider 2 does not answer' hail-watch home && mv "$far/three" "$far/two"; done
    mv "$far/two" "$far/three"
    says 1 'provider 2 does not answer
provider 2 is flagged' hail-watch home
}
coming_and_going_mounts() {
    in_own_mounts || return 0
    coming_and_going
    umount mnt
}

# The launcher of a package: it warns of blocks, refuses an older half of the journal, bears a limit of the size of files, and tells what to do.
launched() {
    local tool hail=$PWD/package/bin/hail
    make_launcher
    new_home 6 3 1 1 4 8 0
    rm home/journal
    "$hail" home init 6 3 1 1 4 8 0 <key >out 2>err
    told 'home/provider-0/ holds blocks, which a new store destroys; see hail-init'
    new_home 6 3 1 1 4 8 0
    "$HAIL" home upgrade >out
    (ulimit -c 0; ulimit -f 1; seq 1 4000 | "$hail" home put long 4 >out 2>err)
    [ "$? $(cat err)" = '13 hail: provider fault 0' ] || wrong "with a limit of the size of files a put says $(cat out err)"
    "$HAIL" home pack >out
    seq 1 20 | "$hail" home put more >out 2>err || wrong "a put by the launcher says $(cat out err)"
    set_switch 1
    for tool in home linked; do
        for word in 'put more' 'drop notes' audit repair pack upgrade replay 'trial 7'; do
            seq 1 20 | "$hail" $tool $word >out 2>err
            [ $? -eq 8 ] || wrong "over an older half of the journal the launcher says $(cat out err)"
            told 'the half that it names is older than the other'
        done
        [ "$("$hail" $tool list | wc -l)" -eq 3 ] || wrong 'over an older half there is no list'
        rm -rf linked && cp -a home linked && mv linked/journal . && ln -s ../journal linked/journal
    done
    rm -r package/lib/hail/program && printf '#!/bin/sh\necho "hail: provider fault 2" >&2\nexit 13\n' >package/lib/hail/program && chmod +x package/lib/hail/program
    have script || return
    script -qec "'$hail' home list" typed </dev/null >out
    grep -q '^13: that provider refuses writes' out || wrong "on a terminal is told $(cat out)"
}
