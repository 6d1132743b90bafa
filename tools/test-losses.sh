# Tests of what the companions do so that no file is lost by them: sourced by test.sh, whose functions they use.

# A put that was under way when the copy was made is told behind the restore, and hail-gc leaves its blocks until the number is named.
copy_during_put() {
    new_home 6 3 1 1 4 8 0
    head -c 900 /dev/urandom >during
    { head -c 500 during; until [ -e copied ]; do sleep 0.1; done; tail -c 400 during; } | "$HAIL" home put during >said &
    until [ -e home/provider-5/4-0 ]; do sleep 0.1; done
    copy_journal
    : >copied
    wait $!
    "$HAIL" home get during | cmp -s - during || wrong "a slow put says $(cat said)"
    rm home/journal
    says 1 'restored: the next put has number 8
number 4: during, whose put was under way when the copy was made; hail-salvage may join its bytes' hail-restore home copy 3
    says 0 '' hail-gc home remove
    told "number 4 has no name, but may be a whole file (a put of during that did not end, by the journal); 'hail-gc HOME remove 4' removes it"
    [ "$(ls home/provider-?/4-? | wc -l)" -eq 18 ] || wrong 'hail-gc takes a whole file'
    "$tools/hail-salvage" home 3 4 2>err | head -c 900 | cmp -s - during || wrong 'what was put during a copy is not salvaged'
    says 0 '' hail-gc home remove 4
    says 0 '' hail-verify home
}

# A store of two files behind an upgrade, and a copy of its journal.
two_files() {
    rm -rf home
    make_key >key
    "$tools/hail-init" -f home 6 3 1 1 4 8 0 <key >out
    seq 1 100 | "$HAIL" home put a >out
    seq 1 200 | "$HAIL" home put b >out
    "$HAIL" home upgrade >out
    copy_journal
}
copy_journal() {
    cp home/journal copy && sha256sum copy >copy.sum
}

# A copy never gets the place of a journal that may be newer, where a pack left the numbers and shortened the text.
restoring_over_packed() {
    two_files
    "$HAIL" home drop a >out && "$HAIL" home pack >out
    says 3 '' hail-restore home copy 5
    told 'has given the same numbers as the copy: nothing tells which is older'
    [ "$("$HAIL" home list)" = 'b 692' ] || wrong 'an older copy got the place of a packed journal'
    two_files
    rm -r home/provider-2
    "$HAIL" home audit >out && copy_journal && "$HAIL" home repair >out && "$HAIL" home pack >out
    says 3 '' hail-restore home copy 5
    two_files
    cp home/journal older && "$HAIL" home drop a >out && "$HAIL" home pack >out && copy_journal && cp older home/journal
    says 3 '' hail-restore home copy 5
    told 'only where you know that the copy is newer, move'
    rm home/journal
    says 0 'restored: the next put has number 8' hail-restore home copy 5
    copy_journal && mv home/journal older && "$HAIL" - row 4 1 1 7 7 7 9 >out && cp older home/journal
    "$HAIL" home drop b >out
    says 3 '' hail-restore home copy 0
    told 'the journal in its place is sound and newer than the copy'
    copy_journal && cp older home/journal
    says 0 'restored: the next put has number 8' hail-restore home copy 0
    [ -z "$("$HAIL" home list)" ] || wrong 'a copy that goes on where the journal ends is not restored'
}

# The eighth byte of the journal is written anew.
set_switch() {
    printf "$1" | dd of=home/journal bs=1 seek=7 conv=notrunc status=none
}

# An altered eighth byte brings an older list back, and numbers would be given twice: each companion stops, and the journal itself mends it.
altered_switch() {
    local byte tool
    rm -rf home
    make_key | "$tools/hail-init" -f home 5 2 1 0 1 1 0 >out
    "$HAIL" home upgrade >out && "$HAIL" home pack >out
    says 0 '' hail-watch -j home
    echo f | "$HAIL" home put f >out && "$HAIL" home drop f >out
    for byte in '3' '1' '\0'; do
        set_switch "$byte"
        [ -z "$("$HAIL" home list)" ] || wrong 'the older half lists other files'
        for tool in watch 'watch -j'; do
            says 3 'the eighth byte of home/journal was altered: the half that it names is older than the other; put nothing
hail-watch: "hail-restore HOME HOME/journal" takes the newer half' hail-$tool home
        done
        for tool in gc verify; do
            says 3 '' hail-$tool home
            told 'was altered: the half that it names is older than the other'
        done
    done
    says 0 'restored: the next put has number 2' hail-restore home home/journal
    says 0 '' hail-watch home
    echo g | "$HAIL" home put g >out
    [ -e home/provider-0/2-0 ] || wrong "behind an altered byte a number is given twice: $(ls home/provider-0)"
    says 3 '' hail-restore home home/journal
    told 'as new as the other; nothing is restored'
    "$HAIL" home pack >out
    echo h | "$HAIL" home put h >out
    set_switch 2
    says 3 '' hail-gc home
    "$HAIL" home audit >older 2>err # in the half that is older: the launcher refuses it; the program draws a number, which is passed over
    "$tools/hail-restore" home home/journal >out 2>err </dev/null || wrong "hail-restore of a journal by its newer half says $(cat out err)"
    "$HAIL" home audit >out
    [ "$(awk '{ print $2; exit }' out)" -gt "$(awk '{ number = $2 } NR == 1 { print number; exit }' older | grep . || echo 1)" ] ||
        wrong "behind a restore an audit says $(head -n 1 out), before it $(head -n 1 older)"
    set_switch 2
    copy_journal
    rm home/journal
    says 3 '' hail-restore home copy
    told 'copy is no copy to restore: its eighth byte was altered'
}

# Under the journal of another home nothing is done, though its numbers are the same.
other_home() {
    local tool
    new_home 6 3 1 1 4 8 0
    rm -rf mine && mv home mine
    make_key | "$tools/hail-init" -f home 6 3 1 1 4 8 0 >out
    for tool in 1 2 3 4; do seq 1 30 | "$HAIL" home put f >out; done
    cp home/journal foreign
    seq 1 30 | "$HAIL" home put f >out && seq 1 300 | "$HAIL" home put g >out && "$HAIL" home drop f >out
    for tool in 1 2; do
        rm mine/journal && cp home/journal mine/journal
        [ "$tool" -eq 1 ] || cp foreign mine/journal
        says 3 'no file of the journal has blocks, and other numbers have
hail-watch: the journal is that of another home, or an older copy: put nothing, remove nothing; hail-restore the right one, or drop each file that lost its blocks' hail-watch mine
        for tool in 'gc mine' 'gc mine remove' 'verify mine'; do
            says 3 '' hail-$tool
            told 'no file of the journal has blocks, and other numbers have'
        done
    done
    rm -rf home && mkdir home && make_key | "$HAIL" home init 6 3 1 1 4 8 0 >out
    for tool in 1 2 3; do echo x | "$HAIL" home put $tool >out; done
    cp home/journal mine/journal
    says 3 'the blocks of number 1 are those of another file than the journal names
hail-watch: the journal is that of another home, or an older copy: put nothing, remove nothing; hail-restore the right one, or drop each file that lost its blocks' hail-watch mine
    says 3 '' hail-gc mine remove
    [ "$(find mine/provider-? -type f | wc -l)" -eq 54 ] || wrong 'under the journal of another home blocks are removed'
}

# The copy of another home, whose files are like those here, gets the place of a lost journal; but it is told that no file comes back by it.
restoring_others() {
    new_home 6 3 1 1 4 8 0
    copy_journal && mv copy own && mv copy.sum own.sum
    rm -rf mine && mv home mine
    new_home 6 3 1 1 4 8 0
    copy_journal
    rm mine/journal
    says 1 'restored: the next put has number 7
no file comes back from these blocks: copy is that of another home, or more than 1 of the providers are wrong, as where mounts were exchanged' hail-restore mine copy 3
    told 'put nothing before "hail-verify HOME" tells which'
    says 3 '' hail-restore mine own 3
    told 'own has another key or other numbers than the journal that is there'
    rm mine/journal
    says 0 'restored: the next put has number 7' hail-restore mine own 3
    rm mine/journal
    mv mine/provider-1 away && mv mine/provider-4 mine/provider-1 && mv away mine/provider-4
    "$tools/hail-restore" mine own 3 >out 2>err </dev/null
    [ $? -eq 1 ] && grep -q 'as where mounts were exchanged' out || wrong "over exchanged folders hail-restore says $(cat out err)"
    rm -r mine/provider-1 mine/journal # one that is wrong and one that is away
    "$tools/hail-restore" mine own 3 >out 2>err </dev/null
    [ $? -eq 1 ] && grep -q 'no file comes back' out || wrong "over a wrong folder and a lost one hail-restore says $(cat out err)"
}

# While the store is verified, at the first reading of `other`, this is done over the home; then hail-verify ends with this status and text.
verifies_beside() {
    echo "timeout 300 $1" >due
    HAIL=$PWD/beside says "$2" "$3" hail-verify home
    [ "$(cat ended)" = 0 ] || wrong "beside hail-verify $1 ends with $(cat ended): $(cat said)"
    rm -f ended
}

# Commands that come while the store is verified don't wait for it, and nothing that they changed is called lost or wrong.
changing_while_verified() {
    new_home 6 3 1 1 4 8 0
    seq 1 250 >new
    cat >beside <<BESIDE
#!/bin/bash
if [ "\$2 \${3-}" = 'get other' ] && mv "$PWD/due" "$PWD/doing" 2>/dev/null; then
    bash "$PWD/doing" >"$PWD/said" 2>&1 <"$PWD/new"
    echo \$? >"$PWD/ended"
fi
exec "$HAIL" "\$@"
BESIDE
    chmod +x beside
    verifies_beside "$HAIL home put other" 0 ''
    verifies_beside "$HAIL home put third" 0 ''
    verifies_beside "$HAIL home drop third" 0 ''
    spoil provider-2/1-0
    verifies_beside "$HAIL home drop other" 1 'notes: comes back; wrong blocks at provider 2'
    "$HAIL" home put other <new >out
    "$HAIL" home scrub >out
    rm -r home/provider-3
    "$HAIL" home audit >out
    verifies_beside "$HAIL home repair" 1 'notes: comes back; wrong blocks at provider 3'
    "$HAIL" home put third <new >out
    spoil provider-1/6-0
    spoil provider-4/6-0
    verifies_beside "$HAIL home audit" 1 'other: lost from stripe 0 on; blocks are missing at provider none'
    "$HAIL" home drop other >out
    "$HAIL" home repair >out 2>&1
    "$HAIL" home put other <new >out
    spoil "provider-1/$("$tools/hail-salvage" home 3 | sed -n 's/ .* other .*//p')-0"
    verifies_beside "sh -c '$HAIL home drop third && $HAIL home put third'" 1 'other: comes back; wrong blocks at provider 1'
    "$HAIL" home scrub >out
    verifies_beside "sh -c 'for name in notes third; do $HAIL home drop \$name; done; $HAIL home put other'" 0 ''
}

# What can't be written below TMPDIR makes no file lost, and moves no byte; a block that can't be read is missing alone.
failing_copies() {
    new_home 6 3 1 1 4 8 0
    mkdir bin
    cat >bin/cp <<COPYING
#!/bin/bash
"$(command -v cp)" "\$@" || exit
case " \$* " in *' --parents '*) cd "$PWD/tmp" && rm -f */*/provider-1/3-1 && cat "$PWD/fault" >&2 && exit 1 ;; esac
COPYING
    chmod +x bin/cp
    echo "cp: error writing '$PWD/3-1': Input/output error" >fault
    for tool in 'verify home' 'salvage home 3 3'; do
        PATH=$PWD/bin:$PATH says 4 '' hail-$tool
        told "there is no room below TMPDIR, or it can't be written: cp: error writing"
    done
    echo "cp: error reading 'provider-1/3-1': Input/output error" >fault
    PATH=$PWD/bin:$PATH says 1 'third: comes back; wrong blocks at provider 1' hail-verify home
    PATH=$PWD/bin:$PATH "$tools/hail-salvage" home 3 3 >out 2>err
    [ $? -eq 1 ] || wrong "hail-salvage over a block that can't be read says $(cat err)"
    told 'bytes 512 to 639 are missing, and zero here'
    { seq 1 300 | head -c 512; head -c 128 /dev/zero; seq 1 300 | tail -c +641; head -c 60 /dev/zero; } | cmp -s - out || wrong "over a block that can't be read other bytes are salvaged"
}

# A mount that comes and goes costs no repair; one that stays away is audited in the end.
outages() {
    local time
    new_home 6 3 1 1 4 8 0
    mkdir mnt && mv home/provider-2 mnt/two && ln -s "$PWD/mnt/two" home/provider-2
    says 0 '' hail-watch home
    for time in 1 2 3 4 5; do
        mv mnt away
        says 4 'provider 2 does not answer' hail-watch home
        says 4 'provider 2 does not answer' hail-watch home
        told 'no audit, the 2. time in a row; behind 3 the next one flags who is away'
        mv away mnt
        says 0 '' hail-watch home
        [ ! -e home/audits-skipped ] || wrong 'the count stays behind an audit'
    done
    mv mnt/two mnt/three && : >mnt/two
    for time in 1 2 3; do says 4 'provider 2 does not answer' hail-watch home; done
    [ "$(cat home/audits-skipped)" = 3 ] || wrong "the count is $(cat home/audits-skipped)"
    says 1 'provider 2 does not answer
provider 2 is flagged' hail-watch home
    told 'hail-remote home repair'
    rm mnt/two && mv mnt/three mnt/two
    "$HAIL" home repair >out
    mv mnt away
    says 1 'provider 2 does not answer
provider 2 is flagged' hail-watch -a 0 home
    mv away mnt && "$HAIL" home repair >out && mv mnt away
    echo many >home/audits-skipped
    says 1 'provider 2 does not answer
provider 2 is flagged' hail-watch home
    mv away mnt && "$HAIL" home repair >out && mv mnt away
    mkdir home/audits-skipped.new # so that no count can be kept
    says 1 'provider 2 does not answer
provider 2 is flagged' hail-watch home
    mv away mnt && "$HAIL" home repair >out
    rmdir home/audits-skipped.new
    mkfifo mnt/six && rm -r home/provider-5 && ln -s "$PWD/mnt/six" home/provider-5
    says 4 'provider 5 does not answer' hail-watch home
    says 0 '' hail-gc home
    told "provider 5 can't be looked at: what it holds stays"
    for time in -a '-a x' '-w 0' '-t 0' -q; do says 2 '' hail-watch $time home; done
}

# A far end that answers nothing is told within its time, and no command waits for it. One that answers is audited.
far_outage() {
    rm -rf home far
    mkdir -m 700 home far
    printf '2 "$HAIL" far serve 2\n' >home/remotes
    make_key | "$tools/hail-init" -f home 6 3 1 1 4 8 0 >out 2>err
    [ -d home/remote-2 ] || wrong 'hail-init makes no remote provider'
    seq 1 400 | "$tools/hail-remote" home put notes >out 2>err || wrong "a put says $(cat out err)"
    says 0 '' hail-watch -w 60 home
    echo "2 sleep 99.8$$" >home/remotes
    "$tools/hail-watch" -w 3 home >watched 2>err &
    sleep 1
    [ "$(timeout 120 "$HAIL" home list)" = 'notes 1492' ] || wrong 'a list waits for a far end that does not answer'
    wait $!
    [ "$? $(cat watched)" = '4 provider 2 does not answer' ] || wrong "a far end that does not answer is watched with $(cat watched err)"
    for far in false 'cat >&2' 'printf "\2"' "exec setsid sleep 98.9$$"; do
        echo "2 $far" >home/remotes
        rm -f home/audits-skipped
        says 4 'provider 2 does not answer' hail-watch -w 8 home
    done
    pkill -f "^sleep 98.9$$\$"
    ! is_left "sleep 99.8$$" || wrong 'a far end is left'
    printf ' 2 "$HAIL" far serve 2\n' >home/remotes
    says 0 '' hail-watch -w 60 home
}

# A line of HOME/remotes alone makes no provider remote, and a remote provider without a line can't answer.
odd_remotes() {
    new_home 6 3 1 1 4 8 0
    echo '3 true' >home/remotes
    says 1 'home/remotes has a line of provider 3, and there is no remote-3: its blocks are stored here, in the folder provider-3' hail-watch home
    told 'no audit now'
    rm home/remotes
    mkdir home/remote-3
    says 4 'provider 3 does not answer' hail-watch home
    echo '3 touch started' >home/remotes && chmod g+w home/remotes
    says 2 '' hail-watch home
    told 'others may write'
    rm -rf new && mkdir new && echo '3 touch started' >new/remotes && chmod g+w new/remotes
    says 2 '' hail-init new 6 3 1 1 4 8 0
    chmod g-w new/remotes
    says 4 '' hail-init new 3 3 1 1 4 8 0
    [ "$(ls new)" = remotes ] || wrong "hail-init leaves $(ls new)"
    [ ! -e started ] || wrong 'a far end was started'
}

# A link that was made inside the folder of a provider is told: it was meant in its place.
stray_links() {
    local meant='was it meant in place of the folder? Then move the blocks there, and put it in place of the folder; else remove it'
    new_home 6 3 1 1 4 8 0
    ln -s /nowhere home/provider-2/hail
    says 1 "the folder of provider 2 has a link, hail: $meant" hail-watch home
    ln -s nowhere home/provider-9
    rm home/provider-2/hail
    ln -s nowhere home/provider-2/$'\e[2J\r'
    says 1 "the folder of provider 2 has a link, ?[2J?: $meant" hail-watch home
    rm home/provider-2/*2J*
    says 0 '' hail-watch home
}

# The hole of a packed journal is not read: what a companion reads of it is counted.
short_reading() {
    local most
    new_home 6 3 1 1 4 8 0
    "$HAIL" home upgrade >out && "$HAIL" home pack >out
    mkdir -p bin
    printf '#!/bin/sh\nexec %s "$@" | tee -a "%s/bytes"\n' "$(command -v od)" "$PWD" >bin/od && chmod +x bin/od
    for most in 1 2; do
        PATH=$PWD/bin:$PATH says 0 '' hail-watch home
        "$HAIL" home pack >out
    done
    [ "$(stat -c %s bytes)" -lt 1500000 ] || wrong "of a short packed journal $(stat -c %s bytes) bytes are told"
}

# In the folder `bin` stand commands that count their calls in `calls` and kill the companion behind the call of this number.
kills_behind() {
    local command
    rm -rf bin && mkdir bin && : >calls
    for command in cp mv rm sync dd mkdir ln; do
        cat >"bin/$command" <<KILLER
#!/bin/bash
echo $command >>"$PWD/calls"
at=\$(wc -l <"$PWD/calls")
"$(command -v $command)" "\$@"
status=\$?
[ "\$at" -ne $1 ] || kill -KILL 0
exit \$status
KILLER
        chmod +x "bin/$command"
    done
}

# The companion, in a process group of its own, which is killed at such calls: 137, or as it ends where there are fewer calls.
killed() {
    local status
    { PATH=$PWD/bin:$PATH setsid -w "$tools/$1" "${@:2}" >out 2>err <key; } 2>/dev/null
    status=$?
    rm -rf tmp/tmp.*
    return "$status"
}

# Wherever hail-restore is killed there is a journal, the old one or the new; called again it ends well, or finds that all was done.
killed_restore() {
    local at
    two_files && mv home/journal old && cp -a home before
    for ((at = 1; at < 60; at++)); do
        rm -rf home && cp -a before home && head -c 9 old >home/journal
        kills_behind "$at"
        killed hail-restore home copy 2
        [ $? -eq 137 ] || { [ "$at" -gt 8 ] || wrong "hail-restore killed behind call $at says $(cat out err)"; break; }
        [ -e home/journal ] || wrong "hail-restore killed behind call $at leaves no journal"
        if "$HAIL" home list >out 2>err; then
            says 3 '' hail-restore home copy 2
            told 'the journal in its place is sound and newer than the copy'
        else
            says 0 'restored: the next put has number 5' hail-restore home copy 2
        fi
        [ "$("$HAIL" home list | tr '\n' ' ')" = 'a 292 b 692 ' ] && [ ! -e home/journal.new ] || wrong "a hail-restore killed behind call $at leaves $(ls home)"
    done
    says 0 '' hail-verify home
}

# Wherever hail-gc is killed, nothing of a file in effect goes, and called again it takes the rest.
killed_gc() {
    local at
    new_home 6 3 1 1 4 8 0
    put_fails 3 fourth 600
    rm -rf before && cp -a home before
    for ((at = 1; at < 60; at++)); do
        rm -rf home && cp -a before home
        kills_behind "$at"
        killed hail-gc home remove
        [ $? -eq 137 ] || { [ "$at" -gt 5 ] || wrong "hail-gc killed behind call $at says $(cat out err)"; break; }
        says 0 '' hail-gc home remove
        [ "$(find home/provider-? -type f | wc -l)" -eq 54 ] && [ -z "$(cat err)" ] || wrong "hail-gc killed behind call $at leaves $(ls home/provider-?)"
    done
}

# Wherever hail-init is killed it can be called again, unless the store is set up.
killed_init() {
    local at
    make_key >key
    for ((at = 1; at < 60; at++)); do
        rm -rf home && mkdir home && echo '2 true' >home/remotes
        kills_behind "$at"
        killed hail-init -s home 6 3 1 1 4 8 0
        [ $? -eq 137 ] || { [ "$at" -gt 2 ] || wrong "hail-init killed behind call $at says $(cat out err)"; break; }
        [ -s home/journal ] || "$tools/hail-init" -s home 6 3 1 1 4 8 0 <key >out 2>err || wrong "hail-init called again says $(cat out err)"
        [ "$(ls home | tr '\n' ' ')" = 'journal remote-2 remotes stack-0 stack-1 stack-3 stack-4 stack-5 ' ] || wrong "hail-init killed behind call $at leaves $(ls home)"
    done
    rm home/journal home/stack-0
    says 2 '' hail-init -f home 6 3 1 1 4 8 0
    told 'home/stack-1 makes the folder of provider 1 a stack: remove it, or leave -f out'
}

# At some of their calls that write or read, the program and its companions are killed, or the call fails. `tools/calls/try_calls.py -a` does so at each.
struck() {
    local struck=("put stacks" "repair folders" "gc folders" "restore folders" "rebuild stacks" init "keep put" stack "verify folders" "salvage stacks")
    have /usr/bin/python3 || return
    /usr/bin/python3 -B "$root/tools/calls/try_calls.py" -j 2 "${struck[@]}" >out 2>err
    case $? in
        0) ;;
        3) cat err >&2 ;;
        *) wrong "$(cat err)" ;;
    esac
    /usr/bin/python3 -B "$root/tools/calls/try_calls.py" init nothing >out 2>err
    [ $? -eq 2 ] && grep -q 'there is no case nothing; there are put folders, ' err || wrong "of a case that is not there is told $(cat out err)"
}

# The blocks of a home's provider become a stacked folder: one file an object, with the block and its mark at each stripe's place.
stack() {
    python3 - "home/provider-$1" <<'STACK'
import os, struct, sys
folder, objects = sys.argv[1], {}
for name in os.listdir(folder):
    number, stripe = name.split("-")
    objects.setdefault(number, {})[int(stripe)] = open(f"{folder}/{name}", "rb").read()
    os.unlink(f"{folder}/{name}")
for number, blocks in objects.items():
    size = max(map(len, blocks.values()))
    with open(f"{folder}/{number}", "wb") as file:
        file.write(b"HAILstk1" + struct.pack("<Q", size))
        for stripe, block in blocks.items():
            file.seek(16 + stripe * (size + 8))
            file.write(block + b"hail" + struct.pack("<I", stripe))
STACK
    : >"home/stack-$1"
}

# The companions read stacked folders beside plain ones: what is whole, spoilt, missing, newer, left behind and to be salvaged.
stacks() {
    new_home 6 3 1 1 4 8 0
    put_fails 3 fourth 600
    put_fails 5 fifth 600
    stack 1 && stack 2
    says 0 '' hail-verify home
    says 0 'provider-0/4-0
provider-1/4
provider-2/4' hail-gc home
    told "number 5 has no name, but may be a whole file (a put of fifth that did not end, by the journal)"
    says 0 '' hail-gc home remove
    [ -e home/provider-1/5 ] && [ ! -e home/provider-1/4 ] && [ -e home/provider-1/3 ] || wrong "hail-gc leaves $(ls home/provider-1)"
    says 0 '1 4 1536 notes 1492
2 2 768 other 692
3 3 1152 third 1092
5 1 384' hail-salvage home 3
    "$tools/hail-salvage" home 3 1 2>err | head -c 1492 | cmp -s - <(seq 1 400) || wrong 'hail-salvage joins other bytes of stacked folders'
    printf x | dd of=home/provider-2/2 bs=1 seek=$((16 + 264 + 258)) conv=notrunc status=none # the mark of the second stripe
    says 1 "other: comes back; wrong blocks at provider 2" hail-verify home
    printf 'HAILxxxx' | dd of=home/provider-1/1 bs=1 conv=notrunc status=none # what the file begins with: its marks tell the size
    says 1 "other: comes back; wrong blocks at provider 2" hail-verify home
    printf '\377\377' | dd of=home/provider-1/3 bs=1 seek=8 conv=notrunc status=none
    says 1 "other: comes back; wrong blocks at provider 2" hail-verify home
    cp home/provider-2/1 home/provider-2/9
    cp home/provider-1/1 home/provider-1/8-0 # the other form counts for nothing
    ln -s nowhere home/provider-1/link
    copy_journal
    "$tools/hail-watch" home >out 2>err
    grep -q 'provider 2 holds blocks of number 9, and the next number is 6' out && grep -q 'mv HOME/provider-2/9\* ELSEWHERE;' err && grep -q 'the folder of provider 1 has a link, link' out &&
        ! grep -q ' 8,' out || wrong "stacked folders are watched with $(cat out err)"
    rm home/provider-2/9 home/journal
    "$tools/hail-restore" home copy 3 >out 2>err </dev/null
    # the audit of hail-watch flags a provider, or by chance none
    [ "$? $(grep -v '^a repair is due, so' out)" = '1 restored: the next put has number 9
number 5: fifth, whose put was under way when the copy was made; hail-salvage may join its bytes' ] || wrong "a restore over stacks says $(cat out err)"
    rm home/journal
    says 3 '' hail-init home 6 3 1 1 4 8 0
    told 'blocks are held by provider-0 provider-1 provider-2'
}

# What to do is told by the guide's section on each status, and by the companions where a journal is lost.
helping() {
    mkdir -p home/provider-0
    for tool in gc verify; do
        says 2 '' hail-$tool home
        told 'no store in home: where its journal was lost, hail-restore a copy of it, or hail-rebuild it'
    done
    says 2 '' hail-gc nowhere
    [ "$(cat err)" = 'hail-gc: no store in nowhere' ] || wrong "of no home is told $(cat err)"
    says 0 '13: that provider refuses writes: no file changed. Mount it, give it room or another folder
7: no repair is due' hail-help 13 7
    says 1 '' hail-help 1
    told 'nothing is told of 1'
    says 2 '' hail-help x
    [ "$("$tools/hail-help" | wc -l)" -eq 25 ] || wrong "hail-help tells of $("$tools/hail-help" | cut -d : -f 1 | tr '\n' ' ')"
}

# A unit that failed is told by mail, or where nothing takes it in the log.
telling() {
    mkdir bin
    printf '#!/bin/sh\necho "$@"\necho "it failed"\n' >bin/systemctl
    printf '#!/bin/sh\ncat >mailed\necho "$*" >>mailed\nexit "$(cat answer)"\n' >bin/mail
    printf '#!/bin/sh\ncat >logged\necho "$*" >>logged\n' >bin/systemd-cat
    chmod +x bin/*
    echo 0 >answer
    PATH=$PWD/bin:$PATH says 0 '' tell-failed hail-watch@srv-home.service
    grep -q 'it failed' mailed && grep -q '^-s hail: hail-watch@srv-home.service failed ' mailed && [ ! -e logged ] || wrong "mailed is $(cat mailed)"
    echo 1 >answer
    PATH=$PWD/bin:$PATH says 0 '' tell-failed hail-watch@srv-home.service
    grep -q '^-p err -t hail' logged && grep -q 'it failed' logged || wrong "logged is $(cat logged)"
    says 2 '' tell-failed
}
