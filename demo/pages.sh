#!/bin/bash
# pages.sh PAGE ..: does what each page tells, in one shell a page, in a folder of its own that goes at the end.
# A block of a page is lines behind four spaces. A line behind `$ ` is a command, and the lines up to the next one are what it writes, of
# which `..` stands for any. A block without such a line is commands that end with 0, whatever they write. A block below a line
# `<!-- not run: .. -->` is passed over. A line `<!-- run: NAME -->` calls a function of demo/PAGE.steps, which ends with 0. Below a line
# `<!-- needs: PROGRAM -->` all is passed over, up to the next heading, where there is no such program, or python3 has no module MODULE for
# python3-MODULE; then that is told.
# HAIL names another program than the one of this repository, and TOOLS another folder of companions.
# Ends with 0 exactly where each command went as the page tells.
set -u

root=$(CDPATH='' cd -P -- "$(dirname "${BASH_SOURCE[0]}")/.." && pwd -P)
export HAIL=${HAIL:-$root/hail}
tools=${TOOLS:-$root/tools}
scratch=$(mktemp -d) || exit 1
trap 'rm -rf "$scratch"' EXIT
failed=0

# Parts a page into files NUMBER.does, a command or a block of commands, and NUMBER.tells, what a command is told to write.
part() {
    awk -v folder="$2" '
        function begin() { number++; does = sprintf("%s/%04d.does", folder, number); printf "" > does }
        function finish() { if (in_block) close(does); if (tells) close(tells); in_block = 0; tells = "" }
        /^## / { missing = 0 }
        missing { next }
        function lacks(name) {
            return system(name ~ /^python3-/ ? "/usr/bin/python3 -c \"import " substr(name, 9) "\" 2>/dev/null" : "command -v " name " >/dev/null")
        }
        /^<!-- needs: / && lacks($3) { finish(); missing = 1; print FILENAME ": there is no " $3 >"/dev/stderr"; next }
        /^<!-- needs: / { finish(); next }
        /^<!-- not run/ { skipped = 1; next }
        /^<!-- run: / { finish(); begin(); sub(/^<!-- run: /, ""); sub(/ -->$/, ""); print > does; close(does); next }
        /^    / && skipped { passing = 1; next }
        /^    / {
            line = substr($0, 5)
            if (line ~ /^\$ /) {
                finish(); begin(); in_block = 1
                tells = does; sub(/does$/, "tells", tells); printf "" > tells
                print substr(line, 3) > does
            } else if (tells) print line > tells
            else { if (!in_block) { begin(); in_block = 1 } print line > does }
            next
        }
        /^$/ { if (passing) skipped = passing = 0; if (tells) finish(); else if (in_block) print "" > does; next }
        { finish(); skipped = passing = 0 }
    ' "$1"
}

# Whether the lines of one file are those of another, in which a line `..` stands for any lines.
reads_as() {
    awk -v wanted="$2" '
        function match_from(i, j,    k) {
            if (j > wants) return i > count
            if (want[j] == "..") { for (k = i; k <= count + 1; k++) if (match_from(k, j + 1)) return 1; return 0 }
            return i <= count && line[i] == want[j] && match_from(i + 1, j + 1)
        }
        BEGIN { while ((getline text < wanted) > 0) want[++wants] = text }
        { line[++count] = $0 }
        END { exit !match_from(1, 1) }
    ' "$1"
}

# Whether these lines are whole commands.
is_whole() {
    [ -z "$(bash -n <<<"$1" 2>&1)" ]
}

# Does the lines of a block, command by command, and ends with the status of the first that does not end with 0.
do_block() {
    local line command=''
    while IFS= read -r line <&8; do
        command+=$line$'\n'
        is_whole "$command" || continue
        eval "$command" || return
        command=''
    done 8<"$1"
    [ -z "$command" ]
}

# Does the block before a step once more.
block_before() {
    do_block "$before"
}

# Does the commands of a page, in the folder that it stands in.
follow() {
    local does='' before next tells status
    for next in "$1"/*.does; do
        before=$does does=$next
        [ -e "$does" ] || continue
        tells=${does%does}tells
        do_block "$does" >"$scratch/out" 2>&1 </dev/null
        status=$?
        if [ -e "$tells" ]; then
            reads_as "$scratch/out" "$tells" && continue
        else
            [ "$status" -eq 0 ] && continue
        fi
        { echo "$2: otherwise than told (status $status):"; cat "$does"; echo 'it wrote:'; cat "$scratch/out"; } >&2
        return 1
    done
}

for page in "$@"; do
    steps=$scratch/$(basename "$page").steps
    place=$scratch/$(basename "$page").place
    mkdir "$steps" "$place" && part "$page" "$steps" || exit 1
    ln -s "$HAIL" "$place/hail" && ln -s "$tools" "$place/tools" || exit 1
    more=$root/demo/$(basename "$page" .md).steps
    [ ! -e "$more" ] || . "$more"
    (cd "$place" && PATH=$place:$tools:$PATH && follow "$steps" "$page") || failed=1
    echo "$page: $(find "$steps" -name '*.does' | wc -l) commands and blocks"
done
exit "$failed"
