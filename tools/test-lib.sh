# What the tests of the companions share. Sourced by bash; `called` begins what is told, and `room` is where they are made, if not below TMPDIR.
# HAIL names the program, TOOLS the folder of the companions.
root=$(CDPATH='' cd -P -- "$(dirname "${BASH_SOURCE[0]}")/.." && pwd -P)
export HAIL=${HAIL:-$root/hail} TOOLS=${TOOLS:-$root/tools}
tools=$TOOLS
scratch=$(mktemp -d -p "${room:-${TMPDIR:-/tmp}}" 2>/dev/null || mktemp -d) || exit 1
trap 'chmod -R u+w "$scratch"; rm -rf "$scratch"' EXIT
failed=0

wrong() {
    echo "$called: $*" >&2
    failed=1
}

# Whether there is a program or, by the name of its package, a module of Python.
is_there() {
    case $1 in
        python3-*) /usr/bin/python3 -c "import ${1#python3-}" 2>/dev/null ;;
        *) command -v "$1" >/dev/null 2>&1 ;;
    esac
}

# Whether these programs are there; else what is passed over is told.
have() {
    local program
    for program in "$@"; do
        is_there "$program" || { echo "$called: there is no $program: ${FUNCNAME[1]} is passed over" >&2; return 1; }
    done
}

# The program without its launcher, which looks at each call whether it is to be built.
without_launcher() {
    if [ "$HAIL" = "$root/hail" ] && "$HAIL" - row 4 1 1 7 7 7 9 >/dev/null </dev/null && [ -x "$root/out/hail" ]; then HAIL=$root/out/hail; fi
}

# A launcher of the program under test in a folder of its own, as a package has it: package/bin/hail.
make_launcher() {
    local tool lib
    lib=$(dirname "$(readlink -f "$tools/hail-gc")")
    mkdir -p package/bin package/lib/hail && cp "$root/hail" package/bin/hail
    for tool in "$lib"/hail-* "$lib"/journal.awk "$lib"/stack-blocks "$lib"/lib; do [ ! -e "$tool" ] || ln -s "$tool" package/lib/hail/; done
    ln -s "$HAIL" package/lib/hail/program
}

# Whether a process with these words, which was to be killed, is there still behind ten seconds: one that is killed takes a moment to be gone. Whoever
# looks for one puts $$ into its words, since other runs of the tests have such too.
is_left() {
    local turn
    for turn in {1..100}; do
        pgrep -f "^$1\$" >/dev/null || return 1
        sleep 0.1
    done
}

make_key() {
    head -c 32 /dev/urandom | od -An -v -tx1 | tr -d ' \n'
}

# A test in a folder of its own, with one for what the companions write for a while, which is empty behind it.
run() {
    local own=$scratch/$1/tmp
    mkdir -p "$own" && cd "$scratch/$1" || exit 1
    export TMPDIR=$own
    "$1"
    [ -z "$(ls -A "$own")" ] || wrong "$1 leaves below TMPDIR $(ls -A "$own")"
    exit $failed
}

# These tests, all at once.
run_all() {
    local test running=()
    for test in "$@"; do
        run "$test" &
        running+=($!)
    done
    for test in "${running[@]}"; do
        wait "$test" || failed=1
    done
}
