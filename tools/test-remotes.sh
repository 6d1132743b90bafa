#!/bin/bash
# Tests of providers on other machines: requests of any kind, limits, sessions that are used up, the smallest pipes, kills, cuts of the power, far
# ends that lie. test-remotes.sh NAME .. runs these modules of remotes_tests alone; FULL=1 tries all that there is, which takes long. Homes are made
# in memory where that can be.
set -u

root=$(CDPATH='' cd -P -- "$(dirname "$0")/.." && pwd -P)
export HAIL=${HAIL:-$root/hail}
if [ "$HAIL" = "$root/hail" ] && "$HAIL" - row 4 1 1 7 7 7 9 >/dev/null </dev/null && [ -x "$root/out/hail" ]; then HAIL=$root/out/hail; fi
export TOOLS=${TOOLS:-$root/tools}
scratch=$(mktemp -d -p /dev/shm 2>/dev/null || mktemp -d) || exit 1
trap 'rm -rf "$scratch"' EXIT
export TMPDIR=$scratch
failed=0
command -v strace >/dev/null 2>&1 || echo 'remotes: there is no strace: test_power is passed over' >&2

for module in ${*:-test_requests test_limits test_sessions test_pipes test_kills test_power test_liars}; do
    (cd "$root/tools" && /usr/bin/python3 -B -m unittest "remotes_tests.$module") >"$scratch/log" 2>&1 && [ -z "${FULL-}" ] && continue
    [ "$(tail -n 1 "$scratch/log" | cut -c 1-2)" = OK ] || { echo "remotes: $module goes otherwise" >&2; failed=1; }
    cat "$scratch/log" >&2
done
exit $failed
