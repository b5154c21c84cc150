#!/usr/bin/env bash
# Tries what stands around the program, for the gate: tests/gate.sh PROGRAM
#
# The mirror on stores of a script, and the pushes that Mercurial refuses, cut out by the program; every way to stop
# or mislead the mirror, and the hook; pulls while the mirror is behind; three real clients that push to it, and a
# minute of them beside hostile ones; each command of docs/team.md in a room of its own; the installation; and random
# pushes, whose answers the plain rules of tests/plain give too. They run side by side. What a missing package keeps
# from being tried is named in lines of their own, and is no fault. It ends by itself within eleven minutes, and
# leaves nothing: all that it writes is in one folder, which it removes.
set -u
[ $# = 1 ] || { sed -n 's/^# //; 2p' "$0"; exit 2; }
program=$(realpath -e "$1") || exit 2
cd "$(dirname "$0")/.." || exit 2
room=$(mktemp -d)
longest=600 # seconds, for each piece
mkdir "$room/tmp" "$room/home"
export TMPDIR=$room/tmp HOME=$room/home PYTHONDONTWRITEBYTECODE=1
# Mercurial's own chg runs what clients do in a quarter of the time
if command -v chg > /dev/null; then export CLIENT=chg; fi
declare -A started
# the processes of chg end within a second when their sockets are gone
trap 'rm -rf "$room"; sleep 2' EXIT
# each piece gets the signal from its `timeout`, and ends what it started
trap 'kill "${started[@]}"; wait; exit 1' INT TERM

# start PIECE COMMAND..
start() {
    local piece=$1
    shift
    timeout -k 15 "$longest" "$@" > "$room/$piece" 2>&1 < /dev/null &
    started[$piece]=$!
}
start mirror python3 mirror/check.py "$program" --short
start refused python3 mirror/refused.py "$program"
start hook python3 tests/hook.py --program "$program"
start pulls python3 tests/pulls.py "$program"
start clients python3 tests/clients.py "$program" 16
start day python3 tests/day.py "$program" --minutes 1 --moments 4
start team python3 tests/team.py "$program"
start install bash tests/install.sh "$program"
start plain bash tests/plain/run.sh "$program"

good=0 failed=0
# judge PIECE: waits for it, and tells how it ended
judge() {
    local piece=$1 status
    wait "${started[$piece]}"
    status=$?
    unset "started[$piece]"
    if [ "$status" = 0 ]; then
        good=$((good + 1))
        grep -E 'skipped|left out|as wanted, 0 not$|passed, 0 failed$|: as wanted$|units run' "$room/$piece"
    else
        failed=$((failed + 1))
        cat "$room/$piece"
        [ "$status" != 124 ] || echo "It did not end within $longest seconds."
        echo "FAILED: $piece, with status $status"
    fi
}
for piece in mirror refused hook pulls clients day team install plain; do
    judge "$piece"
done
echo "tests/gate.sh: $good pieces as wanted, $failed not"
[ "$failed" = 0 ]
