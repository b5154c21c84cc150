#!/usr/bin/env bash
# How many whole runs of a client `hg_pushd host` serves a second over the loopback: run.sh [PROGRAM
# [SECONDS]]. A run is what one `hg push` does, on a connection of its own: five commands that read, and a
# push of one changeset, each after the answer before it (load.c). With 1, 8 and 64 clients at a time, on
# repositories of 1,000 and 200,000 changesets with 10 and 1,000 heads, each time on a store of its own.
# Beside it Mercurial's own `hg serve`, in one process, with 1 and 8 clients, where Mercurial is
# installed. STORES names a folder for the stores, so that another device can be tried. Run it alone: the
# figures are those of a machine with nothing else to do.
set -eu
cd "$(dirname "$0")/../.."
program=${1:-build/hg_pushd}
seconds=${2:-5}
work=$(mktemp -d ${STORES:+-p "$STORES"})
trap 'rm -rf "$work"' EXIT
cc -O2 -D_GNU_SOURCE -pthread -o "$work/load" bench/wire/load.c
columns='changesets  heads  clients   runs  runs a second  processor ms  50th ms  99th ms  slowest'
columns="$columns  capabilities   batch  phases  bookmarks  branches   push   first run"

# started STORE: a server on that store; sets `server` and `port`
started() {
    rm -f "$work/told"
    touch "$work/told"
    "$program" host --store "$1" --listen 127.0.0.1:0 2> "$work/told" &
    server=$! port=
    for _ in $(seq 3000); do
        port=$(sed -n 's|.*listening on http://127\.0\.0\.1:\([0-9]*\)/.*|\1|p' "$work/told")
        [ -n "$port" ] && return
        sleep 0.01
    done
    cat "$work/told" >&2
    exit 1
}

ended() {
    kill "$server"
    wait "$server" 2> /dev/null || true
}

# pushed FILE: one push, which has to be done
pushed() {
    python3 - "$port" "$1" << 'PY'
import http.client, sys

with open(sys.argv[2], "rb") as source:
    bundle = source.read()
line = http.client.HTTPConnection("127.0.0.1", int(sys.argv[1]))
fields = {"content-type": "application/mercurial-0.1", "x-hgarg-1": "heads=666f726365"}
line.request("POST", "/?cmd=unbundle", bundle, fields)
told = line.getresponse().read()
if b"reply:changegroup" not in told:
    sys.exit(f"the first push was not done: {told!r}")
PY
}

# ticks PID: the processor time that it took so far, in hundredths of a second
ticks() {
    sed 's/.*) //' "/proc/$1/stat" | awk '{ print $12 + $13 }'
}

# measured CHANGESETS HEADS CLIENTS PID SALT: at most 1,000 runs, so that a small repository stays small. One run comes
# before, and is told at the end in milliseconds: in it `host` looks at all changesets once, and `hg serve` loads modules
# and fails where such requests come at once.
measured() {
    local before figures first
    first=$("$work/load" "$port" 1 1 1 "first $5" "$work/$1.$2/heads" | awk '{ print $4 }')
    before=$(ticks "$4")
    figures=$("$work/load" "$port" "$3" 1000 "$seconds" "$5" "$work/$1.$2/heads")
    echo "$1 $2 $3 $(($(ticks "$4") - before)) $figures $first" | awk '{
        printf "%10s  %5s  %7s  %5s  %13s  %12.2f", $1, $2, $3, $5, $7, 10 * $4 / $5
        printf "  %7s  %7s  %7s", $8, $9, $10
        printf "  %12s  %6s  %6s  %9s  %8s  %5s  %10s\n", $11, $12, $13, $14, $15, $16, $17 }'
}

made() {
    [ -f "$work/$1.$2/bundle" ] || python3 bench/wire/make.py "$work/$1.$2" "$1" "$2"
}

echo "load of the machine: $(cut -d' ' -f1-3 /proc/loadavg), $(nproc) processors"
echo "$columns"
for size in 1001 200000; do
    for heads in 10 1000; do
        made $size $heads
        started "$work/first"
        pushed "$work/$size.$heads/bundle"
        ended
        for clients in 1 8 64; do
            cp -r "$work/first" "$work/store"
            started "$work/store"
            measured $size $heads $clients "$server" "s$clients"
            ended
            rm -r "$work/store"
        done
        rm -r "$work/first"
    done
done

command -v hg > /dev/null || exit 0
export HGRCPATH="$work/hgrc" HGPLAIN=1
printf '[web]\nallow-push = *\npush_ssl = no\n[phases]\npublish = no\n' > "$HGRCPATH"
echo "$(hg --version -q), hg serve"
for size in 1001 200000; do
    for heads in 10 1000; do
        made $size $heads
        hg init "$work/first"
        hg -R "$work/first" unbundle -q "$work/$size.$heads/bundle"
        for clients in 1 8; do
            cp -r "$work/first" "$work/copy"
            hg -R "$work/copy" serve -a 127.0.0.1 -p 0 -d --pid-file "$work/pid" > "$work/told"
            port=$(sed -n 's|.*127\.0\.0\.1:\([0-9]*\).*|\1|p' "$work/told")
            measured $size $heads $clients "$(cat "$work/pid")" "h$clients"
            kill "$(cat "$work/pid")"
            sleep 0.3
            rm -r "$work/copy"
        done
        rm -r "$work/first"
    done
done
