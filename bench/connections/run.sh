#!/usr/bin/env bash
# How many pushes a second the program serves over the loopback, and how long a reply takes: with 1, 8 and
# 64 connections that wait for each reply, for pushes without a changeset, with one, and with 1,000. The
# clients are a C program on the same machine. Of five runs each, in turn, the one with the middle rate is
# told. Run it alone: the figures are those of a machine with nothing else to do. Given `ahead` as a third word,
# it has 20 and 1,000 changesets a push, with each text in one hunk, which is hashed before the lock, and in two.
set -eu
cd "$(dirname "$0")/../.."
program=${1:-build/hg_pushd}
runs=${2:-5}
work=$(mktemp -d)
trap 'rm -rf "$work"' EXIT
cc -O2 -pthread -o "$work/load" bench/connections/load.c

# once CONNECTIONS PUSHES CHANGESETS HUNKS: a server of its own, and its clients
once() {
    "$program" serve --listen 127.0.0.1:0 --connections "$1" --bundles 10000 --report "$work/report" \
        > "$work/told" &
    local server=$! port=
    for _ in $(seq 500); do
        port=$(sed -n 's/^listening on 127\.0\.0\.1://p' "$work/told")
        [ -n "$port" ] && break
        sleep 0.01
    done
    if ! timeout 60 "$work/load" "$port" "$1" "$2" "$3" "$4" >> "$work/$1.$3.$4"; then
        echo "$1 connections with $3 changesets a push: no end, or a reply that is another" >&2
        kill "$server"
    fi
    wait "$server" || true
}

cases='1:4000:0:1 8:4000:0:1 64:1000:0:1 1:4000:1:1 8:4000:1:1 64:1000:1:1 1:40:1000:1 8:20:1000:1 64:4:1000:1'
[ "${3:-}" != ahead ] || cases='1:2000:20:1 1:2000:20:2 8:1000:20:1 8:1000:20:2 8:20:1000:1 8:20:1000:2'
for _ in $(seq "$runs"); do
    for one in $cases; do
        IFS=: read -r connections pushes changesets hunks <<< "$one"
        once "$connections" "$pushes" "$changesets" "$hunks"
    done
done
echo "changesets  hunks  connections  pushes a second  50th us  99th us  slowest us"
for one in $cases; do
    IFS=: read -r connections pushes changesets hunks <<< "$one"
    sort -n "$work/$connections.$changesets.$hunks" | awk -v c="$changesets" -v n="$connections" -v h="$hunks" '{ line[NR] = $0 }
        END { split(line[int((NR + 1) / 2)], f, " ")
            printf "%10s  %5s  %11s  %15s  %7s  %7s  %10s\n", c, h, n, f[1], f[2], f[3], f[4] }'
done
