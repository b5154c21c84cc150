#!/usr/bin/env bash
# A server on a free port, two clients that push to it, and its report: examples/serve-demo.sh PROGRAM
set -eu
program=$1
case $program in */unproved/*) echo 'This program was compiled without proofs (make build proves it).' ;; esac
here=$(cd "$(dirname "$0")" && pwd)
room=$(mktemp -d)
trap 'rm -rf "$room"' EXIT

echo 'A server for two connections, on a port that the system picks:'
"$program" serve --listen 127.0.0.1:0 --connections 2 --report "$room/report" > "$room/told" &
server=$!
for _ in $(seq 500); do
    port=$(sed -n 's/^listening on 127\.0\.0\.1://p' "$room/told")
    [ -n "$port" ] && break
    sleep 0.02
done
cat "$room/told"

# push FILE: sends a bundle, and shows the reply
push() {
    exec 5<> "/dev/tcp/127.0.0.1/$port"
    cat "$1" >&5
    timeout 30 cat <&5 > "$room/reply"
    exec 5>&-
    echo "$(basename "$1") was answered by"
    python3 "$here/show.py" "$room/reply"
}

push "$here/pushes/first-changesets/01.hg20"
echo 'The same push again: its heads are not those of the repository any more.'
push "$here/pushes/first-changesets/01.hg20"
wait "$server"
echo 'Its report: the changesets with their phases, and the pushes that are done.'
cat "$room/report"
