#!/usr/bin/env bash
# An unmodified hg pushes to `host`, which is killed and started again: examples/host-demo.sh PROGRAM
set -eu
program=$(realpath "$1")
case $program in */unproved/*) echo 'This program was compiled without proofs (make build proves it).' ;; esac
command -v hg > /dev/null || { echo 'hg is not installed: no push is shown.'; exit 0; }
room=$(mktemp -d)
server=
trap 'if [ -n "$server" ]; then kill -9 "$server" 2> /dev/null || true; fi; rm -rf "$room"' EXIT
printf '[ui]\nusername = Somebody <s@example.org>\n[phases]\npublish = false\n' > "$room/hgrc"
export HGRCPATH="$room/hgrc" HGPLAIN=1

# starts the server on a port that is free, and waits for its line
start() {
    : > "$room/said"
    "$program" host --store "$room/store" --listen 127.0.0.1:0 2> "$room/said" &
    server=$!
    disown "$server"
    for _ in $(seq 100); do
        grep -q '^hg_pushd: listening on ' "$room/said" && break
        sleep 0.1
    done
    url=$(sed -n 's/^hg_pushd: listening on \([^,]*\),.*/\1/p' "$room/said")
    [ -n "$url" ] || { cat "$room/said"; exit 1; }
    echo '$ hg_pushd host --store store'
    cat "$room/said"
}

report() {
    "$program" report --store "$room/store"
}

echo 'A server with a new store, and a push of two changesets by an unmodified hg:'
start
hg init "$room/client"
cd "$room/client"
echo 1 > file && hg commit -qAm first
echo 2 > file && hg commit -qm second
echo "\$ hg push $url"
hg push "$url"
echo
echo 'What its store has:'
report | tee "$room/before"
echo
echo 'The server is killed by SIGKILL and started again:'
kill -9 "$server"
while kill -0 "$server" 2> /dev/null; do sleep 0.05; done
start
report > "$room/after"
cmp "$room/before" "$room/after"
echo 'The report is the same.'
