#!/usr/bin/env bash
# Shows a push from a fresh clone: examples/run.sh PROGRAM BUNDLE
# PROGRAM is the one that was compiled without proofs. It says so.
set -eu
here=$(cd "$(dirname "$0")" && pwd)
program=$(realpath "$1") bundle=$(realpath "$2")
room=$(mktemp -d)
trap 'rm -rf "$room"' EXIT

echo 'A push that Mercurial sent, three changesets onto the empty repository:'
python3 "$here/show.py" "$bundle"
echo
"$program" one < "$bundle" > "$room/reply"
echo 'Status 0: the push is done. The reply:'
python3 "$here/show.py" "$room/reply"
echo
echo 'The report. A changeset a line: its number, its id, its phase, whether it is obsolete.'
"$program" replay "$bundle"
echo
echo 'This was build/unproved/hg_pushd: the same sources, compiled with checks, of which nothing was proved here.'
echo 'make host-demo has an unmodified hg push to it, make serve-demo shows it with two clients. It is for trying out:'
echo 'make build proves every crate, in half an hour to an hour and a quarter on four processors, and leaves the proved'
echo 'program at build/hg_pushd. The demos then run that one.'
