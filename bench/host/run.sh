#!/usr/bin/env bash
# What `hg_pushd host` costs in use: bench/host/run.sh [PROGRAM [FOLDER]]
#
# In one run, of at most ten minutes: durable pushes a second with 8 and 64 connections, beside what the same disk makes
# of one `fdatasync` after the other; whole runs of the clients of bench/wire; how long stores of 100,000 pushes take to
# open, and what a changeset takes of memory; and whole `hg push` of one changeset by a real client, 1 and 8 at a time,
# against `host` and against Mercurial's own `hg serve`, in turns. Of these the client's own processor time is taken
# out, and what the server took of it is told. Figures are medians of five turns. PROGRAM is build/hg_pushd if it is not
# told. The stores lie on the disk of FOLDER, in a new folder, or beside the system's temporary ones.
set -eu
cd "$(dirname "$0")/../.."
program=$(realpath "${1:-build/hg_pushd}")
work=$(mktemp -d ${2:+-p "$2"})
trap 'rm -rf "$work"' EXIT
cc -O2 -pthread -o "$work/push" bench/store/push.c
cc -O2 -D_GNU_SOURCE -pthread -o "$work/load" bench/wire/load.c
python3 bench/host/run.py "$program" "$work"
