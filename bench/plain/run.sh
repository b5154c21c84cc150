#!/usr/bin/env bash
# The program beside a plain one in Rust that does the same work: bench/plain/run.sh [PROGRAM [TURNS [SHA1]]]. PROGRAM
# is one that bench/unproved.py made, without checks; where none is told, it is made, in some minutes. At first both
# take the same bundles, and have to answer alike (check.py). Then a table is printed, by the least of TURNS turns
# (10) of each; both take turns, so that what else the machine does meets both. It says what was wanted of a figure,
# and whether that was met. SHA1 is the program of bench/plain/sha1.sh, for the speed of the library's hash.
set -eu
cd "$(dirname "$0")/../.."
work=$(mktemp -d)
trap 'rm -rf "$work"' EXIT
program=${1:-}
if [ -z "$program" ]; then
    program=$work/hg_pushd
    python3 bench/unproved.py crates/hg_pushd "$program"
fi
program=$(realpath "$program")
turns=${2:-10}
sha1=${3:+$(realpath "$3")}
ulimit -n 4096
cd bench/plain
rustc -O --edition 2024 -o "$work/plain" main.rs
rustc -O --edition 2024 -o "$work/sha1_speed" sha1_speed.rs
cc -O2 -pthread -o "$work/load" ../connections/load.c
cc -O2 -shared -fPIC -o "$work/count.so" count.c
python3 ../push/make.py "$work/pushes"
python3 check.py "$program" "$work/plain" --seconds 10 --pushes "$work/pushes"
python3 measure.py "$program" "$work" "$turns" $sha1
