#!/usr/bin/env bash
# How fast the program takes pushes, and how much memory a changeset takes: bench/push/run.sh [PROGRAM]. The
# bundles are made by make.py. Processor time is that of the whole process, the best of five runs. The first
# and the last thousand pushes are told apart by pushes that come through pipes: before the last byte of such
# a push the program waits, and its processor time is taken then. The C library asks for huge pages, as where
# `make run` starts the program. Where Mercurial is installed, it takes the same pushes beside.
set -eu
here=$(cd "$(dirname "$0")" && pwd)
program=$(realpath "${1:-$here/../../build/hg_pushd}")
work=$(mktemp -d)
trap 'rm -rf "$work"' EXIT
ulimit -n 20000
python3 "$here/make.py" "$work"
GLIBC_TUNABLES=glibc.malloc.hugetlb=1 python3 "$here/measure.py" "$program" "$work"
