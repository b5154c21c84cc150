#!/bin/sh
# Proves and builds a program that hashes with the toolchain's `sha1`, and leaves it at build/sha1_speed.
set -eu
. "$(dirname "$0")/../scratch.sh"
scratch_program plain sha1_speed 'anyhow sha1'
scratch_run 'sha1 '
keep_program sha1_speed
