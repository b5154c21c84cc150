#!/usr/bin/env bash
# Random bundles for the built program, ten minutes of them: bench/fuzz/run.sh [PROGRAM [SECONDS [SEED]]]
set -eu
cd "$(dirname "$0")/../.."
exec python3 bench/fuzz/fuzz.py "${1:-build/hg_pushd}" --seconds "${2:-600}" --seed "${3:-$RANDOM}"
