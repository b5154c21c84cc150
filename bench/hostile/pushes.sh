#!/bin/sh
# What hostile pushes cost the built program, as their bytes double: bench/hostile/pushes.sh [PROGRAM [ROW..]].
set -eu
top=$(cd "$(dirname "$0")/../.." && pwd)
program=${1:-$top/build/hg_pushd}
[ $# -gt 0 ] && shift
exec python3 "$top/bench/hostile/pushes.py" "$program" "$@"
