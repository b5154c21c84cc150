#!/usr/bin/env bash
# Stores made by hand, read and ended by the built program: tests/store.sh PROGRAM. It ends by itself.
set -u
here=$(cd "$(dirname "$0")" && pwd)
if ! command -v python3 > /dev/null; then
    echo 'python3 is missing: no store was tried.'
    exit 1
fi
exec timeout 600 python3 "$here/store.py" "$@"
