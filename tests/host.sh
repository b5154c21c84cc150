#!/usr/bin/env bash
# Clients push to `host` of the built program: tests/host.sh PROGRAM. It ends by itself.
set -u
here=$(cd "$(dirname "$0")" && pwd)
if ! command -v python3 > /dev/null; then
    echo 'python3 is missing: nothing was pushed.'
    exit 1
fi
exec timeout 900 python3 "$here/host.py" "$@"
