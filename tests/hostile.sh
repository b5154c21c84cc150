#!/usr/bin/env bash
# Clients that ask for more memory than there is: tests/hostile.sh PROGRAM. It ends by itself.
set -u
here=$(cd "$(dirname "$0")" && pwd)
if ! command -v python3 > /dev/null; then
    echo 'python3 is missing: the server was not tried under a limit.'
    exit 1
fi
exec timeout 900 python3 "$here/hostile.py" "$@"
