#!/usr/bin/env bash
# Clients that push to the built program over the loopback: tests/serve.sh PROGRAM. It ends by itself.
set -u
here=$(cd "$(dirname "$0")" && pwd)
command -v python3 > /dev/null || { echo 'python3 is missing: the server was not tried by clients.'; exit 1; }
exec timeout 240 python3 "$here/serve.py" "$@"
