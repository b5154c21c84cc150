#!/usr/bin/env bash
# Random pushes to the program, and the plain rules beside it: tests/plain/run.sh PROGRAM [STATES] [SEED]
# 10,000 states where no number is given. The last line is 'N passed, M failed'.
set -u
here=$(cd "$(dirname "$0")" && pwd)
exec python3 "$here/drive.py" "$@"
