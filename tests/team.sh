#!/usr/bin/env bash
# Runs every command of docs/team.md: see tests/team.py.
exec python3 "$(dirname "$0")/team.py" "$@"
