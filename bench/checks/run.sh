#!/bin/sh
# What `check_heads` costs with few heads and with many, beside the sorted list of them.
set -eu
. "$(dirname "$0")/../scratch.sh"
scratch_program checks checks_speed 'anyhow hg_types hg_log hg_checks'
scratch_run ' ns'
keep_program checks_speed
