#!/bin/sh
# What parts that advance phases cost in the worst case, as their bytes double.
set -eu
. "$(dirname "$0")/../../scratch.sh"
top=$(cd "$(dirname "$0")/../../.." && pwd)
scratch_program hostile/phases hostile_phases 'anyhow hg_types hg_log hg_phases hg_parts'
scratch_run ' ms'
keep_program hostile_phases
