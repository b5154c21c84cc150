#!/bin/sh
# What `register`, `phase` and `advance` of phases cost at few rows and at many, and `draft_roots` by the roots.
set -eu
. "$(dirname "$0")/../scratch.sh"
scratch_program phases phases_speed 'anyhow hg_types hg_log hg_phases'
scratch_run ' ns'
keep_program phases_speed
