#!/bin/sh
# What `add` and `heads` of the changelog cost, beside `Sha1` of the same bytes in the same run.
set -eu
. "$(dirname "$0")/../scratch.sh"
scratch_program changelog changelog_speed 'anyhow hg_types hg_log sha1'
scratch_run ' ns'
keep_program changelog_speed
