#!/bin/sh
# What a look-up and a `set` of bookmarks cost among few and among many.
set -eu
. "$(dirname "$0")/../scratch.sh"
scratch_program keys keys_speed 'anyhow hg_types hg_keys'
scratch_run ' ns'
keep_program keys_speed
