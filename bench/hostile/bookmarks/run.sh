#!/bin/sh
# What new names cost among bookmarks in the worst case, as they double, and the way back from them.
set -eu
. "$(dirname "$0")/../../scratch.sh"
top=$(cd "$(dirname "$0")/../../.." && pwd)
scratch_program hostile/bookmarks hostile_bookmarks 'anyhow hg_types hg_keys'
scratch_run ' ms'
keep_program hostile_bookmarks
