#!/bin/sh
# MB/s of `hg_cgroup::decode` and `hg_delta::apply`, beside a copy of the same bytes in the same run: name,
# MB/s, times the copy's time.
set -eu
. "$(dirname "$0")/../scratch.sh"
scratch_program changegroups changegroup_speed 'anyhow hg_types hg_delta hg_cgroup'
scratch_run 'MB/s'
