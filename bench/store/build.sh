#!/bin/sh
# Proves the programs that run.sh measures beside `host`, and leaves them in build: store_speed adds batches of one size
# to a store, and store_threads has threads that push at one server and one ledger over a file.
#
#     bench/store/build.sh [NAME]
#
# NAME is one of them, if not both are wanted.
set -eu
. "$(dirname "$0")/../scratch.sh"

build() {
    scratch_program "$@"
    if ! "$rt" run > "$scratch/told" 2>&1; then
        grep -v -e ': proved' -e 'modules loaded' "$scratch/told" | tail -40
        exit 1
    fi
    keep_program "$2"
}

wanted=${1:-}
if [ "$wanted" != store_threads ]; then
    build store store_speed 'anyhow hg_types hg_store libc sha1 thiserror'
fi
if [ "$wanted" != store_speed ]; then
    serving='hg_types hg_stream hg_parts hg_repo hg_push hg_queue hg_serve hg_connection hg_store hg_commit hg_durable'
    build store/threads store_threads "anyhow $serving hg_recovery crossbeam_queue atomic_table thiserror"
fi
