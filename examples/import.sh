#!/usr/bin/env bash
# Brings a repository of any size to a server, in pieces that one push may have:
#
#     import.sh REPOSITORY URL [CHANGESETS]
#     import.sh REPOSITORY DIR [CHANGESETS]
#
# With a URL it pushes so many changesets at a time (1,000 where none are named), in the order of the repository, and
# fewer where a push is refused for its size. Nobody is asked for a name or a password: they stand in the settings.
# With DIR, the folder of a store that no server has open, it writes such pieces as bundles into DIR.pieces, 1 GiB of
# them at most, and `hg_pushd import` brings them in; then the next ones. The store is made where there is none, for
# a server that publishes where PUBLISHING is set. A line is written for each piece that is kept, so a run that was
# stopped, by whatever it was, goes on from there when it is run again. Public changesets arrive as public ones,
# drafts as drafts; bookmarks follow at the end. What is hidden or secret stays. It needs Mercurial's command hg; and
# hg_pushd with DIR, where HG_PUSHD or the path has it, and python3 for bookmarks there.
set -eu -o pipefail
case ${3-1} in "" | *[!0-9]* | 0*) set -- ;; esac
[ $# = 2 ] || [ $# = 3 ] || { sed -n '2,14s/^# \{0,1\}//p' "$0" >&2; exit 2; }
repository=$1 target=$2 most=${3:-1000}
export HGPLAIN=1
room=$(mktemp -d)
trap 'rm -rf "$room"' EXIT
trap 'exit 130' INT

# all that is pushed, in its order
all='(all() - secret())'
# how many changesets are in a set
size_of() {
    hg -R "$repository" log -r "$1" -T x | wc -c
}
count=$(size_of "$all")
# how many of the first ones are there, and how many may be in the next piece
done=0 size=$most

# the bookmarks of these, a line for each: its changeset and its name
bookmarks() {
    hg -R "$repository" log -r "bookmark() and $all" -T "{bookmarks % '{node} {bookmark}\n'}"
}

told() {
    echo "$done of $count changesets"
}

# stopped STATUS: ends where not all is there
stopped() {
    next=$(hg -R "$repository" log -r "limit($all, 1, $done)" -T ', before {node|short}' 2> /dev/null) || next=
    echo "import.sh: stopped behind $done of $count changesets$next; run it again to go on from there" >&2
    exit "$1"
}

# ---- to a server

# pushed WORDS..: pushes; that there is nothing to push is right
pushed() {
    local status=0
    hg -R "$repository" push -q "$@" "$target" > "$room/said" 2>&1 < /dev/null || status=$?
    [ "$status" -le 1 ]
}

# refused: says what went wrong, and ends
refused() {
    cat "$room/said" >&2
    stopped 1
}

push_all() {
    # the first changeset that the server has not: one discovery finds what earlier runs pushed
    local status=0 first last line
    hg -R "$repository" outgoing -q -r "$all" -T '{rev}\n' "$target" > "$room/missing" 2> "$room/said" < /dev/null ||
        status=$?
    case $status in
        0) first=$(sort -n "$room/missing" | sed -n 1p) done=$(($(size_of "$all and :$first") - 1)) ;;
        1) done=$count ;;
        *) refused ;;
    esac
    # where all are there, their phases are pushed
    while :; do
        last=$((done + size < count ? done + size : count))
        if pushed -f --new-branch -r "heads(limit($all, $last))"; then
            done=$last size=$((size + size / 8 + 1))
            size=$((size < most ? size : most))
            told
            [ "$done" -lt "$count" ] || break
        elif [ "$size" -gt 1 ]; then
            size=$(((size + 1) / 2))
        else
            refused
        fi
    done
    bookmarks > "$room/bookmarks"
    while IFS= read -r line; do
        pushed -B "${line#* }" || refused
        echo "bookmark ${line#* }"
    done < "$room/bookmarks"
}

# ---- to a store

# what a part may have, with the changesets of a piece in one part; how many bytes and pieces are in a batch at most;
# and how many pieces are in the next one
LONGEST=$((60 << 20)) BYTES=$((1 << 30)) PIECES=64 few=1

# piece FROM LAST FILE: the changesets behind the first FROM, up to the first LAST, with their phases
piece() {
    local base=null
    [ "$1" = 0 ] || base="heads(limit($all, $1))"
    hg -R "$repository" bundle -q --config experimental.bundle-phases=yes --type none-v2 --base "$base" \
        -r "heads(limit($all, $2))" "$3"
}

# writes the next pieces, a file for each and a line in `lasts`
write_pieces() {
    local from=$done last bytes=0 long number=0 file
    : > "$room/lasts"
    while [ "$from" -lt "$count" ] && [ "$bytes" -lt "$BYTES" ] && [ "$number" -lt "$few" ]; do
        last=$((from + size < count ? from + size : count)) file=$pieces/piece.$(printf '%02d' "$number")
        piece "$from" "$last" "$file"
        long=$(wc -c < "$file")
        # as many as would have three quarters of what a part may have, if they were as these
        size=$(((last - from) * (LONGEST / 4 * 3) / long))
        size=$((size < 1 ? 1 : size < most ? size : most))
        if [ "$long" -le "$LONGEST" ] || [ "$last" = $((from + 1)) ]; then
            echo "$last" >> "$room/lasts"
            from=$last bytes=$((bytes + long)) number=$((number + 1))
        fi
    done
    few=$((2 * few < PIECES ? 2 * few : PIECES))
}

# writes a piece of the bookmarks that the store has not as they are here
write_bookmarks() {
    : > "$room/lasts"
    bookmarks > "$room/bookmarks"
    [ ! -s "$room/bookmarks" ] || python3 -c '
import re, struct, sys
def quoted(name):
    return re.sub(rb"[^0-9A-Za-z]", lambda it: b"%%%02X" % ord(it[0]), name)
with open(sys.argv[1], "rb") as file:
    held = {tuple(line.split()[1:]) for line in file if line.startswith(b"B ")}
lines = [line.rstrip(b"\n").split(b" ", 1) for line in sys.stdin.buffer]
text = b"".join(bytes.fromhex(node.decode()) + struct.pack(">H", len(name)) + name for node, name in lines
                if (node, quoted(name)) not in held)
head = struct.pack(">B9sIBB", 9, b"BOOKMARKS", 0, 0, 0)
bundle = b"HG20" + bytes(4) + struct.pack(">I", len(head)) + head + struct.pack(">I", len(text)) + text + bytes(8)
if text:
    with open(sys.argv[2], "wb") as file:
        file.write(bundle)
' "$room/report" "$pieces/piece.00" < "$room/bookmarks"
}

# brings the pieces in that were written, and says behind each how far it is
import_pieces() {
    local line status=1
    while read -r line; do
        case $line in
            "status "*) status=${line#status } ;;
            *[!0-9]*) echo "import.sh: the next piece is not done: $line" >&2 ;;
            *) if read -r done <&3; then told; fi ;;
        esac
    done 3< "$room/lasts" < <(
        status=0
        "$program" import --store "$target" $publishing "$pieces"/piece.* < /dev/null || status=$?
        echo "status $status"
    )
    rm -f "$pieces"/piece.*
    [ "$status" = 0 ] || stopped "$status"
}

import_all() {
    program=${HG_PUSHD:-hg_pushd} publishing=${PUBLISHING:+--publishing} target=${target%/} pieces=${target%/}.pieces
    mkdir -p "$pieces"
    # what an earlier run started may be at work still
    exec 4< "$pieces"
    flock -n 4 || { echo "import.sh: another run is at work in $pieces" >&2; exit 1; }
    trap 'rm -rf "$room"; rm -f "$pieces"/piece.*; rmdir "$pieces" || :' EXIT
    rm -f "$pieces"/piece.*
    : > "$room/report"
    if [ -e "$target/pushes" ]; then
        # the first changesets are there, as many as an earlier run brought
        "$program" report --store "$target" > "$room/report"
        hg -R "$repository" log -r "$all" -T '{node}\n' > "$room/nodes"
        done=$(awk 'FILENAME == ARGV[1] { if ($1 == "C") has[$3] = 1; next } !($1 in has) { exit } { n++ }
            END { print n + 0 }' "$room/report" "$room/nodes")
        # a store keeps whether it publishes
        [ "$(od -An -tu1 -j9 -N1 "$target/pushes")" -eq 0 ] || publishing=--publishing
    fi
    while [ "$done" -lt "$count" ]; do
        write_pieces
        import_pieces
    done
    write_bookmarks
    [ ! -e "$pieces/piece.00" ] || import_pieces
}

case $target in
    *://*) push_all ;;
    *) import_all ;;
esac
