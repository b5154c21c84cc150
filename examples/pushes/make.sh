#!/usr/bin/env bash
# Makes the pushes of this folder anew, with Mercurial itself (version 6): for each folder NAME the bundles
# 01.hg20, 02.hg20, .. that its client sent, and the file `report` with what its server's repository held
# afterwards, printed as hg_pushd prints it. A file `publishing` stands beside the bundles where the server
# publishes; `statuses` has the status of each push, a line each: 0 where Mercurial took it, 1 where it did
# not.
#
#   bash examples/pushes/make.sh [FOLDER]
set -eu
here=$(cd "$(dirname "$0")" && pwd)
to=${1:-$here}
mkdir -p "$to"
work=$(mktemp -d)
trap 'rm -rf "$work"' EXIT
cat > "$work/hgrc" <<RC
[ui]
username = test
interactive = no
[devel]
default-date = 0 0
[phases]
publish = no
[experimental]
evolution = createmarkers, allowunstable, exchange
[pushes]
changegroups = 01 02
[extensions]
server = $here/server.py
rebase =
RC
export HGRCPATH="$work/hgrc" HGPLAIN=1 LC_ALL=C

# begin NAME: a new server and a client of it
begin() {
  name=$1; count=0; server="$work/$name/server"; client="$work/$name/client"
  rm -rf "${to:?}/$name"
  mkdir -p "$to/$name" "$work/$name"
  hg init "$server"
  hg clone -q "$server" "$client"
  cd "$client"
}

# an option of the server
offers() { printf '[%s]\n%s\n' "$1" "$2" >> "$server/.hg/hgrc"; }

# commit FILE TEXT: a changeset that writes the text to the file
commit() { printf '%s\n' "$2" > "$1"; hg add -q "$1" 2> /dev/null || true; hg commit -q -m "$1: $2"; }

# push WORDS..: one push, kept
push() {
  count=$((count + 1))
  local file; file=$to/$name/$(printf '%02d' "$count").hg20
  PUSH_BYTES=$file PUSH_STATUS=$to/$name/statuses hg push -q "$@" > "$work/said" 2>&1 || true
  [ -s "$file" ] || { echo "$name: push $count sent nothing: $(cat "$work/said")" >&2; exit 1; }
}

# hold WORDS..: the bytes of a push that does not reach its server yet, for `late`
hold() { PUSH_BYTES=$work/$name/held PUSH_HELD=1 hg push -q "$@" > "$work/said" 2>&1 || true; }

# late: the push that was held back reaches its server
late() {
  count=$((count + 1))
  local file; file=$to/$name/$(printf '%02d' "$count").hg20
  cp "$work/$name/held" "$file"
  PUSH_STATUS=$to/$name/statuses hg -R "$server" unbundle-push "$file" > "$work/said" 2>&1 || true
}

end() { hg -R "$server" report > "$to/$name/report"; cd "$work"; }

begin first-changesets
commit a 1; commit b 1; commit a 2
push
end

begin publishing
touch "$to/$name/publishing"
offers phases 'publish = yes'
commit a 1
push
commit a 2; commit b 1
push
end

begin changegroup-01
offers pushes 'changegroups = 01'
commit a 1; commit a 2
push
hg update -q 0; commit b 1
push -f
end

begin merge
commit a 1
push
commit b 1
hg update -q 0; commit c 1
push -f
hg merge -q 1; hg commit -q -m 'merge'
push
end

begin branches
commit a 1
push
hg branch -q stable; commit a 2
push --new-branch
hg update -q default; commit b 1
push
end

begin amended
commit a 1
push
commit b 1
push
printf '2\n' > b; hg commit -q --amend -m 'b: 2'
push -f
printf '3\n' > b; hg commit -q --amend -m 'b: 3'
push -f
end

begin rebased
commit a 1
push
commit b 1; commit c 1
push
hg update -q 0; commit d 1
hg rebase -q -s 1 -d 3
push -f
end

begin bookmarks
commit a 1
hg bookmark -q main
push -B main
commit a 2
push -B main
hg bookmark -q 'a name/with signs'
push -B 'a name/with signs'
hg bookmark -q -d main
push -B main
end

begin bookmarks-by-pushkey
offers pushes 'bookmarks = no'
commit a 1
hg bookmark -q main
push -B main
commit a 2
push -B main
hg bookmark -q -d main
push -B main
end

begin phases
commit a 1; commit b 1
push
hg phase -q --public 0
push
hg phase -q --public 1
push
end

begin phases-by-pushkey
offers pushes 'phases = no'
commit a 1; commit b 1
push
hg phase -q --public 1
push
end

begin secret-stays
commit a 1
commit b 1
hg phase -q --secret --force 1
push -r 0
hg phase -q --draft 1
push
end

begin race
commit a 1
push
hg clone -q "$server" "$work/$name/other"
commit b 1
hold
cd "$work/$name/other"; commit c 1
push
cd "$client"
late
end

begin many
hg debugbuilddag -q --overwritten-file --new-file '+500'
push
end

cd "$to"
ls -d -- */ | while read -r name; do echo "${name%/}: $(ls "$name" | grep -c hg20) pushes"; done
