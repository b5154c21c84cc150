#!/usr/bin/env bash
# Installs a program in a folder, looks at its manual and its completions, and makes the Debian package:
# tests/install.sh PROGRAM
# What needs a shell or a tool that is not there is left out, and it says so.
set -u
program=$(realpath "$1")
top=$(cd "$(dirname "$0")/.." && pwd)
room=$(mktemp -d)
trap 'rm -rf "$room"' EXIT
seen=0 failed=0

# see WHAT COMMAND..: the command succeeds
see() {
    local what=$1
    shift
    if "$@" > "$room/said" 2>&1; then seen=$((seen + 1)); else
        failed=$((failed + 1)); echo "$what: not as wanted"; tail -n 5 "$room/said"
    fi
}
# without TOOL WHAT: whether a tool is missing, which is said
without() { ! command -v "$1" > /dev/null && echo "left out, as $1 is not there: $2"; }

DESTDIR=$room/to PREFIX=/opt/push python3 "$top/tools/package.py" install "$program" || exit 1
at=$room/to/opt/push
for file in bin/hg_pushd bin/deqtorap share/man/man1/hg_pushd.1 share/bash-completion/completions/hg_pushd \
    share/zsh/site-functions/_hg_pushd share/fish/vendor_completions.d/hg_pushd.fish \
    share/deqtorap/{{mirror,hook,canonical,incoming}.py,import.sh} lib/sysusers.d/deqtorap.conf \
    lib/systemd/system/deqtorap-{host,hook,mirror,host@,hook@,mirror@,hgweb,hgweb-all}.service \
    share/doc/deqtorap/docs/team.md share/doc/deqtorap/examples/{deqtorap-one.conf,rules.py} \
    share/doc/deqtorap/LICENSE-MIT share/doc/deqtorap/mirror/COPYING
do
    see "$file is installed" test -s "$at/$file"
done
see 'the program runs from its place' "$at/bin/hg_pushd" --version
see 'units name the places of this installation' \
    sh -c "grep -q /opt/push/ $at/lib/systemd/system/*.service &&
        ! grep -r /usr/local/ $at/lib $at/share/doc/deqtorap/examples"

if ! without systemd-sysusers 'the users'; then
    mkdir -p "$room/users/etc"
    see 'the users are made' systemd-sysusers --root="$room/users" "$at/lib/sysusers.d/deqtorap.conf"
    see 'there are two of them' \
        test "$(cut -d : -f 1 "$room/users/etc/passwd" | sort | tr '\n' ' ')" = 'deqtorap deqtorap-mirror '
fi

# The manual has each command and option of the help, and no line that roff does not know.
commands=$("$program" --help | sed -n '/^Commands:/,/^$/s/^  \([a-z]*\) .*/\1/p' | grep -v '^help$')
for command in one replay serve host import report log cut upgrade; do
    see "the program has $command" grep -qx "$command" <(echo "$commands")
done
words=$("$program" --help; for command in $commands; do "$program" "$command" --help; done)
if ! without man 'the manual'; then
    MANWIDTH=200 man -l "$at/share/man/man1/hg_pushd.1" > "$room/manual" 2> /dev/null
    for word in $(echo "$words" | grep -o '^ *\(-., \)\?--[a-z-]*' | grep -o -- '--[a-z-]*' | sort -u); do
        see "the manual has $word" grep -q -- "$word" "$room/manual"
    done
    for command in $commands; do
        see "the manual has a synopsis of $command" grep -q "^ *hg_pushd $command" "$room/manual"
        see "the manual has a section of $command" grep -q "^ *$command$" "$room/manual"
        see "the manual says what $command does" \
            grep -qF "$("$program" "$command" --help | head -n 1)" "$room/manual"
    done
    see 'the manual has an example' grep -q 'hg_pushd serve --listen' "$room/manual"
    see 'roff knows each line of the manual' \
        sh -c "test -z \"\$(man --warnings -l $at/share/man/man1/hg_pushd.1 2>&1 > /dev/null)\""
fi

# completes WORDS..: what bash offers for the last word
completes() {
    bash -c '. "$1"; shift; COMP_WORDS=(hg_pushd "$@") COMP_CWORD=$#; _hg_pushd
        printf "%s\n" "${COMPREPLY[@]}"' - "$at/share/bash-completion/completions/hg_pushd" "$@"
}
see 'bash completes a command' test "$(completes repl)" = replay
for command in $commands; do
    see "bash completes $command" test "$(completes "$command")" = "$command"
    see "bash completes the options of $command" \
        test "$(completes "$command" --hel)" = --help
done
see 'bash completes a folder' test "$(cd "$top" && completes cut --store doc)" = docs
see 'bash completes an option' test "$(completes serve --conn)" = --connections
see 'bash completes a file' test "$(cd "$top" && completes replay Make)" = Makefile
see 'bash offers nothing for an address' test -z "$(completes serve --listen '')"
if ! without zsh 'its completions'; then
    see 'zsh reads its completions' zsh -n "$at/share/zsh/site-functions/_hg_pushd"
    for command in $commands; do
        see "zsh completes $command" grep -q "'$command:" "$at/share/zsh/site-functions/_hg_pushd"
    done
fi
if ! without fish 'its completions'; then
    offered=$(HOME=$room fish -c "source $at/share/fish/vendor_completions.d/hg_pushd.fish
        complete -C 'hg_pushd serve --conn'" | cut -f 1)
    see 'fish completes an option' test "$offered" = --connections
    offered=$(HOME=$room fish -c "source $at/share/fish/vendor_completions.d/hg_pushd.fish
        complete -C 'hg_pushd '" | cut -f 1)
    for command in $commands; do
        see "fish completes $command" grep -qx "$command" <(echo "$offered")
    done
fi

if ! without dpkg-deb 'the Debian package'; then
    see 'the package can be made' python3 "$top/tools/package.py" deb "$program" "$room/deb"
    package=$(ls "$room"/deb/*.deb)
    see 'the package is made' dpkg-deb --info "$package"
    dpkg-deb -R "$package" "$room/package"
    see 'the packaged program runs' "$room/package/usr/bin/hg_pushd" --version
    see 'the package has the copyright' test -s "$room/package/usr/share/doc/deqtorap/copyright"
    see 'what the package holds has its checksum' sh -c "cd $room/package && md5sum --quiet -c DEBIAN/md5sums"
    see 'nothing of the package belongs to a user' \
        sh -c "! dpkg-deb -c $package | awk '{ print \$2 }' | grep -v '^root/root$'"
fi
echo "install.sh: $seen as wanted, $failed not"
[ "$failed" = 0 ]
