#!/usr/bin/env bash
# Runs the built program, and compares its status, what it writes and what it reports: tests/check.sh PROGRAM
set -u
program=$1
examples=$(cd "$(dirname "$0")/../examples" && pwd)
room=$(mktemp -d)
trap 'rm -rf "$room"' EXIT
failed=0

# wrong TEXT: something is not as wanted
wrong() {
    echo "$1"
    failed=1
}

# check NAME STATUS OUTPUT LINE WORDS..: standard input is $room/in; OUTPUT is a file; LINE is the first line
# on standard error.
check() {
    local name=$1 status=$2 output=$3 line=$4 got=0
    shift 4
    "$program" "$@" < "$room/in" > "$room/out" 2> "$room/err" || got=$?
    [ "$got" = "$status" ] && cmp -s "$room/out" "$output" && [ "$(head -n 1 "$room/err")" = "$line" ] ||
        wrong "$name: status $got, not $status, or another output or line than wanted"
}

: > "$room/nothing"
printf 'HG20\0\0\0\0\0\0\0\0' > "$room/empty"
# aborted MESSAGE: the reply to a push whose reading failed with these fifteen letters
aborted() {
    printf 'HG20\0\0\0\0\0\0\0\x2a\x0bERROR:ABORT\0\0\0\0\x01\0\x07\x0fmessage%s\0\0\0\0\0\0\0\0' "$1"
}
aborted 'stream fault 10' > "$room/truncated"
"$program" --version > "$room/version" || failed=1
[[ $(cat "$room/version") =~ ^hg_pushd\ [0-9]+\.[0-9]+\.[0-9]+$ ]] || wrong 'the version is not told'

cp "$examples/first-push.hg20" "$room/in"
check 'the first push' 0 "$room/empty" '' one
check 'the first push is published' 0 "$room/empty" '' one --publishing
check 'a missing subcommand' 2 "$room/nothing" \
    "error: 'hg_pushd' requires a subcommand but one was not provided"
check 'a bad word' 2 "$room/nothing" "error: unrecognized subcommand 'two'" two
check 'a word that is not text' 2 "$room/nothing" 'error: a word of the command line is not UTF-8' \
    "$(printf '\xff')"
head -c 80 "$examples/first-push.hg20" > "$room/in"
check 'a bundle that is cut short' 1 "$room/truncated" 'hg_pushd: push aborted' one
for command in one replay serve host import report log cut upgrade; do
    "$program" $command --help > "$room/help" || failed=1
    grep -q "^Example: hg_pushd $command " "$room/help" || wrong "the help of $command has no example"
done
"$program" --help | grep -q '^Status: 0 ' || wrong 'the help tells no status'

# Input that cannot be read: none, one for writing alone, and a folder. Output that cannot be written: none, a
# full device, and a pipe that nobody reads. Standard error may be any of these.
aborted 'connection lost' > "$room/lost"
# told NAME: the last command had the status 3 and told so
told() {
    [ "$1" = 3 ] && [ "$(cat "$room/err")" = 'hg_pushd: device fault' ] ||
        wrong "$2 is not told: status $1"
}
"$program" one <&- > "$room/out" 2> "$room/err"
told $? 'a closed standard input'
cmp -s "$room/out" "$room/lost" || wrong 'a closed standard input has another reply'
"$program" one 0> "$room/out" > "$room/out" 2> "$room/err"
told $? 'a standard input for writing'
"$program" one < "$room" > "$room/out" 2> "$room/err"
told $? 'a folder'
cmp -s "$room/out" "$room/lost" || wrong 'a folder has another reply'
"$program" one < "$examples/first-push.hg20" >&- 2> "$room/err"
told $? 'a closed standard output'
"$program" one < "$examples/first-push.hg20" > /dev/full 2> "$room/err"
told $? 'a full device'
mkfifo "$room/pipe"
exec 5<> "$room/pipe" 6> "$room/pipe" 5>&-
"$program" one < "$examples/first-push.hg20" >&6 2> "$room/err"
told $? 'a pipe that nobody reads'
exec 6>&-
"$program" one < "$examples/first-push.hg20" 2>&- > "$room/out" && cmp -s "$room/out" "$room/empty" ||
    wrong 'a closed standard error stops a push'
"$program" one < "$room/nothing" 2> /dev/full > "$room/out"
[ $? = 1 ] && cmp -s "$room/out" "$room/truncated" ||
    wrong 'a full standard error changes a status'
"$program" two 2>&-
[ $? = 2 ] || wrong 'a closed standard error changes the status of a bad word'
"$program" two 2> /dev/full
[ $? = 2 ] || wrong 'a full standard error changes the status of a bad word'
"$program" --help > /dev/full 2> "$room/err"
told $? 'a full device for the help'

# Pushes that Mercurial sent, one by one: the first of each row onto the empty repository is done, and the
# second, which rests on the first, is refused there. A reply tells of changesets that have one head more, or
# of none.
printf 'HG20\0\0\0\0\0\0\0\x2f\x11reply:changegroup\0\0\0\0\0\x02\x0b\x01\x06\x01%s\0\0\0\0\0\0\0\0' \
    in-reply-to2return1 > "$room/changesets"
first="$examples/pushes/first-changesets"
cp "$first/01.hg20" "$room/in"
check 'the first changesets' 0 "$room/changesets" '' one
# With a check of phases behind them: the first of them is public where the repository publishes, and else a
# draft.
printf 'HG20\0\0\0\0\0\0\0\x2d\x0fERROR:PUSHRACED\0\0\0\0\x01\0\x07\x0emessagephases changed\0\0\0\0\0\0\0\0' \
    > "$room/raced"
{
    head -c -4 "$first/01.hg20"
    printf '\0\0\0\x13\x0cCHECK:PHASES\0\0\0\x09\0\0\0\0\0\x18\0\0\0\0'
    printf '\x59\x77\x0a\xc3\x9f\x1b\xb4\xff\xd3\x1b\x19\xeb\x99\x8c\x38\x15\x54\x06\x93\xf0'
    printf '\0\0\0\0\0\0\0\0'
} > "$room/in"
check 'changesets that are published' 0 "$room/changesets" '' one --publishing
check 'changesets that are drafts' 1 "$room/raced" 'hg_pushd: push aborted' one
for row in "$examples"/pushes/*/; do
    words=(one)
    [ -e "$row/publishing" ] && words+=(--publishing)
    for push in 01 02; do
        [ -e "$row/$push.hg20" ] || continue
        wanted=1
        [ $push = 01 ] && wanted=$(head -n 1 "$row/statuses")
        got=0
        "$program" "${words[@]}" < "$row/$push.hg20" > "$room/out" 2> "$room/err" || got=$?
        [ "$got" = "$wanted" ] && [ "$(head -c 4 "$room/out")" = HG20 ] ||
            wrong "$row$push: status $got, not $wanted, or no reply"
    done
done

# The same pushes, each row whole: the report is what Mercurial's server held behind them. The status is 1
# where it refused one.
: > "$room/in"
for row in "$examples"/pushes/*/; do
    words=(replay)
    [ -e "$row/publishing" ] && words+=(--publishing)
    wanted=0 line=''
    if grep -qx 1 "$row/statuses"; then wanted=1 line='hg_pushd: push aborted'; fi
    check "the row $(basename "$row")" $wanted "$row/report" "$line" "${words[@]}" "$row"*.hg20
done

# Files that do not open, and one that opens and cannot be read: its push is cut, and the others follow.
check 'a replay of nothing' 2 "$room/nothing" \
    'error: the following required arguments were not provided:' replay
check 'a missing file' 3 "$room/nothing" 'hg_pushd: device fault' replay "$first/01.hg20" "$room/missing"
check 'a folder' 3 "$first/report" 'hg_pushd: device fault' replay "$room" "$first/01.hg20"
check 'a file that is not read' 3 "$first/report" 'hg_pushd: device fault' \
    replay /proc/self/mem "$first/01.hg20"
check 'no bundle without an end' 1 "$first/report" 'hg_pushd: push aborted' replay /dev/zero "$first/01.hg20"
check 'a push that was cut short' 1 "$first/report" 'hg_pushd: push aborted' \
    replay "$room/truncated" "$first/01.hg20"
"$program" replay "$first/01.hg20" > /dev/full 2> "$room/err"
told $? 'a full device for a report'
[ $failed = 0 ] && echo 'The program: all runs as wanted.'
exit $failed
