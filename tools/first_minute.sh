#!/usr/bin/env bash
# Tries what a new user does, in a fresh clone of this repository with nothing built, and prints the times.
#
#   tools/first_minute.sh           the first runs without proofs; then a proof that is interrupted twice
#   tools/first_minute.sh --whole   the same, but the second proof runs to its end: more than half an hour on four processors
#
# Each check that fails is printed, and the status is then 1. Nothing of it is part of the gate.
set -u
top=$(cd "$(dirname "$(readlink -f "$0")")/.." && pwd) || exit 4
place=$(mktemp -d) || exit 4
trap 'rm -rf "$place"' EXIT
failed=0

check() { # what it is, and the command that shows it
    local what=$1
    shift
    if "$@"; then printf 'ok      %s\n' "$what"; else
        printf 'FAILED  %s\n' "$what"
        failed=1
    fi
}

seconds_of() { # runs the words after the first, whose output goes to the file $1, and prints the seconds
    local out=$1 began
    shift
    began=$(date +%s.%N)
    "$@" <"$place/clone/examples/one_object.scenario" >"$out" 2>"$out.err"
    printf '%s\n' "$(echo "$(date +%s.%N) $began" | awk '{printf "%.1f", $1 - $2}')"
}

proves_for() { # runs --prove for $1 seconds, then interrupts it; its lines go to the file $2
    local pid
    setsid "$place/clone/bpfmem" --prove 2>"$2" &
    pid=$!
    sleep "$1"
    # a shell in the background ignores the signal of Ctrl-C, so it gets the other one that the script takes for an interrupt
    kill -TERM -- "-$pid" 2>/dev/null
    wait "$pid"
}

git clone -q "$top" "$place/clone" || exit 4
cd "$place/clone" || exit 4
two=$(seq -s, 0 1)

first=$(seconds_of "$place/first" taskset -c "$two" ./bpfmem replay)
printf '%6s s  the first run, on two processors\n' "$first"
check 'it prints the journal' cmp -s "$place/first" examples/one_object.journal
check 'one line on standard error' test "$(wc -l <"$place/first.err")" = 1
check 'within 90 seconds' awk "BEGIN { exit !($first <= 90) }"

second=$(seconds_of "$place/second" taskset -c "$two" ./bpfmem replay)
printf '%6s s  the second run\n' "$second"
check 'it prints the journal' cmp -s "$place/second" examples/one_object.journal
check 'one line on standard error' test "$(wc -l <"$place/second.err")" = 1
check 'at once' awk "BEGIN { exit !($second <= 1) }"

./bpfmem --proved replay </dev/null >"$place/none" 2>&1
check '--proved refuses to run what is not proved' test $? = 4

proves_for 240 "$place/prove1"
printf 'the first proof, interrupted after 240 s:\n'
tail -n 2 "$place/prove1"
check 'it shows how far it is' grep -q 'crates proved' "$place/prove1"
if [ "${1-}" = --whole ]; then
    began=$(date +%s)
    ./bpfmem --prove 2>"$place/prove2"
    check 'the second proof ends and builds' test $? = 0
    printf '%6s min  the second proof, to its end\n' $((($(date +%s) - began) / 60))
    third=$(seconds_of "$place/third" ./bpfmem replay)
    printf '%6s s  a run of the proved program\n' "$third"
    check 'it prints the journal' cmp -s "$place/third" examples/one_object.journal
    check 'without a word' test ! -s "$place/third.err"
else
    proves_for 240 "$place/prove2"
    printf 'the second proof, interrupted after 240 s:\n'
    tail -n 2 "$place/prove2"
fi
check 'the second proof goes on where the first was' awk '
    match($0, /: [0-9]+ of /) { n = substr($0, RSTART + 2) + 0; if (FILENAME == ARGV[1]) last = n; else if (n >= last && n > 0) good = 1 }
    END { exit !good }' "$place/prove1" "$place/prove2"
exit "$failed"
