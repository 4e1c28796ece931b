#!/bin/bash
# The program's exit statuses, each by a run of the program itself, with what it writes. NOT PROVED; it trusts the system to refuse memory and
# output as it is asked to.
#
#     dev/do check_statuses
#
# Prints a line for each status. Ends with 1 where one is another, which a line tells.
set -u
CDPATH='' cd "$(dirname "$0")/../.." || exit 1
./polylab --version > /dev/null || exit 1
program=crates/polylab/out/polylab
work=$(mktemp -d) || exit 1
trap 'rm -rf "$work"' EXIT
failed=0

# Compares the status of the last run, its number of bytes of output, and its first line on standard error.
was() {
    local status=$? name=$1 wanted=$2 bytes=$3 line=$4
    local told
    told=$(head -n 1 "$work/told")
    if [ "$status" = "$wanted" ] && [ "$(wc -c < "$work/written")" = "$bytes" ] && [ "$told" = "$line" ]; then
        echo "ok status $wanted: $name"
    else
        echo "check_statuses: $name: status $status, $(wc -c < "$work/written") bytes, '$told'" >&2
        failed=1
    fi
}

"$program" cover < examples/covers/small.cover > "$work/written" 2> "$work/told"
was "a cover text" 0 45 ""
"$program" covers < /dev/null > "$work/written" 2> "$work/told"
was "a word that is no job" 2 0 "error: unrecognized subcommand 'covers'"
"$program" count --workers 33 < /dev/null > "$work/written" 2> "$work/told"
was "more workers than there may be" 2 0 "error: invalid value '33' for '--workers <N>': 33 is not in 1..=32"
"$program" $'\xff' < /dev/null > "$work/written" 2> "$work/told"
was "a word that is no text" 2 0 "error: the words of the command line are not text"
echo 'piece A 000 000' | "$program" count > "$work/written" 2> "$work/told"
was "a text that is refused" 3 0 "refused puzzle 3 RepeatedCell line 1"
yes "#" | head -c 50000000 > "$work/long"
(ulimit -v 40000 && "$program" cover < "$work/long" > "$work/written" 2> "$work/told")
was "too little memory" 4 0 "refused memory"
"$program" cover < . > "$work/written" 2> "$work/told"
was "input that can't be read" 5 0 "refused input"
: > "$work/written"
"$program" cover < examples/covers/small.cover > /dev/full 2> "$work/told"
was "output that can't be written" 5 0 "refused output"
exit "$failed"
