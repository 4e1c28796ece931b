#!/bin/sh
# Compares what the program prints of examples with what is known of them. NOT PROVED; it trusts the files NAME.expect and NAME.up-to.expect.
#
#     dev/do gallery puzzles/NAME covers/NAME first/NAME ..
#
# Of a puzzle `count --classes` is compared with NAME.expect, and `count --up-to rotations` and then `count --up-to symmetries` with
# NAME.up-to.expect; of a cover text the last three lines of `cover`, and of first/NAME the first packing. WORKERS says how many workers search,
# without it 1, and TABLE by which table, without it the one that suits. Prints a line for each, and what differs; ends with 1 where anything
# does.
set -u
CDPATH='' cd "$(dirname "$0")/../.." || exit 1
failed=0
workers=${WORKERS:-1}
table=${TABLE:+--table $TABLE}
seen=$(mktemp) || exit 1
trap 'rm -f "$seen"' EXIT

# What was printed has to be what is known.
compare() {
    if difference=$(diff "examples/$1.expect" "$seen" 2>&1); then
        echo "ok $1 by $workers${TABLE:+ with $TABLE}"
    else
        printf '%s\n' "different $1" "$difference"
        failed=1
    fi
}

for name; do
    # (no table is no word)
    # shellcheck disable=SC2086
    case $name in
        puzzles/*)
            for group in rotations symmetries; do
                ./polylab count --workers "$workers" $table --up-to "$group" < "examples/$name.puzzle"
            done > "$seen"
            compare "$name.up-to"
            ./polylab count --workers "$workers" $table --classes < "examples/$name.puzzle" > "$seen"
            ;;
        covers/*) ./polylab cover --workers "$workers" $table < "examples/$name.cover" | tail -n 3 > "$seen" ;;
        first/*) ./polylab solve --first 1 < "examples/$name.puzzle" > "$seen" ;;
        *) : > "$seen" ;;
    esac
    compare "$name"
done
exit "$failed"
