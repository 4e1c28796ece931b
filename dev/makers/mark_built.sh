#!/bin/sh
# Notes that the program which the gate has just built in this checkout is of its sources, so that ./polylab doesn't prove it again, and how that
# is known. NOT PROVED: it trusts rt's record, the sums of what `rt ci` proved and built, or the gate's own last line.
#
#     dev/do mark_built           # where rt keeps a record of this program: of what passed, in rattle-kept beside the toolchain's folder
#     dev/do mark_built SAID      # where SAID, what `rt ci` printed, ends with `0 failed`, and the program is no newer
#
# A program that is there for another reason, as one that was built without its proofs, isn't noted. Ends with 1 and a sentence where the gate
# left no program, or nothing says that it was proved.
set -eu

here=$(CDPATH='' cd "$(dirname "$0")/../.." && pwd -P)
. "$here/dev/makers/built.sh"

stop() {
    echo "mark_built: $*" >&2
    exit 1
}

# The names of rt's records that have the sum of this program.
recorded() {
    kit=$(dirname "$(dirname "$(readlink -f "$(command -v rt)")")")
    sum=$(sha256sum < "$program" | cut -d ' ' -f 1)
    for record in "$(dirname "$kit")"/rattle-kept/proof-polylab-*/made.json; do
        if grep -qF "[\"polylab\", \"$sum\"]" "$record" 2> /dev/null; then basename "$(dirname "$record")"; fi
    done
}

[ -x "$program" ] || stop "the gate left no program"
if [ $# = 0 ]; then
    record=$(recorded | head -n 1)
    [ -n "$record" ] || stop "rt has no record that it proved this program: run rt ci, or ./polylab, which proves and builds it"
    how="by rt ci, of which rt keeps $record"
else
    last=$(tail -n 1 "$1") || stop "$1 can't be read"
    echo "$last" | grep -qx '[0-9]* passed, 0 failed' || stop "$1 doesn't end as a gate that passed: $last"
    # shellcheck disable=SC3013  # (dash and bash know -nt)
    if [ "$program" -nt "$1" ]; then stop "the program is newer than $1"; fi
    how="by rt ci, which ended with \`$last\`"
fi
mark "$(sources)" "$how"
