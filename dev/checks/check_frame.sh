#!/bin/sh
# Each script that is installed has the same frame: --help, --version and --words on standard output with status 0; a wrong word is named in one
# line, with status 2; a text comes from a file or from standard input alike; and no input makes a traceback. NOT PROVED; it trusts the Makefile
# for which scripts are installed.
#
#     dev/do check_frame
#
# Prints a line for each group that holds. Ends with 1 at the first that doesn't, which a sentence tells. It takes a minute, and no program.
# shellcheck source=dev/parts/checking.sh
. "$(dirname "$0")/../parts/checking.sh"
tools=$(sed -n 's/^COMMANDS = //p' Makefile | tr ' ' '\n')
version=$(sed -n 's/^version: //p' CITATION.cff)

# Runs a script over an empty standard input: its status has to be this one.
ends() {
    wanted=$1 tool=$2
    shift 2
    status=0
    "tools/$tool" "$@" < "$work/input" > "$work/written" 2> "$work/told" || status=$?
    [ "$status" = "$wanted" ] || fail "$tool $*: status $status: $(cat "$work/told")"
    if grep -q Traceback "$work/told"; then fail "$tool $*: $(tail -n 1 "$work/told")"; fi
}
one_line() {
    [ ! -s "$work/written" ] || fail "$1 writes something"
    [ "$(wc -l < "$work/told")" = 1 ] || fail "$1 tells $(wc -l < "$work/told") lines"
    case $(cat "$work/told") in "$1: $2"*) ;; *) fail "$1 doesn't name $2: $(cat "$work/told")" ;; esac
}

: > "$work/input"
for tool in $tools; do
    for word in --help -h; do
        ends 0 "$tool" "$word"
        [ ! -s "$work/told" ] || fail "$tool $word: $(cat "$work/told")"
        grep -q "tools/$tool" "$work/written" || fail "$tool $word: $(cat "$work/written")"
    done
    ends 0 "$tool" --version
    [ "$(cat "$work/written")" = "$tool of Polylab $version" ] || fail "$tool --version: $(cat "$work/written"), and CITATION.cff has $version"
    ends 0 "$tool" --words
    if [ "$(grep -c -e '^--help$' -e '^--version$' "$work/written")" != 2 ] || grep -qv '^--[a-z-]*$' "$work/written"; then
        fail "$tool --words: $(cat "$work/written")"
    fi
    ends 2 "$tool" --no-such-option
    one_line "$tool" --no-such-option
    case $tool in
        answer | draw_packings) continue ;;
    esac
    ends 2 "$tool" one two three four five
    one_line "$tool" ''
done
for line in 'slices --steps:--steps' 'slices --steps 0 x:--steps 0' 'slices --seconds 1.5 x:--seconds 1.5' 'parts 0 x:0' 'parts x y:x' 'parts 3:FOLDER' \
    'draw_packings x 1:x' 'draw_packings x y:y' 'join:FOLDER' 'answer:PART..' 'session:PROBLEM' 'check_packings:FILE.puzzle' 'one_of_each --puzzle:--puzzle' 'unique --given:--puzzle' 'page --rotations:--rotations' \
    'convert:JOB' 'convert x:x' 'convert json --edge 3:--edge' 'convert stl:FOLDER'; do
    # shellcheck disable=SC2086
    ends 2 ${line%:*}
    one_line "${line%%[ :]*}" "${line##*:}"
done
echo "ok help, version and wrong words of $(echo "$tools" | wc -l) scripts"

# A text as a file, as standard input, and as the word `-`.
printf 'piece A 000 100\npiece B 000 100\nbox 2 2 1\n' > "$work/two.puzzle"
printf 'packing 1\nAB\nAB\npacking 2\nAA\nBB\npacking 3\nBB\nAA\npacking 4\nBA\nBA\npackings 4\n' > "$work/two.solved"
printf '> show\nat X1 -\ncovered -\n' > "$work/two.session"
alike() {
    file=$1 tool=$2
    shift 2
    "tools/$tool" "$@" "$file" > "$work/by_file" 2> "$work/told" || fail "$tool $*: of a file"
    "tools/$tool" "$@" < "$file" > "$work/by_input" 2> "$work/told" || fail "$tool $*: of standard input"
    "tools/$tool" "$@" - < "$file" 2> "$work/told" | cmp "$work/by_input" - || fail "$tool $*: of -"
    cmp "$work/by_file" "$work/by_input" || fail "$tool $*: of standard input, another output"
}
alike "$work/two.puzzle" count_packings
alike "$work/two.puzzle" count_packings --cover
alike "$work/two.puzzle" explain
alike "$work/two.solved" check_packings "$work/two.puzzle"
alike "$work/two.solved" draw_packings 2 4
alike "$work/two.solved" one_of_each --rotations --puzzle "$work/two.puzzle"
alike "$work/two.solved" page --title two
alike "$work/two.session" page --session
alike "$work/two.solved" convert json
alike "$work/two.solved" convert layers
alike "$work/two.solved" unique --given --puzzle "$work/two.puzzle"
echo "ok a file, or standard input"

# Broken texts, each to each script that reads one, which one Python starts again and again.
dev/do broken_texts "$work" || fail "a broken text"
echo "ok broken texts"
if tools/page /dev/null > /dev/full 2> "$work/told"; then fail "a page of nothing"; fi
if tools/draw_packings "$work/two.solved" > /dev/full 2> "$work/told"; then fail "a full disk takes a picture"; fi
grep -q 'standard output: No space left' "$work/told" || fail "$(cat "$work/told")"

# Packings are read one after the other, and somebody at a terminal is told how far a script is.
dev/do little_memory "$work" || fail "packings take memory, or no progress is told"
echo "ok memory and progress"

