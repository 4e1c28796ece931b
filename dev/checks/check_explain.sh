#!/bin/sh
# Asks tools/explain why texts have nothing that fits, or are refused. NOT PROVED; it trusts examples/ for the numbers of options, and the
# program for which fault of a text is the first.
#
#     dev/do check_explain
#
# Prints a line for each group that holds. Ends with 1 at the first that doesn't, which a sentence tells. It needs the built program.
# shellcheck source=dev/parts/checking.sh
. "$(dirname "$0")/../parts/checking.sh"
puzzles=examples/puzzles

# Why nothing fits: each of these has to end with 1 and a line that says it.
explains() {
    if printf '%b' "$1" | tools/explain - > "$work/said"; then fail "explain: $2: nothing found"; fi
    grep -q "$2" "$work/said" || fail "explain: no $2 in: $(cat "$work/said")"
}
explains 'piece A 000 100\nbox 3 1 1\n' 'so nothing fits: the pieces have 1 cell too few'
explains 'piece A 000 100 200\ncells 000 100 110\n' 'piece A has no place'
explains 'piece A 000 100\ncells 000 100 300\npiece B 000\n cut 000 100\n' 'too many'
explains 'piece A 000 100\n\npiece B 000 0x0\nbox 3 1 1\n' 'refused: line 3, column 14: BadCell'
explains 'piece A 000\npiece A 000\n' 'line 2, column 7: RepeatedPiece'
tools/explain "$puzzles/soma-cube.puzzle" > "$work/said" || fail "explain of soma-cube"
# A cache is for pieces that are used any number of times, and not for others.
if grep -q -e '--cache' "$work/said"; then fail "explain of soma-cube names a cache"; fi
tools/explain "$puzzles/dominoes-6x6.puzzle" > "$work/said" || fail "explain of dominoes-6x6"
grep -q "^note: .* .polylab count --cache 1000. counts" "$work/said" || fail "explain of dominoes-6x6 names no cache"
# All faults of a text; what the program takes at most; what may not be meant.
explains '\0357\0273\0277piece A 000 0x0\nbox 3 1 1\nbox 2 1 1\n' 'column 1: BadLine: a byte-order mark'
for told in 'also refused: line 1, column 17: BadCell' 'also refused: line 3, column 1: SecondBox'; do
    grep -q "^$told" "$work/said" || fail "explain: no $told in: $(cat "$work/said")"
done
explains 'piece A 000 \0302\0240 100\n' 'the character U+00A0, NO-BREAK SPACE'
explains 'items a\noption a\n' '^note: this looks like a cover text: ./polylab cover FILE lists its covers'
# Words that were mistyped, and texts of other kinds.
explains 'peice A 000\n' 'line 1, column 1: BadLine: .peice. is no first word of a line; is .piece. meant?$'
explains 'box 1 1 1\nPiece A 000\n' 'line 2, column 1: BadLine: .Piece. is no first word of a line; is .piece. meant?$'
explains 'mirror cell 000\n' 'is no first word of a line after .mirror.; is .cells. meant?$'
explains '// a comment\n' 'line 1, column 1: BadLine: .//. is no first word of a line; a comment begins with .#.$'
explains 'frobnicate\n' 'line 1, column 1: BadLine: .frobnicate. is no first word of a line$'
explains '\0037\0213\010\0000' '^note: this looks like a file of BurrTools: tools/convert xmpuzzle FILE makes'
explains '<?xml version="1.0"?>\n<puzzle version="2">\n' '^note: this looks like a file of BurrTools: tools/convert xmpuzzle FILE makes'
[ "$(grep -c '^refused\|^also' "$work/said")" = 1 ] || fail "explain of XML: $(cat "$work/said")"
explains 'packing 1\nAB\npackings 1\n' '^note: this looks like what .solve. prints'
explains 'polysnap 1\nproblem 1\n' '^note: this looks like a snapshot: ./polylab resume'
explains 'piece A\n##.\n.##\nregion\n###\n' '^note: this looks like pieces and a region that are drawn: tools/convert layers'
if printf 'itms a\noption a\n' | tools/explain --cover > "$work/said"; then fail "explain --cover of a mistyped word"; fi
grep -q 'is no first word of a line: these are .items., .maybe. and .option.; is .items. meant?$' "$work/said" || fail "explain --cover: $(cat "$work/said")"
explains 'piece A 000 100\nbox 1 1 1\n' '^so nothing fits: the pieces have 1 cell too many$'
grep -qx 'region: 1 cell' "$work/said" || fail "explain: $(cat "$work/said")"
grep -qx '  A 0 (2 cells)' "$work/said" || fail "explain: $(cat "$work/said")"
{ echo 'box 16 16 16'; for name in A B C D E; do echo "piece $name 000 100 200 210 211 311"; done; } > "$work/large"
if tools/explain "$work/large" > "$work/said"; then fail "explain: a puzzle that is too large"; fi
for told in '  A 70200' 'refused: place 1 TooManyOptions: 351000 ways where the program takes 262143' 'note: pieces A B C D E have one shape: .*, 120 times'; do
    grep -q "^$told" "$work/said" || fail "explain: no $told in: $(cat "$work/said")"
done
[ "$(./polylab count < "$work/large" 2>&1)" = 'refused place 1 TooManyOptions' ] || fail "the program takes what explain refuses"
explains 'box 16 16 16\ncut 000\npiece A 100 200 210 330\n' 'so nothing fits: the pieces have 4091 cells too few'
[ "$(wc -c < "$work/said")" -lt 1000 ] || fail "explain prints $(wc -c < "$work/said") bytes of a large region"
printf 'piece A 000 200 210\npiece B 000 100\npiece C 000 010\nbox 3 3 1\ncut 555 000\nmaybe cells 000 500\nmaybe piece e 000 100 200 300 400\n' > "$work/odd"
tools/explain "$work/odd" > "$work/said" || fail "explain of an odd text: $(cat "$work/said")"
for told in "piece A is in 2 parts that don't touch" 'pieces B C have one shape: .*, 2 times' 'line 5: .cut. takes nothing away at 555' \
    'line 6: .maybe cells. says nothing of 000, which a line .cut. takes away' 'line 6: .maybe cells. adds 500' 'piece e has no place'; do
    grep -q "^note: $told" "$work/said" || fail "explain: no $told in: $(cat "$work/said")"
done
printf 'copies AB 000 100 200 210\ncopies CD 000 100 200 210\nmirror piece E 000 010 100 200\nbox 4 5 1\n' | tools/explain > "$work/said" || fail "explain of copies"
grep -q '^note: pieces A B C D E have one shape: .*, 30 times' "$work/said" || fail "explain of copies: $(cat "$work/said")"
# The ways to lay the pieces are the program's options.
for name in optional five-pentominoes-5x5 soma-without-centre solid-pentominoes-2x3x10 slothouber-graatsma-copies conway; do
    [ "$(tools/explain "$puzzles/$name.puzzle" | sed -n 's/^  [^ ]* \([0-9]*\).*/\1/p' | awk '{ sum += $1 } END { print sum }')" = \
        "$(sed -n 's/^options //p' "$puzzles/$name.expect")" ] || fail "explain of $name: other ways than options"
done
# The symmetries, and what a search up to symmetry leaves out: at the Z of the Soma cube, and nothing of a region without symmetry.
for row in 'soma-cube:24 images by rotations, 48 by reflections too' 'conway:24 images by rotations, 48 by reflections too' 'pentominoes-10x6:4 images by rotations, 4 by reflections too'; do
    tools/explain "$puzzles/${row%%:*}.puzzle" | grep -q "^symmetries of the region: a packing has up to ${row#*:}$" || fail "explain: symmetries of ${row%%:*}"
done
tools/explain --up-to rotations "$puzzles/soma-cube.puzzle" > "$work/said" || fail "explain --up-to"
for told in 'at the piece Z 3 of 72 ways stay, and 619 of 688 in all' 'each packing that is found stands for 24, and no two are alike'; do
    grep -qx "up to rotations: $told" "$work/said" || fail "explain --up-to: no $told in: $(cat "$work/said")"
done
printf 'piece A 000 100\npiece B 000 100\ncells 000 100 200 010\n' | tools/explain --up-to symmetries > "$work/said" || fail "explain --up-to of no symmetry"
grep -qx 'symmetries of the region: a packing has no image but itself' "$work/said" || fail "explain: $(cat "$work/said")"
grep -qx 'up to symmetries: nothing is left out' "$work/said" || fail "explain: $(cat "$work/said")"
echo "ok explain"

# Cover texts: items without an option, and options that every cover takes; of the sudoku these are its one solution.
if printf 'items a b c\nmaybe d e\noption a b\noption a b\noption d\n' | tools/explain --cover > "$work/said"; then fail "explain --cover: nothing found"; fi
for told in 'so nothing fits: no option covers c' 'note: options 1 2 are equal' 'note: never chosen, .*: options 3' 'note: no option covers e'; do
    grep -q "^$told" "$work/said" || fail "explain --cover: no $told in: $(cat "$work/said")"
done
tools/explain --cover examples/covers/sudoku.cover > "$work/said" || fail "explain of the sudoku"
grep -q '^options that every cover takes: 1 2 21 .* and 69 more$' "$work/said" || fail "explain of the sudoku: $(cat "$work/said")"
# Thousands of items that have one option each.
python3 -c 'print("items", *("i%d" % at for at in range(2000))); print("".join("option i%d\n" % at for at in range(2000)), end="")' > "$work/forced"
tools/explain --cover "$work/forced" > "$work/said" || fail "explain of forced items"
grep -q '^note: so many forced options are taken much sooner by .--table links. than by .--table bits.$' "$work/said" || fail "explain of forced items: $(cat "$work/said")"
echo "ok explain --cover"

# The first fault of a text is the program's: its line, 0 for the whole text, and its name.
same_fault() {
    job=$1 what=$2 text=$3
    shift 3
    told=$(printf '%b' "$text" | ./polylab "$job" 2>&1 > /dev/null | sed -n "s/^refused $what [0-9]* \([A-Za-z]*\) line \([0-9]*\)\$/\2 \1/p")
    said=$(printf '%b' "$text" | tools/explain "$@" |
        sed -n 's/^refused: the whole text: \([A-Za-z]*\):.*/0 \1/p; s/^refused: line \([0-9]*\), column [0-9]*: \([A-Za-z]*\):.*/\1 \2/p')
    if [ -z "$told" ] || [ "$told" != "$said" ]; then fail "explain $* of '$text': '$said', and the program says '$told'"; fi
}
for text in 'items a\nitems b\n' 'option a\n' 'maybe a\n' '\n' 'items a a\n' 'items a-b\n' 'items a\nmaybe a\n' 'items a\nmaybe b\nmaybe c\n' 'items a\noption a\nmaybe b\n' \
    'items a\noption\n' 'items a\noption b\n' 'items a\noption a a\n' 'items toolongname\n' 'options a\n' 'items a \0303\n' 'maybe\n'; do
    same_fault cover cover "$text" --cover
done
for text in 'box 2 2\n' 'piece\n' 'pieces A 000\n' 'piece AB 000\n' 'copies AB+ 000\n' 'copies A+A 000\n' 'maybe cells 000\ncopies +AB 000\n' 'piece A 000 000\n' 'box 2 2 33\n' 'box 1 1 1\nbox 1 1 1\n' 'maybe\n' 'maybe box 1 1 1\n' \
    'cut\n' 'cells 00w\n' 'piece A 000\n' 'box 1 1 1\n' 'maybe piece A 000\nmaybe cells 000\n' 'box 02 1 1\n' 'piece A \0001\n'; do
    same_fault count puzzle "$text" -
done
echo "ok explain: the first fault is the program's"
