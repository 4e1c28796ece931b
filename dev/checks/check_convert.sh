#!/bin/sh
# Puts puzzles of other programs, drawn layers and what the program prints through tools/convert. NOT PROVED; it trusts examples/ for what is
# counted.
#
#     dev/do check_convert
#
# Prints a line for each group that holds. Ends with 1 at the first that doesn't, which a sentence tells. It needs the built program.
# shellcheck source=dev/parts/checking.sh
. "$(dirname "$0")/../parts/checking.sh"
puzzles=examples/puzzles

printf 'any piece Y 000 100 200 300 110\nbox 10 5 1\n' > "$work/any.puzzle"
./polylab solve "$work/any.puzzle" > "$work/any"

# Files of BurrTools, made by hand: two dominoes in a square, in a region where a cell may stay empty, and any number of them; with colours, a bound on
# holes, and another grid.
cat > "$work/two.xml" << 'END'
<?xml version="1.0"?>
<puzzle version="2"><gridType type="0"/><colors><color red="255" green="0" blue="0"/></colors>
<shapes><voxel x="2" y="1" z="1" type="0" name="domino">##</voxel><voxel x="2" y="2" z="1" type="0">##1##</voxel>
<voxel x="3" y="2" z="1" type="0" name="X">_#+_##</voxel></shapes>
<problems><problem state="0" name="square"><shapes><shape id="0" count="2"/></shapes><result id="1"/></problem>
<problem state="0" name="other" maxHoles="1"><shapes><shape id="0" min="1" max="2"/></shapes><result id="2"/><bitmap><pair piece="1" result="1"/></bitmap></problem>
<problem state="0"><shapes><shape id="0" min="0" max="3"/></shapes><result id="1"/></problem></problems></puzzle>
END
gzip -c "$work/two.xml" > "$work/two.xmpuzzle"
tools/convert xmpuzzle "$work/two.xmpuzzle" > "$work/two.puzzle" 2> "$work/said" || fail "convert: $(cat "$work/said")"
./polylab count < "$work/two.puzzle" | grep -q '^packings 2$' || fail "convert: $(cat "$work/two.puzzle")"
for told in '3 problems, and this is the first' 'colours of S2 are left out'; do
    grep -q "note: .*$told" "$work/said" || fail "convert: no $told in: $(cat "$work/said")"
done
grep -v '^#' "$work/two.puzzle" > "$work/lines"
printf 'copies AB 000 100\nbox 2 2 1\n' | diff - "$work/lines" || fail "convert: the first problem"
tools/convert xmpuzzle --problem other "$work/two.xml" 2> "$work/said" | grep -v '^#' > "$work/two.puzzle"
printf 'copies A+B 000 100\ncells 000 010 110\nmaybe cells 100\n' | diff - "$work/two.puzzle" || fail "convert: the second problem"
for told in 'the bound of 1 on holes is left out' 'which colours may lie on which is left out'; do
    grep -q "note: .*$told" "$work/said" || fail "convert: no $told in: $(cat "$work/said")"
done
tools/convert xmpuzzle --problem 3 "$work/two.xml" 2> "$work/said" | sed -n 3p | grep -qx 'any piece A 000 100' || fail "convert: the third problem: $(cat "$work/said")"
for change in 's/gridType type="0"/gridType type="2"/;this puzzle is of spheres' 's/>##</>###</;3 cells drawn, and is to have 2 x 1 x 1' 's/id="1"/id="7"/;names shape 7' \
    's/>##</>+#</;is a piece, and has cells that may stay empty' 's/puzzle version/pozzle version/;no .xmpuzzle file' 's/count="2"/count="63"/;is laid 63' 's/count="2"/count="1234567890"/;has .1234567890. for .count., which is no whole number of at most nine digits' \
    "s/count=\"2\"/min=\"0\" max=\"$(printf %05000d 1)\"/;has 5000 characters for .max.," 's/ count="2"//;has nothing for .count.'; do
    if sed "${change%%;*}" "$work/two.xml" | tools/convert xmpuzzle > "$work/two.puzzle" 2> "$work/said"; then fail "convert takes $change"; fi
    grep -q "${change#*;}" "$work/said" || fail "convert: $change: $(cat "$work/said")"
done
# A number that may vary: where pieces may lie on cells alone that may stay empty, it is a range, or that is told. The numbers are by hand: on `#++` no,
# one or two of the last two cells are filled beside the first.
cat > "$work/loose.xml" << 'END'
<puzzle version="2"><gridType type="0"/><shapes><voxel x="1" y="1" z="1" name="m">#</voxel><voxel x="3" y="1" z="1">#++</voxel>
<voxel x="2" y="1" z="1" name="d">##</voxel><voxel x="3" y="1" z="1" name="r">###</voxel><voxel x="1" y="1" z="1" name="&#x9b;2J&#10;!">#</voxel></shapes>
<problems><problem name="loose"><shapes><shape id="0" min="0" max="3"/></shapes><result id="1"/><bitmap/></problem>
<problem name="one"><shapes><shape id="0" count="1"/><shape id="0" min="0" max="1"/></shapes><result id="1"/></problem>
<problem name="full"><shapes><shape id="0" count="1"/><shape id="2" min="0" max="9"/></shapes><result id="3"/></problem>
<problem name="odd"><shapes><shape id="4" min="0" max="1"/></shapes><result id="1"/></problem></problems></puzzle>
END
tools/convert xmpuzzle --problem loose "$work/loose.xml" > "$work/two.puzzle" 2> "$work/said"
[ ! -s "$work/said" ] || fail "convert: an empty bitmap: $(cat "$work/said")"
[ "$(./polylab count "$work/two.puzzle" | sed -n 1p)" = 'packings 4' ] || fail "convert: a range: $(cat "$work/two.puzzle")"
[ "$(sed -n 3p "$work/two.puzzle")" = 'copies +mAB 000' ] || fail "convert: a range: $(cat "$work/two.puzzle")"
tools/convert xmpuzzle --problem one "$work/loose.xml" 2> "$work/said" | grep -q '^maybe piece A 000$' || fail "convert: once or not at all"
grep -q "note: shape m is laid once or not at all, and could lie on cells alone that may stay empty.*no line of a puzzle text says that: .* left out" "$work/said" || fail "convert: $(cat "$work/said")"
tools/convert xmpuzzle --problem full "$work/loose.xml" 2> "$work/said" | grep -q '^maybe piece d 000 100$' || fail "convert: a range where one fits"
[ ! -s "$work/said" ] || fail "convert: a range where one fits: $(cat "$work/said")"
tools/convert xmpuzzle --problem odd "$work/loose.xml" 2>&1 > "$work/two.puzzle" | grep -qF 'note: shape \x9b2J\n! is laid once' || fail "convert: a name with control bytes"
if LC_ALL=C grep -q '[^ -~]' "$work/two.puzzle"; then fail "convert: a comment with control bytes"; fi
dev/do large_files "$work" || fail "convert: a file that is larger than a puzzle"
echo "ok convert xmpuzzle"

# What BurrTools is given comes back as the same puzzle; what it can't do is told, and a name is text.
for name in soma-cube pentominoes-scott soma-without-centre; do
    tools/convert burrtools "examples/puzzles/$name.puzzle" | tools/convert xmpuzzle > "$work/back.puzzle" || fail "burrtools of $name"
    tools/explain "examples/puzzles/$name.puzzle" > "$work/there" || :
    tools/explain "$work/back.puzzle" | diff "$work/there" - || fail "burrtools of $name: another puzzle comes back"
done
printf 'copies AB+C 000 100\nany mirror piece D 000\nbox 3 2 1\nmaybe cells 000\n' > "$work/kinds.puzzle"
tools/convert burrtools --problem 'a <b>' "$work/kinds.puzzle" > "$work/kinds.xmpuzzle" 2> "$work/said" || fail "burrtools: $(cat "$work/said")"
grep -q 'BurrTools reflects no piece' "$work/said" || fail "burrtools: a piece that may be reflected isn't told: $(cat "$work/said")"
for wanted in '>+#####<' 'name="a &lt;b&gt;"' 'id="1" min="2" max="3"' 'id="2" min="0" max="6"'; do
    grep -qF "$wanted" "$work/kinds.xmpuzzle" || fail "burrtools: $wanted isn't there"
done
echo "ok convert burrtools"

# Layers of text, and back from what solve prints.
printf 'piece A\n##. ..#\n\nmaybe piece b\n#\nregion\n### ###\n##+ ###\n' | tools/convert layers > "$work/two.puzzle" || fail "convert layers"
printf 'piece A 000 100 201\nmaybe piece b 000\ncells 000 001 010 011 100 101 110 111 200 201 211\nmaybe cells 210\n' | diff - "$work/two.puzzle" || fail "convert layers"
printf 'copies AB\n##\n\nmaybe mirror piece c\n##.\n.##\nany piece D\n# #\nany mirror piece E\n#\nmirror copies xy\n##\n#.\ncopies 1+23\n#\n' | tools/convert layers > "$work/two.puzzle" || fail "convert layers"
printf 'copies AB 000 100\nmaybe mirror piece c 000 100 110 210\nany piece D 000 001\nany mirror piece E 000\nmirror copies xy 000 010 100\ncopies 1+23 000\n' | diff - "$work/two.puzzle" ||
    fail "convert layers"
printf 'any piece AB\n##\nany mirror piece C\n#\nregion\n####\n' | tools/convert layers > "$work/two.puzzle" || fail "convert layers of any piece"
printf 'any piece AB 000 100\nany mirror piece C 000\nbox 4 1 1\n' | diff - "$work/two.puzzle" || fail "convert layers of any piece"
printf 'packing 1\nAB\nAB\nfirst 1\n' | tools/convert layers > "$work/two.puzzle" || fail "convert layers of the first packing"
printf 'piece A 000 010\npiece B 000 010\nbox 2 2 1\n' | diff - "$work/two.puzzle" || fail "convert layers of the first packing"
for text in 'any piece AA\n#' 'any piece A+B\n#' 'maybe copies AB\n#' 'copies A\n#' 'copies AA\n#' 'any mirror copies AB\n#' 'maybe region\n#' 'mirror maybe piece A\n#' 'piece A\n#\ncopies AB\n#' 'copies AB+\n#' 'copies A+B+C\n#' 'piece +A\n#' 'copies A+A\n#'; do
    if printf '%b\n' "$text" | tools/convert layers > "$work/two.puzzle" 2> "$work/said"; then fail "convert layers takes $text"; fi
done
tools/convert layers "$work/any" 2>&1 > "$work/two.puzzle" | grep -q 'one packing is enough' || fail "convert layers of a packing"
tools/convert json --puzzle "$work/any.puzzle" "$work/any" | grep -q '"Y10": \[\[' || fail "convert json of copies"
[ "$(tools/convert stl --puzzle "$work/any.puzzle" "$work/copies" "$work/any")" = 'written 10' ] || fail "convert stl of copies"
for name in two-dominoes soma-cube; do
    ./polylab solve < "$puzzles/$name.puzzle" > "$work/solved"
    tools/convert layers "$work/solved" 2> "$work/said" | ./polylab count | grep -v -e '^steps' -e '^levels' > "$work/counts"
    grep -e '^packings' -e '^options' "$puzzles/$name.expect" | diff - "$work/counts" || fail "convert layers of $name"
done
echo "ok convert layers"

# Covers in items: the cover of Knuth's small problem, and the answer of a well known sudoku, row by row.
./polylab cover < examples/covers/small.cover > "$work/small"
tools/convert names --cover examples/covers/small.cover "$work/small" > "$work/named" || fail "convert names"
printf 'cover 1\na d f\nb g\nc e\ncovers 1\n' | diff - "$work/named" || fail "convert names"
[ "$(tools/convert json --cover examples/covers/small.cover "$work/small")" = \
    '{"covers": [[["a", "d", "f"], ["b", "g"], ["c", "e"]]], "visits": 1, "steps": 43, "levels": [1, 2, 2, 1]}' ] || fail "convert json --cover"
./polylab cover < examples/covers/sudoku.cover > "$work/sudoku"
tools/convert names --cover examples/covers/sudoku.cover "$work/sudoku" | sed -n 's/^c\(..\) r.\(.\) .*/\1 \2/p' | sort | cut -d ' ' -f 2 | paste -s -d '\0' > "$work/named"
[ "$(cut -c 1-9 "$work/named") $(cut -c 73-81 "$work/named")" = '534678912 345286179' ] || fail "the sudoku is $(cat "$work/named")"
for row in "small.cover $work/sudoku:the text has 6 options" "small.cover $work/any:no line of .cover." "sudoku.cover $work/small:no exact cover of this text"; do
    if tools/convert names --cover "examples/covers/${row%% *}" "$(echo "${row#* }" | cut -d : -f 1)" > "$work/named" 2> "$work/said"; then fail "convert names takes $row"; fi
    grep -q "${row##*:}" "$work/said" || fail "convert names: $(cat "$work/said")"
done
if sed '$d; /^visits/d' "$work/small" | grep visit | tools/convert names --cover examples/covers/small.cover > "$work/named" 2> "$work/said"; then fail "convert names takes a part"; fi
grep -q "this isn't all that" "$work/said" || fail "convert names: $(cat "$work/said")"
echo "ok convert names"

# The Python module.
dev/do uses_module || fail "the Python module"
echo "ok the Python module"

# JSON has what was printed, and solids are closed, with the volume of their cells.
./polylab count --classes < "$puzzles/soma-cube.puzzle" | tools/convert json > "$work/count.json"
./polylab cover < examples/covers/small.cover | tools/convert json > "$work/cover.json"
tools/convert json "$work/solved" > "$work/solve.json"
tools/convert stl --packing 240 "$work/solids" "$work/solved" > "$work/said"
tools/convert obj --packing 240 --edge 1 "$work/solids" "$work/solved" >> "$work/said"
if tools/convert stl --packing 240 "$work/solids" "$work/solved" > "$work/said" 2>&1; then fail "convert writes over a file"; fi
grep -q 'packing-240-.* is there already' "$work/said" || fail "convert: $(cat "$work/said")"
# A link that somebody put where a file is written isn't followed, and no mark leads to another folder.
mkdir "$work/links"
echo precious > "$work/links/own"
ln -s own "$work/links/packing-1-A.stl.new"
printf 'packing 1\nA/\nA/\npackings 1\n' > "$work/marks"
if tools/convert stl "$work/links" "$work/marks" > "$work/said" 2>&1; then fail "convert writes a piece of the mark /"; fi
grep -q 'packing 1 has the mark ./., which is no name of a piece' "$work/said" || fail "convert of the mark /: $(cat "$work/said")"
printf 'packing 1\nAA\npackings 1\n' | tools/convert stl "$work/links" > "$work/said" || fail "convert beside a link"
[ "$(cat "$work/links/own")" = precious ] || fail "convert writes through a link"
# Pieces without a packing: a cube, a bar, an L, a T that stands, and three in which cells touch along an edge alone: two cells, two on a floor, and
# two between a floor and a ceiling.
cat > "$work/pieces.puzzle" << 'END'
piece C 000
piece I 000 100 200
piece L 000 100 010
piece T 000 001 002 101
piece E 000 110
piece F 000 100 010 110 001 111
piece G 000 100 010 110 001 111 002 102 012 112
box 9 9 9
END
for made in 'bevel stl --gap 0.15 --bevel 0.5 --edge 12.7' 'gap obj --gap 0.15' 'bare stl' 'edge obj --bevel 1'; do
    # shellcheck disable=SC2086
    set -- $made
    folder=$1 kind=$2
    shift 2
    [ "$(tools/convert "$kind" "$@" "$work/made-$folder" "$work/pieces.puzzle")" = 'written 7' ] || fail "convert $kind $*"
done
if tools/convert stl --gap 1 --bevel 2 "$work/none" "$work/pieces.puzzle" > "$work/said" 2>&1; then fail "convert takes a bevel of half a cube"; fi
if tools/convert stl --packing 2 "$work/none" "$work/pieces.puzzle" > "$work/said" 2>&1; then fail "convert takes a packing of a puzzle"; fi
grep -q 'goes with packings' "$work/said" || fail "convert: $(cat "$work/said")"
tools/convert stl --flat --packing 3 "$work/flat" "$work/solved" > "$work/said" || fail "convert stl --flat: $(cat "$work/said")"
for piece in V L T Z; do
    [ "$(sed -n 's/^vertex .* //p' "$work/flat/packing-3-$piece.stl" | sort -n | tail -n 1)" = 10 ] || fail "convert stl --flat: $piece"
done
dev/do closed_solids "$work" || fail "convert: JSON or solids"
echo "ok convert json, stl and obj"
