#!/bin/sh
# Puts packings and sessions through the scripts that are installed; what is spoilt has to be found. NOT PROVED; it trusts examples/ for the
# numbers of packings, and the program for what it prints. dev/do check_explain and dev/do check_convert look at two more.
#
#     dev/do check_tools
#
# Prints a line for each group that holds. Ends with 1 at the first that doesn't, which a sentence tells. It takes two minutes, and needs
# the built program.
# shellcheck source=dev/parts/checking.sh
. "$(dirname "$0")/../parts/checking.sh"
puzzles=examples/puzzles

for name in two-dominoes optional five-pentominoes-5x5 tetracubes-2x2x8 slothouber-graatsma-copies none-to-two-tetrominoes-5x4 y-pentominoes-10x5 soma-cube; do
    ./polylab solve < "$puzzles/$name.puzzle" > "$work/solved"
    wanted=$(sed -n 's/^packings //p' "$puzzles/$name.expect")
    said=$(tools/check_packings "$puzzles/$name.puzzle" < "$work/solved") || fail "$name: $said"
    [ "$said" = "ok $wanted" ] || fail "$name: $said"
    echo "$said packings of $name"
done

# Two pieces' names swapped, a packing that comes twice, one that is left out.
sed '2,4y/VL/LV/' "$work/solved" > "$work/swapped"
{ sed -n 1,4p "$work/solved"; echo 'packing 2'; sed -n 2,4p "$work/solved"; echo 'packings 2'; } > "$work/twice"
{ sed -n 1,4p "$work/solved"; echo 'packings 2'; } > "$work/fewer"
for row in 'swapped:packing 1: piece V has another shape' 'twice:packing 2: it came before' 'fewer:the last line says 2, and there are 1 packings'; do
    name=${row%%:*}
    if tools/check_packings "$puzzles/soma-cube.puzzle" < "$work/$name" > "$work/said"; then
        fail "$name: not found"
    fi
    [ "$(cat "$work/said")" = "${row#*:}" ] || fail "$name: $(cat "$work/said")"
    echo "ok, found in $name: $(cat "$work/said")"
done

# Copies of one piece that are drawn by its symbols, but not in turn.
./polylab solve < "$puzzles/y-pentominoes-10x5.puzzle" | sed '/^packing/!y/ab/ba/' > "$work/turned"
if tools/check_packings "$puzzles/y-pentominoes-10x5.puzzle" < "$work/turned" > "$work/said"; then
    fail "symbols out of turn: not found"
fi
grep -q '^packing 1: piece . has another shape$' "$work/said" || fail "symbols out of turn: $(cat "$work/said")"
echo "ok, found in symbols out of turn: $(cat "$work/said")"

# Classes are counted by the program alone.
for name in two-dominoes optional five-pentominoes-5x5; do
    grep -v -e '^rotations' -e '^symmetries' "$puzzles/$name.expect" > "$work/counts"
    tools/count_packings "$puzzles/$name.puzzle" | diff "$work/counts" - || fail "count_packings of $name"
    echo "ok count_packings of $name"
done

tools/draw_packings 1 240 < "$work/solved" > "$work/picture.svg"
python3 -c 'import sys, xml.dom.minidom; xml.dom.minidom.parse(sys.argv[1])' "$work/picture.svg"
# Each piece's name stands once in the solid, beside those in the squares of the layers; each layer has its number.
for wanted in 'viewBox' 'layer z = 2' '>x</text>' '>z</text>'; do
    grep -q "$wanted" "$work/picture.svg" || fail "the picture has no $wanted"
done
[ "$(grep -c '>V</text>' "$work/picture.svg")" = 8 ] || fail "the picture doesn't name V in each square and once in each solid"
echo "ok picture"

# Of a cube in one piece 3 faces of 4 squares are seen whole, and as many pulled apart. Pictures come in columns and on pages; a comment of the puzzle
# chooses a colour.
printf 'packing 1\nAA AA\nAA AA\npackings 1\n' > "$work/cube"
[ "$(tools/draw_packings "$work/cube" | grep -c '<polygon')" = 24 ] || fail "draw_packings of a cube"
[ "$(tools/draw_packings --columns 2 --rows 1 --pages "$work/page" 1-3 240 "$work/solved")" = 'written 2' ] || fail "draw_packings --pages"
for row in '1:1 2' '2:3 240'; do
    [ "$(sed -n 's/.*>packing \([0-9]*\)<.*/\1/p' "$work/page-${row%:*}.svg" | paste -s -d ' ')" = "${row#*:}" ] || fail "draw_packings: page ${row%:*}"
done
wide() {
    sed -n '1s/.* width="\([0-9]*\)" height="\([0-9]*\)".*/\1 \2/p'
}
tools/draw_packings 1 "$work/cube" | wide > "$work/one"
tools/draw_packings --columns 3 1 1 1 1 "$work/cube" | wide > "$work/four"
awk 'NR == 1 { wide = $1; high = $2 } NR == 2 && ($1 < 3 * wide - 3 || $1 > 3 * wide + 3 || $2 < 2 * high - 2 || $2 > 2 * high + 2) { exit 1 }' "$work/one" "$work/four" ||
    fail "three columns are $(cat "$work/four"), and one picture is $(cat "$work/one")"
printf '# colour A #12ab34\npiece A 000 100 010 110 001 101 011 111 # colour A #ffffff is none\nbox 2 2 2\n' > "$work/cube.puzzle"
# (four squares of each of two layers, and the upper faces whole and apart)
[ "$(tools/draw_packings --puzzle "$work/cube.puzzle" "$work/cube" | grep -c 'fill="#12ab34"')" = 16 ] || fail "draw_packings: a colour that was chosen"
tools/page --puzzle "$work/cube.puzzle" "$work/cube" | grep -q '"colours":{"A":"#12ab34"}' || fail "page: a colour that was chosen"
echo "ok columns, pages and colours"

# Copies of a piece that is used any number of times are told apart where the puzzle is given; pieces that touch have colours far from each other.
printf 'any piece Y 000 100 200 300 110\nbox 10 5 1\n' > "$work/any.puzzle"
./polylab solve "$work/any.puzzle" > "$work/any"
[ "$(tools/one_of_each --puzzle "$work/any.puzzle" "$work/any" | tail -n 1)" = 'symmetries 4' ] || fail "one_of_each of copies"
[ "$(tools/draw_packings --puzzle "$work/any.puzzle" 10 "$work/any" | grep -c '>Y10</text>')" = 5 ] || fail "draw_packings of copies"
tools/page --puzzle "$work/any.puzzle" "$work/any" | grep -q '"Y10"' || fail "page of copies"
printf 'any piece Y 000 100 200\nbox 10 5 1\n' > "$work/other.puzzle"
if tools/page --puzzle "$work/other.puzzle" "$work/any" > "$work/said" 2>&1; then fail "page of another puzzle's packings"; fi
grep -q 'packing 1 is none of this puzzle' "$work/said" || fail "page of another puzzle's packings: $(cat "$work/said")"
printf 'copies 0123456789ABCDEFGHIJKLMN 000 100\nbox 4 4 3\n' > "$work/many.puzzle"
./polylab solve --first 8 "$work/many.puzzle" > "$work/many"
dev/do colours_apart "$work/many" || fail "colours of pieces that touch"
echo "ok copies and colours"

# One packing of each class: as many as are known, each one a packing; and what is made of these again is the same.
# shellcheck disable=SC2094
for name in soma-cube five-pentominoes-5x5 optional; do
    ./polylab solve < "$puzzles/$name.puzzle" | tools/one_of_each --puzzle "$puzzles/$name.puzzle" > "$work/each"
    wanted=$(sed -n 's/^symmetries //p' "$puzzles/$name.expect")
    said=$(tools/check_packings "$puzzles/$name.puzzle" < "$work/each") || fail "one_of_each of $name: $said"
    [ "$said" = "ok $wanted" ] || fail "one_of_each of $name: $said"
    tools/one_of_each --puzzle "$puzzles/$name.puzzle" < "$work/each" | diff "$work/each" - > "$work/said" || fail "one_of_each of $name, again"
    tools/one_of_each "$puzzles/$name.puzzle" > "$work/searched"
    [ "$(tail -n 1 "$work/searched")" = "symmetries $wanted" ] || fail "one_of_each of the puzzle $name: $(tail -n 1 "$work/searched")"
    said=$(tools/check_packings "$puzzles/$name.puzzle" "$work/searched") || fail "one_of_each of the puzzle $name: $said"
    echo "ok one_of_each of $name: $wanted"
done

# Among one packing of each class two that are alike are found, and all are asked for by what needs all. The classes by rotations have those by all
# symmetries, but not the other way round.
printf 'packing 1\nAB\nAB\npacking 2\nAA\nBB\nsymmetries 2\n' > "$work/alike"
if tools/check_packings "$puzzles/two-dominoes.puzzle" "$work/alike" > "$work/said"; then fail "two packings that are alike"; fi
[ "$(cat "$work/said")" = 'packing 2: by symmetries it is alike to one before it' ] || fail "two packings that are alike: $(cat "$work/said")"
tools/one_of_each --rotations "$puzzles/soma-cube.puzzle" > "$work/turned"
[ "$(tools/check_packings "$puzzles/soma-cube.puzzle" "$work/turned")" = 'ok 480' ] || fail "one_of_each --rotations of a puzzle"
[ "$(tools/one_of_each --puzzle "$puzzles/soma-cube.puzzle" "$work/turned" | tail -n 1)" = 'symmetries 240' ] || fail "one_of_each of classes by rotations"
sed 's/^rotations /symmetries /' "$work/turned" > "$work/alike"
tools/check_packings "$puzzles/soma-cube.puzzle" "$work/alike" | grep -q ': by symmetries it is alike to one before it$' || fail "mirror images as classes by symmetries"
for tool in 'one_of_each --rotations' unique; do
    # shellcheck disable=SC2086
    if tools/$tool --puzzle "$puzzles/soma-cube.puzzle" "$work/alike" > "$work/written" 2> "$work/said"; then fail "$tool takes one packing of each class"; fi
    grep -q 'one packing of each class by symmetries, and all are needed' "$work/said" || fail "$tool of classes: $(cat "$work/said")"
done
tools/page --puzzle "$puzzles/soma-cube.puzzle" "$work/turned" | grep -q '"note":"One packing of each class is here, by rotations' || fail "page of classes"
tools/convert json < "$work/turned" | grep -q '^{"rotations": 480, "size": \[3, 3, 3\], "shown": \[' || fail "convert json of classes"
tools/draw_packings 480 "$work/turned" | grep -q '>packing 480<' || fail "draw_packings of classes"
echo "ok one packing of each class"

# Puzzles drawn at random: what one_of_each, page and unique count is what the program counts, and what is found by trying all. Without the
# puzzle they say no number, and end with 2. With that of other packings they end with 1.
dev/do drawn_puzzles "$work" 200 || fail "drawn puzzles"
for name in optional dominoes-6x6; do
    ./polylab solve "$puzzles/$name.puzzle" > "$work/list"
    wanted=$(./polylab count --classes "$puzzles/$name.puzzle" | sed -n 's/^symmetries //p')
    said=$(tools/one_of_each --puzzle "$puzzles/$name.puzzle" "$work/list" | tail -n 1)
    [ "$said" = "symmetries $wanted" ] || fail "one_of_each of $name: $said, and the program says $wanted"
    for tool in one_of_each page unique 'unique --given'; do
        # shellcheck disable=SC2086
        if tools/$tool --puzzle "$puzzles/soma-cube.puzzle" "$work/list" > "$work/written" 2> "$work/said"; then fail "$tool of another puzzle"; fi
        if ! grep -q '^[a-z_]*: packing 1 is .*puzzle' "$work/said" || [ -s "$work/written" ]; then fail "$tool of another puzzle: $(cat "$work/said")"; fi
    done
done
# (the cells of two dominoes, but one is no domino; a cell that may not stay empty; a piece that is missing; and one that there isn't)
printf 'piece A 000 100\npiece B 000 100\nmaybe piece C 000\nbox 2 2 1\nmaybe cells 110\n' > "$work/list.puzzle"
for row in 'AB\nBA:whose piece A has another shape' '_A\nBA:a cell is empty that has to be filled' 'AA\nC_:it is without the piece B' \
    'AA A.\nBB A.:of another region' 'ABB\nA..:of another region'; do
    printf 'packing 7\n%b\npackings 1\n' "${row%%:*}" > "$work/list"
    for tool in one_of_each page unique 'unique --given'; do
        # shellcheck disable=SC2086
        if tools/$tool --puzzle "$work/list.puzzle" "$work/list" > "$work/written" 2> "$work/said"; then fail "$tool takes $row"; fi
        grep -q "packing 7 is .*${row#*:}" "$work/said" || fail "$tool of $row: $(cat "$work/said")"
    done
done
printf 'packing 1\nAA\nBB\npacking 2\nAAB\n..B\npackings 2\n' > "$work/list"
if tools/page "$work/list" > "$work/page.html" 2> "$work/said"; then fail "a page of two regions"; fi
grep -q 'packing 2 is of another region than packing 1' "$work/said" || fail "a page of two regions: $(cat "$work/said")"
echo "ok drawn puzzles, and other puzzles' packings"

# The two packings of two dominoes in a square, and those of one domino and a cell in three: by hand, also where equal pieces have two names.
printf 'any piece d 000 100\nbox 2 2 1\n' > "$work/list.puzzle"
./polylab solve "$work/list.puzzle" > "$work/list"
[ "$(tools/unique --puzzle "$work/list.puzzle" "$work/list")" = 'set d1 d2: 2 packings, all alike
unique 1' ] || fail "unique of two dominoes: $(tools/unique --puzzle "$work/list.puzzle" "$work/list")"
printf 'given d 000 010: packing 2\ngiven d 000 100: packing 1\ngiven d 010 110: packing 1\ngiven d 100 110: packing 2\nunique 4\n' > "$work/given"
# (both are drawn alike, so either may be called the first)
sed 's/packing 1$/packing/; s/packing 2$/packing 1/; s/packing$/packing 2/' "$work/given" > "$work/other"
tools/unique --given --puzzle "$work/list.puzzle" "$work/list" > "$work/said"
cmp -s "$work/given" "$work/said" || diff "$work/other" "$work/said" || fail "unique --given of two dominoes"
printf 'copies DE 000\npiece A 000\nbox 3 1 1\n' > "$work/list.puzzle"
./polylab solve "$work/list.puzzle" | tools/unique --given --puzzle "$work/list.puzzle" | sed 's/: .*//' > "$work/said"
printf 'given A 000\ngiven A 100\ngiven A 200\nunique 3\n' | diff - "$work/said" || fail "unique --given of equal pieces"

# A set of pieces that fits in one way is one by the program's count too.
./polylab solve "$puzzles/five-pentominoes-5x5.puzzle" | tools/unique --puzzle "$puzzles/five-pentominoes-5x5.puzzle" > "$work/unique"
names=$(sed -n '1s/^set \(.*\): .*/\1/p' "$work/unique" | tr -d ' ')
{ sed -n "s/^maybe piece \\([$names]\\) /piece \\1 /p" "$puzzles/five-pentominoes-5x5.puzzle"; echo 'box 5 5 1'; } > "$work/set"
./polylab count --classes < "$work/set" | grep -q '^symmetries 1$' || fail "unique: the pieces $names"
echo "ok unique: $names"

# A session is kept, goes on the next day, and its transcript makes a page.
printf 'step 12\nback 2\n.undo\n' | tools/session --cover examples/covers/small.cover "$work/script" > "$work/said"
printf 'back 12\n' | tools/session --cover examples/covers/small.cover "$work/script" > "$work/said"
printf '%s\n' '> step 12' 'moved 12' 'at X5 past 2 3' '#   2 = a d g' '#   3 = b c f' '> back 12' 'moved 12' 'at X1 -' | diff - "$work/said" ||
    fail "session"
tools/page --session < "$work/said" > "$work/page.html"
# What is no command is told, and isn't kept.
printf 'step 2\nhelp\n.hlp\nstep five\nstepp\nxyzzy 4\nback 1\n' | tools/session --cover examples/covers/small.cover "$work/typed" > "$work/said" || fail "session of typos"
cat > "$work/wanted" << 'END'
> step 2
moved 2
at X3 -
> help
refused debug 1 BadCommand
# there is no command `help`; is `.help` meant?
> .hlp
refused debug 1 BadCommand
# there is no command `.hlp`; is `.help` meant?
> step five
refused debug 1 BadCommand
# this isn't how `step` is written:
#   step [N]         N steps, 1 where N isn't given, to the branch's end at most
> stepp
refused debug 1 BadCommand
# there is no command `stepp`; is `step` meant?
> xyzzy 4
refused debug 1 BadCommand
# there is no command `xyzzy`; `.help` prints all commands
> back 1
moved 1
at X2 -
END
diff "$work/wanted" "$work/said" || fail "session of typos"
[ "$(tr '\n' ' ' < "$work/typed")" = 'step 2 back 1 ' ] || fail "session keeps typos: $(cat "$work/typed")"
# Of a transcript that was spoilt the line is named, and what is wrong there.
tools/session --walk 12 --show --cover examples/covers/small.cover > "$work/walked" || fail "session --walk --show"
for row in 's/^at X5 .*/at X9 1/;.at X9 1. tells no state' 's/^at X5 .*/at X5 a/;.a. is no cursor' 's/^at X5 .*/at X5 17/;there is no option 17: the problem has 6' \
    's/^at X5 .*/at/;.at. tells no state' 's/^#   3 = .*/#   x = a/;.x. is no number of an option' '/^#   3 = /d;the problem has no option 3 before it' \
    's/^moved .*/moved 1x/;.1x. is no number of steps' "s/^at X5 .*/at X5 - $(printf %05000d 1)/;tells no state"; do
    sed "${row%%;*}" "$work/walked" > "$work/spoilt"
    if tools/page --session "$work/spoilt" > "$work/page.html" 2> "$work/said"; then fail "a page of a spoilt transcript: ${row#*;}"; fi
    grep -q "^page: line [0-9]* isn't what tools/session prints: .*${row#*;}" "$work/said" || fail "a page of a spoilt transcript: $(cat "$work/said")"
done
tools/page --session "$work/walked" > "$work/page.html" || fail "a page of a walk"
# A script that is a link is read, and not written through.
echo 'step 1' > "$work/own"
ln -s own "$work/linked"
printf 'step 2\n' | tools/session --cover examples/covers/small.cover "$work/linked" > "$work/said" || fail "session of a link"
[ "$(cat "$work/own" "$work/linked" | tr '\n' ' ')" = 'step 1 step 1 step 2 ' ] || fail "session writes through a link"
tools/session --walk 50 --cover examples/covers/small.cover > "$work/rows" || fail "session --walk"
[ "$(sed -n 13p "$work/rows")" = ' 12  X5 past 2 3   finds no option of e left to try' ] || fail "session --walk: $(sed -n 13p "$work/rows")"
[ "$(awk '$1 != "visit" { print $2 }' "$work/rows" | sort -u | tr '\n' ' ')$(wc -l < "$work/rows")" = 'Done X1 X2 X3 X4 X5 X6 X7 X8 45' ] || fail "session --walk jumps"
tools/page --puzzle "$puzzles/optional.puzzle" < "$work/each" > "$work/page.html"
for line in 'page --session --puzzle x:--puzzle' 'session --walk 0 x:--walk 0' 'session --walk 5 --cover examples/covers/small.cover x:x' 'convert layers --puzzle x:--puzzle'; do
    status=0
    # shellcheck disable=SC2086
    tools/${line%:*} < /dev/null > "$work/said" 2>&1 || status=$?
    if [ "$status" != 2 ] || ! grep -q "^[a-z]*: ${line##*:}: " "$work/said"; then fail "$line: status $status: $(cat "$work/said")"; fi
done
echo "ok session"

# A mark that is no name is in no picture, no page and no name of a file; it is shown by its number.
printf 'packing 1\nA\033\npackings 1\n' > "$work/marks"
for tool in draw_packings page 'convert json' "unique --puzzle $work/list.puzzle" "one_of_each --puzzle $work/list.puzzle" "convert obj $work/none"; do
    # shellcheck disable=SC2086
    if tools/$tool < "$work/marks" > "$work/written" 2> "$work/said"; then fail "$tool draws a control byte"; fi
    grep -q 'packing 1 has the mark .\\x1b., which is no name of a piece' "$work/said" || fail "$tool of a control byte: $(cat "$work/said")"
    [ ! -s "$work/written" ] || fail "$tool writes something of a control byte"
done

# What isn't there or isn't a packing ends with a sentence and 1, never with a traceback.
for tool in "check_packings $puzzles/soma-cube.puzzle" 'check_packings none' 'count_packings none' draw_packings "one_of_each --puzzle $work/list.puzzle" \
    "unique --puzzle $work/list.puzzle" page 'page --session' \
    'explain none' 'explain --cover none' 'convert json' 'convert layers' 'convert xmpuzzle' 'convert none' "convert obj $work/none" 'session none' 'check_packings README.md'; do
    # shellcheck disable=SC2086
    if echo 'packing one' | tools/$tool > "$work/said" 2>&1; then fail "$tool: status 0"; fi
    if grep -q Traceback "$work/said"; then fail "$tool: $(tail -n 1 "$work/said")"; fi
    [ -s "$work/said" ] || fail "$tool says nothing"
done
echo "ok sentences"

# A program that ends otherwise where memory is refused to it is found: a shell does.
if dev/do refuse --program /bin/sh words > "$work/said" 2>&1; then
    grep -q skipped "$work/said" || fail "refuse: nothing found in a shell"
else
    grep -q '^WRONG words: .* wrong$' "$work/said" || fail "refuse: $(cat "$work/said")"
fi
echo "ok refuse"
