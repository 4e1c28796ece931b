#!/bin/sh
# The pieces that are printed are as many as are known, and have the names in use; puzzles cut at random have the counts that are told. NOT PROVED;
# it trusts the numbers of polyominoes and polycubes (OEIS A000105, A000988, A000162, A038119), examples/ for names, and the program for counts.
#
#     dev/do check_pieces
#
# Prints a line for each group that holds. Ends with 1 at the first that doesn't, which a sentence tells. It needs the built program.
# shellcheck source=dev/parts/checking.sh
. "$(dirname "$0")/../parts/checking.sh"

# The words of tools/pieces, and the numbers of pieces of 1, 2, 3, .. cells.
for row in ':1 1 2 5 12 35 108' '--one-sided:1 1 2 7 18 60 196' '--solid:1 1 2 8 29 166' '--solid --two-sided:1 1 2 7 23 112'; do
    cells=0
    for wanted in ${row#*:}; do
        cells=$((cells + 1))
        # shellcheck disable=SC2086
        [ "$(tools/pieces ${row%%:*} --number "$cells")" = "pieces $wanted" ] || fail "pieces ${row%%:*} $cells aren't $wanted"
        # shellcheck disable=SC2086
        [ "$(tools/pieces ${row%%:*} "$cells" | grep -c piece)" = "$wanted" ] || fail "pieces ${row%%:*} $cells prints other than $wanted lines"
    done
done
echo "ok numbers of pieces"
dev/do names_of_pieces || fail "names of pieces"
{ tools/pieces 5; echo 'box 10 6 1'; } > "$work/ten.puzzle"
./polylab options < "$work/ten.puzzle" | grep -c '^option' > "$work/said"
./polylab options < examples/puzzles/pentominoes-10x6.puzzle | grep -c '^option' | diff - "$work/said" || fail "the pentominoes have other places than those of the example"
for words in '0' '11' '--solid 9' '--one-sided --two-sided 3' 'x'; do
    status=0
    # shellcheck disable=SC2086
    tools/pieces $words > "$work/said" 2>&1 || status=$?
    [ "$status" = 2 ] || fail "pieces $words: status $status"
done
echo "ok names of pieces"

# Puzzles cut at random: the same of the same seed, with pieces that fill the box, and with the counts that are told.
tools/invent --tries 4 --seed 5 3 2 2 4 "$work/invented" > "$work/told" || fail "invent: $(cat "$work/told")"
[ "$(wc -l < "$work/told")" = 5 ] || fail "invent tells $(cat "$work/told")"
for puzzle in "$work"/invented/*.puzzle; do
    name=$(basename "$puzzle")
    tools/count_packings "$puzzle" | sed -n 's/^packings //p' > "$work/count"
    ./polylab count --classes < "$puzzle" > "$work/classes"
    case $(sed -n 's/^symmetries //p' "$work/classes") in
        1) alike='all alike' ;;
        *) alike="$(sed -n 's/^symmetries //p' "$work/classes") classes" ;;
    esac
    grep -qx "$name: $(cat "$work/count") packings, $alike" "$work/told" || fail "invent tells of $name: $(cat "$work/told")"
    tools/explain "$puzzle" | grep -qx 'pieces: 12 cells' || fail "invent: the pieces of $name don't fill the box"
    if tools/explain "$puzzle" | grep -q 'in . parts that'; then fail "invent: a piece of $name is in parts"; fi
done
[ "$(tail -n 1 "$work/told")" = "invented $(grep -c 'all alike' "$work/told")" ] || fail "invent tells $(cat "$work/told")"
tools/invent --tries 1 --seed 6 3 2 2 4 "$work/again" > "$work/said" || fail "invent: $(cat "$work/said")"
cmp "$work/again/invented-6.puzzle" "$work/invented/invented-6.puzzle" || fail "invent makes another puzzle of the same seed"
if tools/invent --tries 1 --seed 6 3 2 2 4 "$work/again" > "$work/said" 2>&1; then fail "invent writes over a file"; fi
if tools/invent 2 2 1 5 > "$work/said" 2>&1; then fail "invent cuts four cells into five pieces"; fi
echo "ok puzzles cut at random"
