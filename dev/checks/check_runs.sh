#!/bin/sh
# Counts that keep their packings, that use all processors, and that tell somebody at a terminal how far they are: with an interrupt each. NOT
# PROVED; it trusts examples/ for the counts, and the program for what it prints.
#
#     dev/do check_runs
#
# Prints a line for each group that holds. Ends with 1 at the first that doesn't, which a sentence tells. POLYLAB names the program; without it
# the one that was built in this checkout is run. Half a minute.
# shellcheck source=dev/parts/checking.sh
. "$(dirname "$0")/../parts/checking.sh"
POLYLAB=${POLYLAB:-$PWD/crates/polylab/out/polylab}
export POLYLAB
program=$POLYLAB
puzzles=examples/puzzles

wanted() {
    grep -v -e '^rotations' -e '^symmetries' "examples/$1.expect"
}

# What slices list is what solve prints, byte for byte: with cells that stay empty, spare copies, and copies of a piece that share symbols.
for row in optional:7 none-to-two-tetrominoes-5x4:5000 y-pentominoes-10x5:100 two-dominoes:20; do
    name=${row%:*}
    tools/slices --steps "${row#*:}" --list "$work/listed" --keep "$work/state" "$puzzles/$name.puzzle" > "$work/counted" 2> "$work/said" || fail "$(cat "$work/said")"
    wanted "puzzles/$name" | diff - "$work/counted" || fail "slices --list of $name counts otherwise"
    [ "$(grep -c steps "$work/said")" -ge 2 ] || fail "slices --list of $name has one slice"
    "$POLYLAB" solve < "$puzzles/$name.puzzle" | cmp - "$work/listed" || fail "slices --list of $name isn't what solve prints"
    rm "$work/listed"
done
tools/slices --cover --steps 10 --list "$work/listed" --keep "$work/state" examples/covers/small.cover > "$work/counted" 2> "$work/said" || fail "$(cat "$work/said")"
"$POLYLAB" cover < examples/covers/small.cover | cmp - "$work/listed" || fail "slices --cover --list isn't what cover prints"
echo "ok what slices list"

# A count that is killed in its third slice goes on, and its list too, without what was listed after the last slice.
# shellcheck disable=SC2016
printf '#!/bin/sh\nn=$(cat "%s/calls")\necho $((n + 1)) > "%s/calls"\n[ "$n" != 3 ] || kill -9 $PPID\nexec "%s" "$@"\n' "$work" "$work" "$POLYLAB" > "$work/stops"
chmod +x "$work/stops"
echo 0 > "$work/calls"
rm "$work/listed"
cp "$puzzles/none-to-two-tetrominoes-5x4.puzzle" "$work/some.puzzle"
if POLYLAB=$work/stops tools/slices --steps 9000 --list "$work/listed" "$work/some.puzzle" > "$work/said" 2>&1; then fail "a killed script has counted"; fi
[ -s "$work/listed" ] || fail "a killed count lists nothing"
if tools/slices "$work/some.puzzle" > "$work/said" 2>&1; then fail "slices goes on without its list"; fi
grep -q 'is of a count with --list' "$work/said" || fail "$(cat "$work/said")"
printf 'packing 9\nwhat was begun' >> "$work/listed"
tools/slices --list "$work/listed" "$work/some.puzzle" > "$work/counted" 2> "$work/said" || fail "slices --list: $(cat "$work/said")"
grep -q 'goes on after' "$work/said" || fail "slices --list began anew"
"$POLYLAB" solve < "$work/some.puzzle" | cmp - "$work/listed" || fail "what was listed after a kill isn't what solve prints"
if tools/slices --list "$work/listed" "$work/some.puzzle" > "$work/said" 2>&1; then fail "slices lists into a file that is there"; fi
grep -q "is there already, and isn't empty" "$work/said" || fail "$(cat "$work/said")"
[ ! -e "$work/some.puzzle.slices" ] || fail "slices leaves its state"
echo "ok a list that was killed"

# All processors: a count in parts by one command, stopped in the middle and gone on with.
tools/run --workers 3 --parts 12 --keep "$work/parts" < "$puzzles/pentominoes-20x3.puzzle" > "$work/counted" 2> "$work/said" || fail "run: $(cat "$work/said")"
wanted puzzles/pentominoes-20x3 | diff - "$work/counted" || fail "run counts otherwise"
grep -q '^run: 12 of 12 parts, ' "$work/said" || fail "run: $(cat "$work/said")"
rm "$work/parts/part-0003.answer" "$work/parts/part-0007.answer"
POLYLAB=$work/stops
echo 9 > "$work/calls"
tools/run --workers 1 --keep "$work/parts" < "$puzzles/pentominoes-20x3.puzzle" > "$work/counted" 2> "$work/said" || fail "run: $(cat "$work/said")"
wanted puzzles/pentominoes-20x3 | diff - "$work/counted" || fail "run, gone on with, counts otherwise"
# (the program was called for the problem's text, for the two parts, and for the sum)
[ "$(cat "$work/calls")" = 13 ] || fail "run counts again what is counted: $(cat "$work/calls") calls"
if tools/run --keep "$work/parts" "$puzzles/soma-cube.puzzle" > "$work/said" 2>&1; then fail "run takes parts of another text"; fi
grep -q 'has parts of another text' "$work/said" || fail "$(cat "$work/said")"
POLYLAB=${POLYLAB%/stops}/slow
# shellcheck disable=SC2016
printf '#!/bin/sh\n[ "$1" != resume ] || exec sleep 60\nexec %s "$@"\n' "$work/stops" > "$work/slow"
chmod +x "$work/slow"
cp examples/covers/small.cover "$work/some.cover"
tools/run --cover "$work/some.cover" > "$work/counted" 2> "$work/said" &
for _ in 1 2 3 4 5 6 7 8 9 10 11 12 13 14 15 16 17 18 19 20; do
    [ ! -e "$work/some.cover.parts/manifest" ] || break
    sleep 1
done
sleep 1
kill "$!"
wait "$!" && fail "a stopped run has counted"
grep -q 'stopped; .*some.cover.parts keeps what was counted; this goes on: tools/run --cover' "$work/said" || fail "run: $(cat "$work/said")"
POLYLAB=$work/stops
tools/run --cover "$work/some.cover" 2> "$work/said" | diff - examples/covers/small.expect || fail "run --cover counts otherwise"
[ ! -e "$work/some.cover.parts" ] || fail "run leaves its parts"
echo "ok run, with an interrupt"

# (Two workers at once may both read the number of calls as it is written, so the program is called itself again.)
POLYLAB=$program
# Up to symmetry run and slices print what the program prints, and slices lists the packings in its order; not if visits may be alike.
"$POLYLAB" count --up-to rotations < "$puzzles/soma-cube.puzzle" > "$work/wanted"
tools/run --up-to rotations --workers 2 --parts 5 --keep "$work/smaller" "$puzzles/soma-cube.puzzle" 2> "$work/said" | diff "$work/wanted" - || fail "run --up-to"
tools/run --up-to rotations --keep "$work/smaller" "$puzzles/soma-cube.puzzle" 2> "$work/said" | diff "$work/wanted" - || fail "run --up-to, again"
if tools/run --up-to symmetries --keep "$work/smaller" "$puzzles/soma-cube.puzzle" > "$work/said" 2>&1; then fail "run takes parts of other symmetries"; fi
grep -q 'has parts of another text, or of another job' "$work/said" || fail "$(cat "$work/said")"
rm "$work/listed"
tools/slices --up-to rotations --steps 30000 --keep "$work/state" --list "$work/listed" "$puzzles/soma-cube.puzzle" 2> "$work/said" | diff "$work/wanted" - || fail "slices --up-to"
"$POLYLAB" solve --up-to rotations < "$puzzles/soma-cube.puzzle" | cmp - "$work/listed" || fail "slices --up-to --list isn't what solve prints"
rm "$work/listed"
if tools/slices --up-to symmetries --keep "$work/state" --list "$work/listed" "$puzzles/soma-cube.puzzle" > "$work/said" 2>&1; then fail "slices lists what may be alike"; fi
grep -q 'two visits of this search may be alike' "$work/said" || fail "$(cat "$work/said")"
echo "ok runs up to symmetry"

# At a terminal a search of a file shows how far it is, by the same search beside it, which ends when it does.
unset POLYLAB
dev/do at_terminal ./polylab count "$puzzles/y-pentominoes-5x5x5.puzzle" || fail "a long search doesn't show how far it is"
dev/do at_terminal ./polylab count --up-to symmetries "$puzzles/y-pentominoes-5x5x5.puzzle" || fail "a long search up to symmetry doesn't"
echo "ok at a terminal"
