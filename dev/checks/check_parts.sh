#!/bin/sh
# Counts puzzles and cover texts in parts and in slices, with a part that is killed and run again and with an interrupt. Each folder of
# parts that is spoilt has to be refused by a sentence that names what is wrong. NOT PROVED; it trusts examples/ for the counts.
#
#     dev/do check_parts
#
# Prints a line for each group that holds. Ends with 1 at the first that doesn't, which a sentence tells. POLYLAB names the program; without it
# the one that was built in this checkout is run.
# shellcheck source=dev/parts/checking.sh
. "$(dirname "$0")/../parts/checking.sh"
POLYLAB=${POLYLAB:-$PWD/crates/polylab/out/polylab}
export POLYLAB
first=puzzles/soma-cube
second=puzzles/pentominoes-20x3
third=covers/langford-10
slice=150000

# The lines of an example's count without its classes.
wanted() {
    grep -v -e '^rotations' -e '^symmetries' "examples/$1.expect"
}

# What tools/join prints of a folder has to be an example's count.
joined() {
    tools/join "$work/$1" > "$work/said" || fail "join of $1"
    wanted "$2" | diff - "$work/said" || fail "the parts of $1 don't add up"
    echo "ok $2 in parts, by $3"
}

# A puzzle in 16 parts, two of which are counted in a call; called twice, the second call has nothing to do.
[ "$(tools/parts 16 "$work/soma" < "examples/$first.puzzle")" = 'parts 16' ] || fail "parts of $first"
printf '%s\n' "$work"/soma/part-*.snapshot | xargs -P 4 -n 2 tools/answer
joined soma "$first" xargs
POLYLAB=/bin/false tools/answer "$work"/soma/part-*.snapshot || fail "counted parts are counted again"

# Another, by make; a part's program is killed in the middle, and the part is run again.
tools/parts 16 "$work/pent" < "examples/$second.puzzle" > "$work/said"
printf '#!/bin/sh\necho visits 1\nkill -9 $$\n' > "$work/dies"
printf '#!/bin/sh\necho visits 1\nexec sleep 60\n' > "$work/waits"
# shellcheck disable=SC2016
printf '#!/bin/sh\nn=$(cat "%s/calls")\necho $((n + 1)) > "%s/calls"\n[ "$n" != 3 ] || kill -9 $PPID\nexec "%s" "$@"\n' "$work" "$work" "$POLYLAB" > "$work/stops"
chmod +x "$work/dies" "$work/waits" "$work/stops"
cat > "$work/parts.mk" <<'END'
answers: $(patsubst %.snapshot,%.answer,$(wildcard $(FOLDER)/part-*.snapshot))
%.answer: %.snapshot ; @tools/answer $<
END
MAKEFLAGS='' make -s -j 4 -f "$work/parts.mk" FOLDER="$work/pent"
rm "$work/pent/part-0007.answer"
if POLYLAB=$work/dies tools/answer "$work/pent/part-0007.snapshot" 2> "$work/said"; then fail "a killed program has answered"; fi
POLYLAB=$work/waits tools/answer "$work/pent/part-0007.snapshot" 2> "$work/said" &
sleep 1
kill "$!"
wait "$!" || true
if ls "$work"/pent/part-0007.answer* > "$work/said" 2>&1; then fail "a killed run leaves $(cat "$work/said")"; fi
if tools/join "$work/pent" > "$work/said" 2>&1; then fail "a missing answer isn't missed"; fi
grep -q 'part-0007.answer is missing' "$work/said" || fail "$(cat "$work/said")"
MAKEFLAGS='' make -s -j 4 -f "$work/parts.mk" FOLDER="$work/pent"
joined pent "$second" 'make, with a part killed and run again'

# A cover text, by the script for arrays of Slurm, as three jobs without Slurm, called from another folder; one as a copy, as Slurm has it.
tools/parts --cover 10 "$work/covers" "examples/$third.cover" > "$work/said"
cp tools/slurm_array "$work/copy"
printf '#!/bin/sh\necho "   Command=%s/tools/slurm_array covers"\n' "$PWD" > "$work/scontrol"
chmod +x "$work/scontrol"
for job in 4 5 6; do
    array=$PWD/tools/slurm_array
    [ "$job" != 5 ] || array=$work/copy
    (cd "$work" && PATH=$work:$PATH SLURM_JOB_ID=1 SLURM_ARRAY_TASK_ID=$job SLURM_ARRAY_TASK_MIN=4 SLURM_ARRAY_TASK_COUNT=3 "$array" covers)
done
if (cd "$work" && SLURM_ARRAY_TASK_ID=1 SLURM_ARRAY_TASK_MIN=1 SLURM_ARRAY_TASK_COUNT=1 ./copy covers) > "$work/said" 2>&1; then fail "a copy finds tools/answer"; fi
grep -q "tools/answer isn't found" "$work/said" || fail "$(cat "$work/said")"
joined covers "$third" 'the script for Slurm'

# An answer that the program printed, with its visits, is taken where that is said.
"$POLYLAB" resume --list < "$work/covers/part-0002.snapshot" > "$work/covers/part-0002.answer"
if tools/join "$work/covers" > "$work/said" 2>&1; then fail "join takes an answer that doesn't say whose it is"; fi
grep -q "part-0002.answer doesn't say whose answer it is" "$work/said" || fail "$(cat "$work/said")"
tools/join --unmarked "$work/covers" > "$work/said" || fail "join --unmarked"
wanted "$third" | diff - "$work/said" || fail "the parts of covers don't add up"

# A count that no walk reaches, in parts that are counted with a cache.
printf 'any piece D 000 100\nbox 12 12 1\n' > "$work/board.puzzle"
tools/parts 5 "$work/board" "$work/board.puzzle" > "$work/said"
tools/answer --cache 200 "$work"/board/part-*.snapshot || fail "answer --cache"
tools/join "$work/board" > "$work/said" || fail "join of counts with a cache"
"$POLYLAB" count --cache 200 < "$work/board.puzzle" | diff - "$work/said" || fail "parts that are counted with a cache don't add up"
for words in '--cache 0' '--cache x' '--cache='; do
    # shellcheck disable=SC2086
    if tools/answer $words "$work"/board/part-*.snapshot 2> "$work/said"; then fail "answer takes $words"; fi
    grep -q 'this is no number of megabytes' "$work/said" || fail "answer $words: $(cat "$work/said")"
done
echo "ok parts that are counted with a cache"

# A problem with an item that may stay uncovered, whose snapshots are of the second version.
printf 'piece A 000 100\npiece B 000 010\nmaybe piece C 000 100 010\nbox 2 2 1\n' > "$work/maybe.puzzle"
tools/parts 2 "$work/maybe" "$work/maybe.puzzle" > "$work/said"
tools/answer "$work"/maybe/part-*.snapshot
tools/join "$work/maybe" > "$work/said" || fail "join of a piece that may be left out"
"$POLYLAB" count < "$work/maybe.puzzle" | diff - "$work/said" || fail "the parts of a piece that may be left out don't add up"
tools/slices --steps 20 "$work/maybe.puzzle" 2> "$work/told" | diff - "$work/said" || fail "slices of a piece that may be left out"
echo "ok parts and slices with a piece that may be left out"

# A program that counts a visit too many in each slice is found out at the end.
# shellcheck disable=SC2016
printf '#!/bin/sh\n[ "$1" = resume ] || exec "%s" "$@"\n"%s" "$@" | sed "s/^visits 2$/visits 3/"\n' "$POLYLAB" "$POLYLAB" > "$work/miscounts"
chmod +x "$work/miscounts"
if POLYLAB=$work/miscounts tools/slices --steps 20 "$work/maybe.puzzle" > "$work/said" 2>&1; then fail "slices takes a visit that there isn't"; fi
grep -q "the sums are no whole run's: .*: refused join 11 BadNumbers line [0-9]*;" "$work/said" || fail "$(cat "$work/said")"

# A search up to symmetry in parts: by rotations each visit is a class, and stands for 24 packings; by all symmetries visits are neither.
for group in rotations symmetries; do
    tools/parts --up-to "$group" 6 "$work/$group" "examples/$first.puzzle" > "$work/said"
    tools/answer "$work/$group"/part-*.snapshot
    tools/join "$work/$group" > "$work/said" || fail "join of --up-to $group"
    "$POLYLAB" count --up-to "$group" < "examples/$first.puzzle" > "$work/counted"
    if [ "$group" = symmetries ]; then
        sed -i -e 1d -e 's/^symmetries .*/visits 273/' "$work/counted"
    fi
    diff "$work/counted" "$work/said" || fail "the parts of --up-to $group don't add up"
done
grep -qx 'job rotations packings 24 classes' "$work/rotations/manifest" || fail "a manifest of --up-to: $(sed -n 2p "$work/rotations/manifest")"
sed -i 's/^job rotations .*/job rotations packings 0/' "$work/rotations/manifest"
if tools/join "$work/rotations" > "$work/said" 2>&1; then fail "join takes another job"; fi
grep -q 'tells of another job than tools/parts writes: rotations packings 0$' "$work/said" || fail "$(cat "$work/said")"
echo "ok parts up to symmetry"

# By GNU parallel, where it is.
if parallel --version 2> /dev/null | grep -q '^GNU parallel'; then
    rm "$work"/covers/part-*.answer
    for turn in 1 2; do
        parallel --will-cite -j 4 tools/answer ::: "$work"/covers/part-*.snapshot 2> "$work/said" || fail "parallel, $turn: $(cat "$work/said")"
        [ "$turn" = 2 ] || rm "$work/covers/part-0003.answer"
    done
    joined covers "$third" parallel
else
    echo "skipped: there is no GNU parallel"
fi

# Slices: the script is killed in the third, and the count goes on from the state file, which is gone at the end.
cp "examples/$first.puzzle" "$work/sliced.puzzle"
echo 0 > "$work/calls"
if POLYLAB=$work/stops tools/slices --steps "$slice" "$work/sliced.puzzle" > "$work/said" 2>&1; then fail "a killed script has counted"; fi
[ -s "$work/sliced.puzzle.slices" ] || fail "slices keeps no state"
cp "$work/sliced.puzzle" "$work/other.puzzle"
{ cat "$work/sliced.puzzle.slices" && echo; } > "$work/other.puzzle.slices"
if tools/slices "$work/other.puzzle" > "$work/said" 2>&1; then fail "slices takes a damaged state"; fi
grep -q 'is damaged' "$work/said" || fail "$(cat "$work/said")"
cp "$work/sliced.puzzle.slices" "$work/other.puzzle.slices"
echo 'cut 000' >> "$work/other.puzzle"
if tools/slices "$work/other.puzzle" > "$work/said" 2>&1; then fail "slices goes on with another text"; fi
grep -q 'is of another text' "$work/said" || fail "$(cat "$work/said")"
tools/slices --steps "$slice" "$work/sliced.puzzle" > "$work/counted" 2> "$work/said" || fail "slices: $(cat "$work/said")"
wanted "$first" | diff - "$work/counted" || fail "the slices don't add up"
grep -q 'goes on after' "$work/said" || fail "slices began anew"
[ ! -e "$work/sliced.puzzle.slices" ] || fail "slices leaves its state"
cp "examples/$third.cover" "$work/sliced.cover"
tools/slices --cover "$work/sliced.cover" 2> "$work/said" | diff "examples/$third.expect" - || fail "slices of $third"

# An interrupt says what is kept and what goes on; a second count of the text is refused while one runs; nothing is counted that can't be kept.
# shellcheck disable=SC2016
printf '#!/bin/sh\nn=$(cat "%s/calls")\necho $((n + 1)) > "%s/calls"\n[ "$n" != 3 ] || exec sleep 60\nexec "%s" "$@"\n' "$work" "$work" "$POLYLAB" > "$work/slow"
chmod +x "$work/slow"
echo 0 > "$work/calls"
POLYLAB=$work/slow tools/slices --steps "$slice" "$work/sliced.puzzle" > "$work/counted" 2> "$work/said" &
for _ in 1 2 3 4 5 6 7 8 9 10 11 12 13 14 15 16 17 18 19 20; do
    [ "$(cat "$work/calls")" != 4 ] || break
    sleep 1
done
if tools/slices "$work/sliced.puzzle" > "$work/second" 2>&1; then fail "slices counts a text twice at once"; fi
grep -q "is being counted already, by process $!" "$work/second" || fail "$(cat "$work/second")"
kill "$!"
wait "$!" && fail "a stopped script has counted"
grep -q 'stopped; .*sliced.puzzle.slices keeps what was counted.*this goes on: tools/slices --steps' "$work/said" || fail "$(cat "$work/said")"
grep -q 'steps, .* visits, about [0-9.]* %, [0-9.]* s so far, [0-9.]* s to [0-9.]* [a-z]* left' "$work/said" || fail "$(cat "$work/said")"
[ ! -e "$work/sliced.puzzle.slices.lock" ] || fail "slices leaves its lock"
tools/slices "$work/sliced.puzzle" 2> "$work/said" > "$work/counted" || fail "slices: $(cat "$work/said")"
wanted "$first" | diff - "$work/counted" || fail "the slices don't add up after an interrupt"
if POLYLAB=/bin/false tools/slices --keep "$work/none/state" "$work/sliced.puzzle" > "$work/said" 2>&1; then fail "slices keeps nothing"; fi
grep -q 'none/state.lock: No such file' "$work/said" || fail "$(cat "$work/said")"
tools/slices --seconds 1 --cover --keep "$work/state" < "examples/$third.cover" 2> "$work/said" | diff "examples/$third.expect" - || fail "slices of standard input"
[ ! -e "$work/state" ] || fail "slices leaves the state of standard input"
echo "ok slices, with an interrupt"

# Spoilt folders. The text that follows has to be in the sentence.
spoil() {
    rm -rf "$work/spoilt"
    cp -R "$work/soma" "$work/spoilt"
}
refused() {
    if tools/join "$work/spoilt" > "$work/said" 2>&1; then fail "join takes a folder where $1"; fi
    grep -q -e "$1" "$work/said" || fail "no '$1' in: $(cat "$work/said")"
    if grep -q Traceback "$work/said"; then fail "join: $(tail -n 1 "$work/said")"; fi
    echo "ok, refused: $(cat "$work/said")"
}
part=$work/spoilt/part-0003
spoil && rm "$part.snapshot" && refused 'part-0003.snapshot is left out'
spoil && rm "$part.snapshot" && sed '/part-0003/d; s/^parts 16/parts 15/' "$work/soma/manifest" > "$work/spoilt/manifest"
refused 'a part is left out, .*: part-0004.snapshot begins at'
spoil && rm "$work/spoilt/part-0016.snapshot" && sed '/part-0016/d; s/^parts 16/parts 15/' "$work/soma/manifest" > "$work/spoilt/manifest"
refused 'a part is left out: part-0015.snapshot, the last one'
spoil && cp "$work/soma/part-0002.snapshot" "$part.snapshot" && refused 'part-0003.snapshot is doubled'
spoil && cp "$part.snapshot" "$work/spoilt/part-0017.snapshot" && refused "part-0017.snapshot isn't in the manifest"
spoil && cp "$work/pent/part-0003.snapshot" "$part.snapshot" && refused 'part-0003.snapshot is of another problem'
spoil && head -n 9 "$work/soma/part-0003.snapshot" > "$part.snapshot" && refused 'part-0003.snapshot is no snapshot: it is cut short'
spoil && "$POLYLAB" resume --steps 9 < "$work/soma/part-0003.snapshot" | sed '1,/^levels/d' > "$part.snapshot"
refused 'part-0003.snapshot was searched before'
spoil && sed 's/^polysnap 1/polysnap 2/; s/^end$/breaks 1\nbreak visit\nend/' "$work/soma/part-0003.snapshot" > "$part.snapshot"
refused "part-0003.snapshot isn't the one that was written"
spoil && head -n 4 "$work/soma/manifest" > "$work/spoilt/manifest" && refused 'manifest tells of 16 parts, and names 0'
spoil && rm "$part.answer" && refused 'part-0003.answer is missing'
spoil && head -n 2 "$work/soma/part-0003.answer" > "$part.answer" && refused 'part-0003.answer is no answer: it is cut short'
spoil && "$POLYLAB" resume --steps 9 < "$work/soma/part-0003.snapshot" > "$part.answer" && refused "part-0003.answer doesn't end with"
spoil && sed 's/^visits .*/visits 999999/' "$work/soma/part-0003.answer" > "$part.answer"
refused 'part-0003.answer is refused: .*: refused join 11 BadNumbers line [0-9]*$'
spoil && sed 's/^levels 0 /levels /' "$work/soma/part-0003.answer" > "$part.answer" && refused "part-0003.answer isn't of its part"
spoil && sed '$d' "$work/soma/part-0003.answer" > "$part.answer" && refused "part-0003.answer doesn't say whose answer it is"
spoil && echo more >> "$part.answer" && refused "part-0003.answer doesn't end with"

# An answer that stands in for another of the same problem, or for one of another problem, is refused, though its numbers fit.
tools/parts --cover 10 "$work/other" examples/covers/queens-8.cover > "$work/said"
tools/answer "$work"/other/part-*.snapshot
for number in 02 03 04 05 06 07; do
    for from in soma/part-0001 soma/part-0016 other/part-0002 covers/part-0003; do
        spoil && cp "$work/$from.answer" "$work/spoilt/part-00$number.answer"
        if tools/join "$work/spoilt" > "$work/said" 2>&1; then fail "join takes $from for part-00$number"; fi
        grep -q "part-00$number.answer is the answer of another part" "$work/said" || fail "$(cat "$work/said")"
    done
done
echo "ok, refused: answers of other parts"

# A folder that takes no new file is told as such, and so is a disk that takes no more.
printf '#!/bin/sh\nexit 5\n' > "$work/full"
chmod +x "$work/full"
cp "$work/soma/part-0001.snapshot" "$work/lone.snapshot"
if POLYLAB=$work/full tools/answer "$work/lone.snapshot" 2> "$work/said"; then fail "answer takes status 5"; fi
grep -q "lone.answer.* can't be written (is the disk full?)" "$work/said" || fail "$(cat "$work/said")"
mkdir "$work/bare"
ln -s "$work/soma/part-0001.snapshot" "$work/bare/part-0001.snapshot"
chmod a-w "$work/bare"
if tools/parts 3 "$work/none/folder" "$work/sliced.puzzle" > "$work/said" 2>&1; then fail "parts makes a folder where there is none"; fi
grep -q "none takes no new folder: No such file" "$work/said" || fail "$(cat "$work/said")"
if [ "$(id -u)" != 0 ]; then
    if tools/answer "$work/bare/part-0001.snapshot" 2> "$work/said"; then fail "answer writes to a folder that takes no file"; fi
    grep -q "bare takes no new file" "$work/said" || fail "$(cat "$work/said")"
fi

# What is empty or cut short is made anew, and join says so; what is whole is left alone, also what the program printed by itself.
spoil
: > "$work/spoilt/part-0003.answer"
head -n 2 "$work/soma/part-0004.answer" > "$work/spoilt/part-0004.answer"
tail -n 1 "$work/soma/part-0005.answer" > "$work/spoilt/part-0005.answer"
printf %s "$(cat "$work/soma/part-0006.answer")" > "$work/spoilt/part-0006.answer"
"$POLYLAB" resume --steps 9 < "$work/spoilt/part-0007.snapshot" > "$work/spoilt/part-0007.answer"
refused "part-0003.answer is no answer: it is cut short; tools/answer $work/spoilt/part-0003.snapshot counts it again"
"$POLYLAB" resume < "$work/spoilt/part-0002.snapshot" > "$work/unmarked"
cp "$work/unmarked" "$work/spoilt/part-0002.answer"
tools/answer -- "$work"/spoilt/part-*.snapshot || fail "answer of spoilt answers"
cmp "$work/unmarked" "$work/spoilt/part-0002.answer" || fail "answer makes a whole answer anew"
for number in 03 04 05 06 07; do
    cmp "$work/soma/part-00$number.answer" "$work/spoilt/part-00$number.answer" || fail "answer leaves part-00$number.answer as it was"
done

# Links that somebody put where a script writes are not followed, and no device or pipe is read.
mkdir "$work/links"
echo precious > "$work/links/own"
unharmed() {
    [ "$(cat "$work/links/own")" = precious ] || fail "$1 writes through a link"
    [ ! -L "$work/links/own" ] || fail "$1 replaces a link's aim"
}
cp "$work/soma/part-0001.snapshot" "$work/links/part.snapshot"
# shellcheck disable=SC2016
sh -c 'ln -s own "$1/part.answer.$(uname -n).$$" && exec tools/answer "$1/part.snapshot"' sh "$work/links" || fail "answer beside a link"
unharmed answer
cmp "$work/soma/part-0001.answer" "$work/links/part.answer" || fail "answer beside a link"
cp "examples/$first.puzzle" "$work/links/one.puzzle"
for name in slices.new slices; do
    rm -f "$work"/links/one.puzzle.*
    ln -s own "$work/links/one.puzzle.$name"
    tools/slices "$work/links/one.puzzle" > "$work/counted" 2> "$work/said" || [ "$name" = slices ] || fail "slices beside a link: $(cat "$work/said")"
    unharmed "slices with a link $name"
done
ln -s own "$work/links/one.puzzle.slices.lock"
if tools/slices "$work/links/one.puzzle" > "$work/counted" 2> "$work/said"; then fail "slices locks a link"; fi
grep -q 'slices.lock is a link, and nothing is written through it' "$work/said" || fail "slices locks a link: $(cat "$work/said")"
rm "$work/links/one.puzzle.slices.lock"
ln "$work/links/own" "$work/links/one.puzzle.slices.lock"
if tools/slices "$work/links/one.puzzle" > "$work/counted" 2> "$work/said"; then fail "slices locks another file"; fi
unharmed "slices' lock"
mkfifo "$work/links/pipe.snapshot"
ln -s /dev/zero "$work/links/zero.snapshot"
for name in pipe zero; do
    if timeout 20 tools/answer "$work/links/$name.snapshot" 2> "$work/said"; then fail "answer takes a part that is no file: $name"; fi
    grep -q "$name.snapshot is no part: it is a folder, a device or a pipe" "$work/said" || fail "answer of $name: $(cat "$work/said")"
    spoil && rm "$part.snapshot" && ln -s "$work/links/$name.snapshot" "$part.snapshot"
    refused 'part-0003.snapshot is a folder, a device or a pipe'
done
echo "ok links, devices and pipes"

# Two calls that have one host name and one process id, as in containers, lose no answer.
if unshare --pid --fork true 2> /dev/null; then
    # shellcheck disable=SC2016
    printf '#!/bin/sh\nsleep 1\nexec "%s" "$@"\n' "$POLYLAB" > "$work/late"
    chmod +x "$work/late"
    rm "$work/links/part.answer"
    named=$POLYLAB
    export POLYLAB="$work/late"
    unshare --pid --fork tools/answer "$work/links/part.snapshot" &
    sleep 0.5
    unshare --pid --fork tools/answer "$work/links/part.snapshot" || fail "answer beside its like"
    wait "$!" || fail "answer, and its like beside it"
    export POLYLAB="$named"
    cmp "$work/soma/part-0001.answer" "$work/links/part.answer" || fail "two calls of answer lose one"
else
    echo "skipped: two calls with one process id need unshare"
fi

# Of two calls for one folder the one that comes second says so.
# shellcheck disable=SC2016
printf '#!/bin/sh\nmkdir -p "%s/twice/part"\nexec "%s" "$@"\n' "$work" "$POLYLAB" > "$work/sooner"
chmod +x "$work/sooner"
if POLYLAB=$work/sooner tools/parts 3 "$work/twice" "$work/sliced.puzzle" > "$work/said" 2>&1; then fail "parts takes a folder that another call made"; fi
grep -q 'twice is there already' "$work/said" || fail "two calls of parts: $(cat "$work/said")"
[ -z "$(find "$work" -name 'twice.*')" ] || fail "parts leaves $(find "$work" -name 'twice.*')"
for line in '--' '-- none' '-x'; do
    # shellcheck disable=SC2086
    if tools/answer $line > "$work/said" 2>&1; then fail "answer $line: status 0"; fi
done
cp "$work/soma/part-0001.snapshot" "$work/-x.snapshot"
tools=$PWD/tools
(cd "$work" && "$tools/answer" -- -x.snapshot) || fail "answer -- -x.snapshot"
cmp "$work/soma/part-0001.answer" "$work/-x.answer" || fail "answer -- -x.snapshot"
echo "ok calls that meet"

# A wrong use, a text that is refused, a file that isn't there: a sentence and 1, never a traceback.
for line in 'parts' "parts 0 $work/none" "parts 3 $work/soma" "parts 3 $work/none" "parts --cover 3 $work/none" "parts x $work/none" 'join' 'join none' \
    'answer' 'answer none' 'answer none.snapshot' 'slices' 'slices none' 'slices --steps 0 README.md' 'slices README.md' 'slices --steps' \
    'slurm_array' 'slurm_array none'; do
    # shellcheck disable=SC2086
    if echo 'piece one' | tools/$line > "$work/said" 2>&1; then fail "$line: status 0"; fi
    if grep -q Traceback "$work/said"; then fail "$line: $(tail -n 1 "$work/said")"; fi
    [ -s "$work/said" ] || fail "$line says nothing"
done
[ ! -e "$work/none" ] || fail "parts leaves a folder of a text that is refused"
echo "ok sentences"
