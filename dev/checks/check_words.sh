#!/bin/sh
# The list of jobs, dev/jobs.txt, has to name each job and each long option that the program's help names, and no other (dev/do jobs makes or
# compares the completions, the command that takes files, and the man page); the examples of the man page and of the help have to print what
# is shown. NOT PROVED; it trusts the program's help.
#
#     dev/do check_words
#
# Prints `ok words`, or a line for each word that is missing or too much, and then ends with 1.
set -eu
CDPATH='' cd "$(dirname "$0")/../.."
failed=0

miss() {
    echo "check_words: $*" >&2
    failed=1
}

# Each job of the help, and each of its options, as `dev/do jobs --list` has them.
helped() {
    ./polylab --help | sed -n '/^Commands:/,/^$/s/^  \([a-z]*\) .*/\1/p' | grep -vx help | while read -r job; do
        echo "$job"
        ./polylab "$job" --help < /dev/null | sed -n 's/^ .*--\([a-z-]*\)\( <[A-Z_]*>\)\{0,1\}  .*/\1/p' | grep -vx help | sed "s/^/$job --/"
    done | sort
}

work=$(mktemp -d)
trap 'rm -rf "$work"' EXIT
helped > "$work/helped"
dev/do jobs --list | sort > "$work/listed"
[ -s "$work/helped" ] || miss "the help names no job"
while read -r word; do [ -z "$word" ] || miss "dev/jobs.txt and the program's help don't both have $word"; done << END
$(comm -3 "$work/helped" "$work/listed" | tr -d '\t')
END

shown=$(sed -n '/^\.EX/,/^\.EE/p' docs/polylab.1 | sed -n '/^[a-z]/p')
printed=$(printf 'piece A 000 100\npiece B 000 100\nbox 2 2 1\n' | ./polylab count)
[ "$shown" = "$printed" ] || miss "the example of docs/polylab.1 prints something else"

# The examples of the help of a job. Their lines stand two spaces in, right after the line that holds these words.
example() {
    ./polylab "$1" --help | awk -v words="$2" '
        shown && /^  / { print substr($0, 3); next }
        shown { shown = 0; over = 1 }
        !over && index($0, words) { shown = 1 }'
}

prints() {
    [ -n "$2" ] || miss "the help of $1 has no example"
    [ "$2" = "$3" ] || miss "the example in the help of $1 prints something else"
}

rest() {
    sed -n '/^polysnap/,$p'
}

small=$(example cover 'saved as small.cover:')
prints cover "$(example cover 'cover < small.cover')" "$(printf '%s\n' "$small" | ./polylab cover)"
dominoes=$(example solve 'saved as dominoes.puzzle:')
prints solve "$(example solve 'solve < dominoes.puzzle')" "$(printf '%s\n' "$dominoes" | ./polylab solve | sed -n 1,3p)"
prints count "$(example count 'two dominoes')" "$(printf '%s\n' "$dominoes" | ./polylab count)"
first=$(printf '%s\n%%%%\nsave\n' "$small" | ./polylab debug --cover | rest | ./polylab resume --steps 40)
prints resume "$(example resume 'resume --steps 40')" "$(printf '%s\n' "$first" | sed '/^polysnap/q')"
prints resume "$(example resume 'of which')" "$(printf '%s\n' "$first" | rest | ./polylab resume)"

# The program itself refuses a file given as a word, with a usage line that shows how it is read.
{ crates/polylab/out/polylab cover FILE 2>&1 || true; } | tr '\n' ' ' | grep -q 'Usage: polylab cover .*< ' || miss "the usage of cover shows no <"

[ "$failed" = 0 ] && echo "ok words"
exit "$failed"
