# A file among the words of a job: read by ./polylab and by the command that is installed, which put it on standard input. NOT PROVED. The
# program itself opens no files, and refuses such a word; it sees all other words as they are. The script that reads this names the program,
# the file in which the build wrote its revision (`stamp`), how tools/slices is called there (`slices`), and tools/explain (`explain`).
# shellcheck shell=sh disable=SC2154

# (of dev/jobs.txt, by dev/do jobs)
jobs='solve count options cover debug resume join'
long='solve count cover'
explained='solve count options cover'
valued='--workers --first --table --up-to --cache --steps'
plain='--classes --count --cover --list --packings'
# (up to here)

# Whether a word is one of these.
is_one_of() {
    case $1 in
        '' | *' '*) return 1 ;;
    esac
    case " $2 " in
        *" $1 "*) return 0 ;;
    esac
    return 1
}

# Finds the files among the words of a job: how many they are, the first two, and at which place the first one is, and a word `--`. Where a
# word is no option of a job, none is looked for, and the program refuses all words as they are, or prints its help.
find_files() {
    files=0 file='' second='' place=0 dashes=0 at=1 group=''
    is_one_of "${1:-}" "$jobs" || return 0
    shift
    while [ $# -gt 0 ]; do
        at=$((at + 1))
        case $dashes:$1 in
            0:--) dashes=$at ;;
            0:--*=*)
                is_one_of "${1%%=*}" "$valued" || { files=0; return; }
                [ "${1%%=*}" != --up-to ] || group=${1#*=}
                ;;
            0:-?*)
                if is_one_of "$1" "$valued"; then
                    # (what follows is the option's number or word, and not a file)
                    [ $# -gt 1 ] || return 0
                    [ "$1" != --up-to ] || group=$2
                    at=$((at + 1))
                    shift
                elif ! is_one_of "$1" "$plain"; then
                    files=0
                    return
                fi
                ;;
            *) name_file "$1" ;;
        esac
        shift
    done
}

# One more word that names a file.
name_file() {
    case $files in
        0) file=$1 place=$at ;;
        1) second=$1 ;;
    esac
    files=$((files + 1))
}

refuse() {
    status=$1
    shift
    echo "polylab: $*" >&2
    exit "$status"
}

# Puts the file that was found on standard input, or says why it can't be read.
open_file() {
    if [ "$file" = - ]; then
        return
    elif [ -d "$file" ]; then
        refuse 5 "$file: it is a folder, and a file has to stand here"
    elif [ -r "$file" ]; then
        exec < "$file"
    else
        # (after the last colon come the system's words)
        why=$(cat -- "$file" 2>&1 > /dev/null) || :
        refuse 5 "$file: ${why##*: }"
    fi
}

# Tells somebody at a terminal that a search is at work, and then how far it is. $$ is the program, or the script that waits for it.
tell_later() {
    waited=0
    while [ "$waited" -lt "${POLYLAB_PATIENCE:-10}" ]; do
        sleep 1
        kill -0 $$ 2> /dev/null || exit 0
        waited=$((waited + 1))
    done
    case $1 in
        cover) slices="$slices --cover" first='cover --first N' ;;
        *) slices="$slices${group:+ --up-to $group}" first='solve --first N' ;;
    esac
    echo "polylab: at work for $waited seconds, and writes once all is found; $slices FILE counts and tells what is left, $first stops early" >&2
    # The same search, of a file and on a processor that is free, tells how far this one is.
    if [ -f /dev/fd/3 ] && [ "$(nproc 2> /dev/null || echo 1)" -gt 1 ]; then
        case $1 in
            cover) set -- --cover ;;
            *) set -- ${group:+--up-to "$group"} ;;
        esac
        POLYLAB=$program exec nice -n 19 "$watcher" "$@" --watch $$ /dev/fd/3 3<&3
    fi
}

# Runs the program, and names the command that tells more where it refuses the text.
run_and_explain() {
    status=0
    "$program" "$@" || status=$?
    if [ "$status" = 3 ]; then
        words=explain
        [ "$1" != cover ] || words='explain --cover'
        [ "$file" != - ] || file=
        echo "polylab: where that is, and what is wanted there: polylab $words ${file:-FILE}" >&2
    fi
    exit "$status"
}

# Runs the program; a file that is given is its standard input. Somebody at a terminal is told that the program waits for them, or works.
start() {
    if [ "$*" = --version ] || [ "$*" = -V ]; then
        "$program" "$1" || exit
        [ ! -r "$stamp" ] || sed -n '/^revision /p' "$stamp" || exit 5
        exit 0
    fi
    if [ "${1:-}" = explain ]; then
        shift
        exec "$explain" "$@"
    fi
    typed=$*
    find_files "$@"
    [ "$files" -le 1 ] || refuse 2 "$1 reads one file, and here are $files: $file, $second (cat joins the texts of pieces and a region)"
    if [ "$files" = 1 ]; then
        at=0
        for word; do
            at=$((at + 1))
            shift
            [ "$at" = "$place" ] || [ "$at" = "$dashes" ] || set -- "$@" "$word"
        done
        open_file
    fi
    if [ -t 0 ]; then
        waits=
        for word; do
            case $word in
                -h | --help | -V | --version | help) waits=; break ;;
            esac
            if is_one_of "$word" "$jobs"; then waits=1; fi
        done
        [ -z "$waits" ] || echo "polylab: reading from the terminal, up to Ctrl-D; a file is given as: polylab ${typed% -} FILE" >&2
    fi
    if [ -t 2 ] && [ ! -t 0 ] && is_one_of "${1:-}" "$long"; then
        # (a shell may give a job in the background another standard input before it looks at `3<&0`)
        exec 3<&0
        tell_later "$1" < /dev/null > /dev/null &
        exec 3<&-
    fi
    if [ -t 2 ] && is_one_of "${1:-}" "$explained"; then run_and_explain "$@"; fi
    exec "$program" "$@"
}
