# Words of polylab for bash: source this file, or put it where bash-completion finds it.
_polylab() {
    local word=${COMP_WORDS[COMP_CWORD]}
    # (of dev/jobs.txt, by dev/do jobs)
    local jobs='solve count options cover debug resume join' scripts='explain'
    local -A options=(
        [solve]='--workers --first --table --up-to'
        [count]='--workers --table --classes --up-to --cache'
        [options]='--up-to'
        [cover]='--workers --count --cache --first --table'
        [debug]='--cover'
        [resume]='--table --steps --list --cache'
        [join]='--packings'
        [explain]='--cover --up-to'
    )
    local -A values=(
        [--workers]=''
        [--first]=''
        [--table]='links bits'
        [--up-to]='rotations symmetries'
        [--cache]=''
        [--steps]=''
    )
    # (up to here)
    local choices="" given k
    if [ "$COMP_CWORD" -eq 1 ]; then
        choices="$jobs $scripts help --help --version"
    elif [ "${COMP_WORDS[1]}" = help ]; then
        [ "$COMP_CWORD" -eq 2 ] && choices=$jobs
    elif [ "${options[${COMP_WORDS[1]}]+there}" ]; then
        choices="${options[${COMP_WORDS[1]}]} --help"
        given=${COMP_WORDS[COMP_CWORD - 1]}
        case $given in
            '<' | '>') choices= ;;
            --*) choices=${values[$given]-$choices} ;;
        esac
        # An option that stands there already is not said again, and after --help nothing is.
        for ((k = 1; k < ${#COMP_WORDS[@]}; k++)); do
            [ "$k" -eq "$COMP_CWORD" ] && continue
            given=${COMP_WORDS[k]}
            case $given in
                --help) choices= ;;
                --*) choices=" $choices " && choices=${choices// $given / } ;;
            esac
        done
    fi
    mapfile -t COMPREPLY < <(compgen -W "$choices" -- "$word")
}
# Where none of these words fits, as for the file after a job, bash names files.
complete -o default -F _polylab polylab
# The scripts that are installed beside it tell their options themselves.
_polylab_script() {
    local word=${COMP_WORDS[COMP_CWORD]}
    COMPREPLY=()
    [[ $word != -* ]] || mapfile -t COMPREPLY < <(compgen -W "$("${COMP_WORDS[0]}" --words 2> /dev/null)" -- "$word")
}
mapfile -t _polylab_scripts < <(compgen -c polylab-)
[ "${#_polylab_scripts[@]}" = 0 ] || complete -o default -F _polylab_script "${_polylab_scripts[@]}"
unset _polylab_scripts
