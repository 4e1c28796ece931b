# Words of polylab for fish: put this file into the folder completions of fish's configuration.
# No files among the first words; after a job a file may be the last one.
complete -c polylab -f
# (of dev/jobs.txt, by dev/do jobs)
set -l jobs solve count options cover debug resume join
set -l scripts explain
set -l first "not __fish_seen_subcommand_from $jobs $scripts help"
complete -c polylab -n $first -a solve -d 'show every packing of a puzzle'
complete -c polylab -n $first -a count -d 'count the packings of a puzzle'
complete -c polylab -n $first -a options -d 'write the cover text of a puzzle'
complete -c polylab -n $first -a cover -d 'list the exact covers of a cover text'
complete -c polylab -n $first -a debug -d 'take a search step by step'
complete -c polylab -n $first -a resume -d 'count a branch of a search from a snapshot on'
complete -c polylab -n $first -a join -d 'add up the answers of the parts of a search'
complete -c polylab -n $first -a explain -d 'say why a text is refused, or nothing fits'
complete -c polylab -n '__fish_seen_subcommand_from solve count cover' -l workers -x -d 'threads that share the search, 1 to 32'
complete -c polylab -n '__fish_seen_subcommand_from solve cover' -l first -x -d 'stop at this one, with one worker'
complete -c polylab -n '__fish_seen_subcommand_from solve count cover resume' -l table -x -a 'links bits' -d 'the table of the search'
complete -c polylab -n '__fish_seen_subcommand_from solve count options explain' -l up-to -x -a 'rotations symmetries' -d 'one of each class, by a smaller search'
complete -c polylab -n '__fish_seen_subcommand_from count' -l classes -d 'count up to rotations and symmetries too'
complete -c polylab -n '__fish_seen_subcommand_from count cover resume' -l cache -x -d 'megabytes for counts that are kept'
complete -c polylab -n '__fish_seen_subcommand_from cover' -l count -d 'print no cover, but how many there are'
complete -c polylab -n '__fish_seen_subcommand_from debug explain' -l cover -d 'the text is a cover text'
complete -c polylab -n '__fish_seen_subcommand_from resume' -l steps -x -d 'steps to take at most'
complete -c polylab -n '__fish_seen_subcommand_from resume' -l list -d 'list the visits too'
complete -c polylab -n '__fish_seen_subcommand_from join' -l packings -d 'as the packings of a puzzle'
# (up to here)
complete -c polylab -n "__fish_seen_subcommand_from $jobs $scripts" -F
complete -c polylab -n $first -a help -d 'tell what a job reads and writes'
complete -c polylab -n "__fish_seen_subcommand_from help; and not __fish_seen_subcommand_from $jobs" -a "$jobs"
complete -c polylab -n $first -l version -d 'tell the version'
complete -c polylab -n 'not __fish_seen_subcommand_from help; and not __fish_contains_opt help' -l help -d 'tell what goes in and comes out'
# The scripts that are installed beside it tell their options themselves.
for script in $PATH/polylab-*
    set -l name (basename $script)
    complete -c $name -n 'string match -q -- "-*" (commandline -ct)' -f -a "($name --words 2> /dev/null)"
end
