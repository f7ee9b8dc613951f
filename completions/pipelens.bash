# Completes the words of pipelens in bash: a task first, then files, and options anywhere.
_pipelens() {
    local word=${COMP_WORDS[COMP_CWORD]} before=${COMP_WORDS[COMP_CWORD - 1]} at
    local tasks='
        chart
        cost
        graph
        signals
        rtl
        testbench
        wave
        why
    '
    local options='
        --csv
        --fabric
        --from
        --help
        --json
        --name
        --narrow
        --no-warnings
        --samples
        --seed
        --signed
        --to
    '
    # (a word is cut at `=`)
    [ "$before" != = ] || before=${COMP_WORDS[COMP_CWORD - 2]}
    [ "$word" != = ] || word=
    COMPREPLY=()
    case $before in
    --fabric) mapfile -t COMPREPLY < <(compgen -W 'base wide' -- "$word") && return ;;
    --from | --name | --samples | --signed | --seed | --to) return ;;
    esac
    case $word in
    -*) mapfile -t COMPREPLY < <(compgen -W "$options" -- "$word") && return ;;
    esac
    for ((at = 1; at < COMP_CWORD; at++)); do
        [[ $tasks != *[[:space:]]${COMP_WORDS[at]}[[:space:]]* ]] || return
    done
    mapfile -t COMPREPLY < <(compgen -W "$tasks" -- "$word")
}
# Where nothing is found, bash completes the names of files.
complete -o default -F _pipelens pipelens
