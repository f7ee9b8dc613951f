# Completes the words of piperench in bash: a mode first, then files, and options anywhere.
_piperench() {
    local word=${COMP_WORDS[COMP_CWORD]} before=${COMP_WORDS[COMP_CWORD - 1]} at
    local modes='
        checkpoint
        compile
        eval
        exec
        extend
        gen
        migrate
        move
        run
        share
        show
        trace
    '
    local options='
        --fabric
        --narrow
        --stall
        --stripes
    '
    # (a word is cut at `=`)
    [ "$before" != = ] || before=${COMP_WORDS[COMP_CWORD - 2]}
    [ "$word" != = ] || word=
    COMPREPLY=()
    case $before in
    --fabric) mapfile -t COMPREPLY < <(compgen -W 'base wide' -- "$word") && return ;;
    --stripes) mapfile -t COMPREPLY < <(compgen -W '2 4 8 16 32 64 128 256' -- "$word") && return ;;
    --stall) return ;;
    esac
    case $word in
    -*) mapfile -t COMPREPLY < <(compgen -W "$options" -- "$word") && return ;;
    esac
    for ((at = 1; at < COMP_CWORD; at++)); do
        [[ $modes != *[[:space:]]${COMP_WORDS[at]}[[:space:]]* ]] || return
    done
    mapfile -t COMPREPLY < <(compgen -W "$modes" -- "$word")
}
# Where nothing is found, bash completes the names of files.
complete -o default -F _piperench piperench
