# Answers a call of the program $name while it is still to be proved, for the launcher piperench, which reads this file. `rt try`
# compiles the program's sources without proving them, and runs it in an empty folder, on copies of the call's files.

answer=

# Proofs that take less than the unproved build are not worth one: it takes some two minutes.
is_worth_it() {
    case ${PIPERENCH_WAIT:-0} in
    0) [ "$left" -gt 120 ] ;;
    *) return 1 ;;
    esac
}

# The file of this name can be copied: it is a plain file, and not too large for a build that is slow.
is_plain() {
    case $1 in
    /dev/* | /proc/*) return 1 ;;
    esac
    [ -f "$1" ] && [ -r "$1" ] && [ "$(wc -c <"$1")" -le 67108864 ]
}

# The name can be given to a copy in the program's folder, where rt has files of its own.
is_below() {
    case $1/ in
    /* | ../* | */../* | *=* | program/* | stdin/* | stdout/* | stderr/*) return 1 ;;
    esac
}

# Finds the file that a word of the call names, and the way in which the unproved program gets it: `copy` where a copy has the
# word for its name, `path` where the word becomes the file's whole path, nothing where the word names no file. It fails where
# the program can't get the file.
find_way() {
    case $1 in
    -) file=- ;;
    -*=*) file=${1#*=} ;;
    -*) file= ;;
    *) file=$1 ;;
    esac
    way=
    if [ -n "$file" ] && [ -e "$file" ]; then
        is_plain "$file" || return 1
        way=path
        ! is_below "$file" || way=copy
    else
        # (rt would copy a file of that name out of the program's own folder)
        [ -z "$file" ] || [ ! -e "$crate/$file" ]
    fi
}

# The files that a list of programs names, one a line: the list is one of the words.
listed_files() {
    [ "$1" = share ] || return
    shift
    for word in "$@"; do
        case $word in
        -*) ;;
        *) [ ! -f "$word" ] || awk 'NR <= 8 { print $1; print $2 }' "$word" ;;
        esac
    done
}

# The unproved program can get each file that the words name. A first word is a mode, also where a folder has its name, and
# behind `--` a file may have the name of an option.
can_answer() {
    while read -r one; do
        find_way "$one" || return 1
        # (a list that names a file above its folder can't be given another name for it)
        case $way$one in
        path/* | copy* | "$one") ;;
        *) return 1 ;;
        esac
    done <<END
$(listed_files "$@")
END
    mode=1
    for word in "$@"; do
        case $mode$word in
        ?--) return 1 ;;
        0* | 1-*) find_way "$word" || return 1 ;;
        esac
        mode=0
    done
}

# The word as the unproved program is to get it.
given_word() {
    find_way "$1" || way=
    case $way$file in
    path/* | copy* | "$file") printf '%s' "$1" ;;
    path*) printf '%s' "${1%"$file"}$PWD/$file" ;;
    esac
}

# Starts the unproved build, in a group of processes of its own.
start_answer() {
    answer=$(mktemp -d "${TMPDIR:-/tmp}/$name-answer-XXXXXX") || exit 1
    listed_files "$@" >"$answer/listed"
    for word in "$@"; do
        shift
        set -- "$@" "$(given_word "$word")"
    done
    set -- -- "$@"
    for word in "$@"; do
        find_way "$word" && [ "$way" = copy ] && set -- --data "$file=$PWD/$file" "$@"
    done
    while read -r word; do
        find_way "$word" && [ "$way" = copy ] && set -- --data "$file=$PWD/$file" "$@"
    done <"$answer/listed"
    # shellcheck disable=SC2016
    setsid sh -c 'to=$1; cd "$2" || exit; shift 2; rt try "$@" >"$to/written" 2>"$to/said" </dev/null; echo $? >"$to/status"' \
        sh "$answer" "$crate" "$@" 9>&- &
    quick=$!
}

# Hands out the answer of the unproved program, once it has ended: what it wrote, then its note. Then nothing more is written to
# standard output, which is closed, so that a reader need not wait for the proofs. Without an answer, the call waits for them.
take_answer() {
    quick=
    end_progress
    ended=$(tail -n 1 "$answer/said" 2>/dev/null | sed -n 's/^run=ended status=\([0-9]*\) .*proved=no$/\1/p')
    if [ -z "$ended" ]; then
        say "the unproved build gave no answer, so the answer comes after the proofs"
        return
    fi
    if cat "$answer/written" 2>/dev/null; then
        sed -e '/^checked: /d' -e '/^interpreter: /d' -e '/^races: /d' -e '/^run=/d' "$answer/said" >&2
    else
        echo "write fault" >&2
        ended=11
    fi
    exec >/dev/null
    answered=$ended
    say "this answer is of the unproved program; the proofs go on, $(in_words "$left") left"
}
