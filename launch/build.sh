# Proves and builds the program $name, for the launcher piperench, which reads this file. `rt ci` does it, on a copy that holds
# the crates that the program uses, without their must-fail/ folders. Most kits keep what they prove for every later run on this
# machine. There a build that was stopped goes on where it was, and the gate .ci/run proves none of these crates again.

log=$crate/out/build.log
# When each crate was begun and proved; the file is as old as the begin of its build.
times=$crate/out/build.times
speed=
copy=
proofs=
quick=
answered=

# The crates that a program uses, itself included, one a line.
crates_used() {
    awk -v program="$1" '
        { sub(/#.*/, ""); at = index($0, ":") }
        at { split(substr($0, 1, at - 1), head, " "); uses[head[1]] = substr($0, at + 1) }
        END {
            todo[n = 1] = program; seen[program]
            for (at = 1; at <= n; at++) {
                print todo[at]
                m = split(uses[todo[at]], below, " ")
                for (i = 1; i <= m; i++)
                    if (below[i] in uses && !(below[i] in seen)) { seen[below[i]]; todo[++n] = below[i] }
            }
        }' "$root/crates.txt"
}

# Of the crates that are named on standard input, those of which no source is newer than the file.
unchanged_since() {
    while read -r one; do
        newer=$(find "$root/crates/$one" -name out -prune -o -type f -newer "$1" \( -name '*.rt' -o -name '*.antt' \) -print)
        [ -n "$newer" ] || echo "$one"
    done
}

# The kit keeps what it proves for later runs. The help of one that does not says so.
kit_keeps_proofs() {
    ! rt help 2>&1 | grep -q 'sets aside what earlier runs left'
}

# The crates that an earlier build proved as they stand, on one line. Only the estimate goes by it: what rt kept decides.
known_crates() {
    kit_keeps_proofs || return
    for one in piperench pipelens; do
        out=$root/crates/$one/out
        if [ -x "$out/$one" ]; then
            crates_used "$one" | unchanged_since "$out/$one"
        elif [ -e "$out/build.times" ]; then
            awk 'NF == 3 { print $1 }' "$out/build.times" | unchanged_since "$out/build.times"
        fi
    done | tr '\n' ' '
}

# The free memory in MB; much where it is not told. PIPERENCH_MEMINFO names a file that tells it in the system's place.
free_memory() {
    awk '/^MemAvailable:/ { free = int($2 / 1000) } END { print free ? free : 1000000 }' \
        "${PIPERENCH_MEMINFO:-/proc/meminfo}" 2>/dev/null || echo 1000000
}

# As many proofs side by side as there are processors, and as the free memory holds with 2 GB for each. RT_JOBS is rt's own.
side_by_side() {
    jobs=${RT_JOBS:-$(nproc 2>/dev/null || echo 1)}
    room=$(($(free_memory) / 2000))
    [ "$room" -ge "$jobs" ] || jobs=$room
    [ "$jobs" -ge 1 ] || jobs=1
    echo "$jobs"
}

# Sets what progress.awk tells: the crates proved and in all, the seconds left, and the crate that is longest at work.
measure() {
    started=
    if [ -n "$copy" ]; then
        started=$(cd "$copy/crates" && ls -d -- */out/rlib "$name/out" 2>/dev/null | sed 's|/.*||' | tr '\n' ' ')
    fi
    read -r proved count left shown at_work <<END
$(awk -v program="$name" -v lanes="$jobs" -v now="$(date +%s)" -v times="$times" -v logged="$log" -v known="$known" \
        -v started="$started" -v speed="${speed:-1}" -f "$root/launch/progress.awk" "$root/crates.txt" "$root/docs/GATE.md")
END
    speed=${speed:-$shown}
    [ ! -e "$times" ] || touch -r "$begun" "$times"
}

# Begins with the times that builds of both programs noted of crates that need no new proof: they tell how fast this machine is.
collect_times() {
    cat "$root"/crates/piperench/out/build.times "$root"/crates/pipelens/out/build.times 2>/dev/null \
        | awk -v known=" $known" 'NF == 3 && index(known, " " $1 " ") && !seen[$1]++' >"$times.new"
    mv -f "$times.new" "$times"
}

# A number of seconds, in words.
in_words() {
    if [ "$1" -lt 90 ]; then
        echo "about a minute"
    else
        echo "about $((($1 + 30) / 60)) minutes"
    fi
}

# Tells how far the proofs are: one line that is written again on a terminal, elsewhere a line each minute, or after as many
# seconds as PIPERENCH_TELL says.
tell_progress() {
    measure
    told="$proved of $count crates proved, $(in_words "$left") left${at_work:+, now $at_work}"
    now=$(date +%s)
    if [ -t 2 ]; then
        printf '\r%s: %-66s' "$name" "$told" >&2
    elif [ $((now - last_told)) -ge "${PIPERENCH_TELL:-60}" ]; then
        last_told=$now
        say "$told"
    fi
}

# Takes the progress off the terminal's line.
end_progress() {
    [ ! -t 2 ] || printf '\r%78s\r' '' >&2
}

# Copies what the proofs read. The copy can't stand in the repository, where rt ci would find a second crates.txt.
make_copy() {
    stale=$(cat "$crate/out/build.copy" 2>/dev/null)
    case $stale in
    */"$name"-proofs-*) rm -rf -- "$stale" ;;
    esac
    copy=$(mktemp -d "${TMPDIR:-/tmp}/$name-proofs-XXXXXX") || exit 1
    echo "$copy" >"$crate/out/build.copy"
    mkdir "$copy/.git" "$copy/crates" && cp "$root/HANDLES" "$copy" || exit 1
    crates_used "$name" >"$copy/.git/used"
    awk 'NR == FNR { used[$1]; next } { split($0, head, /[: ]/) } head[1] in used' "$copy/.git/used" "$root/crates.txt" \
        >"$copy/crates.txt"
    while read -r one; do
        mkdir "$copy/crates/$one" || exit 1
        for part in "$root/crates/$one"/*; do
            case ${part##*/} in
            out | must-fail) ;;
            *) cp -R -- "$part" "$copy/crates/$one" || exit 1 ;;
            esac
        done
    done <"$copy/.git/used"
}

# Starts the proofs as a group of processes of their own, so that they can be stopped together.
start_proofs() {
    # shellcheck disable=SC2016
    setsid sh -c 'cd "$1" && nice -n "$2" rt ci >"$3" 2>&1 </dev/null; echo $? >"$1/.git/status"' sh "$copy" "$1" "$log" &
    proofs=$!
}

# Stops what was started, and removes the folders that it worked in. rt ends what it started itself.
stop_all() {
    for group in $proofs $quick; do
        kill -s TERM -- "-$group" 2>/dev/null
    done
    [ -z "$proofs$quick" ] || wait
    [ ! -s "$log" ] || [ -z "$copy" ] || name_own_files
    for folder in "$copy" "$answer"; do
        # (what is being killed may write once more)
        [ -z "$folder" ] || rm -rf -- "$folder" 2>/dev/null || { sleep 1; rm -rf -- "$folder"; }
    done
    rm -f "$crate/out/build.copy"
    proofs='' quick='' copy='' answer=''
}

interrupted() {
    trap '' INT TERM HUP
    end_progress
    if kit_keeps_proofs; then
        say "stopped; the next call goes on from the crates that are proved"
    else
        say "stopped; the next call begins anew, because this kit keeps no proofs"
    fi
    exit "$1"
}

# The log speaks of the copy, which is gone when someone reads it: it is to name the repository's files.
name_own_files() {
    copy=$copy root=$root awk '
        BEGIN { copy = ENVIRON["copy"]; root = ENVIRON["root"] }
        {
            line = ""
            while (at = index($0, copy)) {
                line = line substr($0, 1, at - 1) root
                $0 = substr($0, at + length(copy))
            }
            print line $0
        }' "$log" >"$log.new" && mv -f "$log.new" "$log"
}

# The first crate that the log says is not proved.
failed_crate() {
    sed -n 's/^rt: \([a-z_0-9]*\) NOT PROVED$/\1/p' "$log" | head -n 1
}

build_failed() {
    end_progress
    failed=$(failed_crate)
    say "the program could not be built${failed:+: $failed is not proved}; the log is $log"
    exit 1
}

# Takes the program out of the copy. It gets the age of the begin of its build, so that a source that was changed since is newer.
take_program() {
    cp "$copy/crates/$name/out/$name" "$program.new" && touch -r "$begun" "$program.new" && mv -f "$program.new" "$program" \
        || build_failed
    rm -f "$begun"
    if ! is_fresh; then
        say "a source was changed while the program was built; call again"
        exit 1
    fi
}

# Says what the call will do, and how long that takes here.
announce() {
    say "proving and building the program once: $count crates, $jobs side by side, $(in_words "$left") here; $1"
}

# Waits until the proofs have ended, tells how far they are, and hands out the unproved answer when it is there.
await_proofs() {
    until [ -e "$copy/.git/status" ]; do
        sleep 0.5
        if [ -n "$quick" ] && { [ -e "$answer/status" ] || ! kill -0 "$quick" 2>/dev/null; }; then
            take_answer
            [ -n "$proofs" ] || start_proofs 0
        fi
        [ -z "$(failed_crate)" ] || build_failed
        [ -z "$proofs" ] || kill -0 "$proofs" 2>/dev/null || [ -e "$copy/.git/status" ] || interrupted 1
        tell_progress
    done
    [ "$(cat "$copy/.git/status")" = 0 ] || build_failed
}

# Proves and builds the program. If the call was answered meanwhile, it ends here with the status of the answer.
build() {
    since=$(date +%s)
    last_told=$since
    jobs=$(side_by_side)
    known=$(known_crates)
    collect_times
    : >"$log"
    touch "$begun"
    trap stop_all EXIT
    trap 'interrupted 130' INT
    trap 'interrupted 143' TERM
    trap 'interrupted 129' HUP
    measure
    make_copy
    if is_worth_it && can_answer "$@"; then
        announce "an unproved answer comes in about 2"
        start_answer "$@"
        # Beside the unproved build the proofs step back. They wait for it where memory is scarce.
        [ "$(free_memory)" -lt 8000 ] || start_proofs 5
    else
        announce "the answer comes then"
        start_proofs 0
    fi
    await_proofs
    take_program
    end_progress
    say "proved and built in $(in_words $(($(date +%s) - since)))"
    stop_all
    trap - EXIT INT TERM HUP
    [ -z "$answered" ] || exit "$answered"
}
