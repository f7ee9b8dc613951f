# Tells how far a build is, and how long what is left takes on this machine.
#
#   awk -v program=NAME -v lanes=N -v now=SECONDS -v times=FILE -v logged=FILE -v started="CRATE .." -v known="CRATE .." \
#       -v speed=NUMBER -f launch/progress.awk crates.txt docs/GATE.md
#
# It prints one line: crates proved, crates in all, seconds left, this machine's seconds for one second of the table in GATE.md,
# and the crate that is longest at work. It writes to the file `times` when each crate was begun and proved, for the next call.
# `known` are crates that an earlier build proved; `speed` is what was measured before.

# The crates, each with what it uses.
FILENAME ~ /crates\.txt$/ {
    sub(/#.*/, "")
    at = index($0, ":")
    if (at) { split(substr($0, 1, at - 1), head, " "); uses[head[1]] = substr($0, at + 1) }
    next
}

# The rows of the table that begins with the columns "crate" and "first check".
/^\| crate \| first check \|/ { inside = 1 }
!/^\|/ { inside = 0 }
inside && split($0, cell, /[|` ]+/) && cell[3] ~ /^[0-9]+$/ { cost[cell[2]] = cell[3] }

function collect(    at, below, m, i) {
    order[count = 1] = program; found[program]
    for (at = 1; at <= count; at++) {
        m = split(uses[order[at]], below, " ")
        for (i = 1; i <= m; i++)
            if (below[i] in uses && !(below[i] in found)) { found[below[i]]; order[++count] = below[i] }
    }
}

# Seconds of the longest chain of crates that wait for this one, itself included; a crate's figure stands in `chain`.
function chain_of(crate,    at, below, m, i, most) {
    if (crate in chain) return chain[crate]
    most = 0
    for (at = 1; at <= count; at++) {
        m = split(uses[order[at]], below, " ")
        for (i = 1; i <= m; i++) if (below[i] == crate && chain_of(order[at]) > most) most = chain_of(order[at])
    }
    return chain[crate] = most + cost[crate]
}

function is_at_work(crate) {
    if (crate in done) return 0
    return crate in ends
}

function is_ready(crate,    below, m, i) {
    if (crate in done || crate in ends) return 0
    m = split(uses[crate], below, " ")
    for (i = 1; i <= m; i++) if (below[i] in found && !(below[i] in done)) return 0
    return 1
}

# Seconds until all is proved, if each idle lane takes the ready crate with the longest chain behind it.
function schedule(    clock, at, best, busy, least) {
    clock = 0
    for (;;) {
        busy = 0
        for (at = 1; at <= count; at++) if (is_at_work(order[at])) busy++
        while (busy < lanes) {
            best = ""
            for (at = 1; at <= count; at++)
                if (is_ready(order[at]) && (best == "" || chain_of(order[at]) > chain_of(best))) best = order[at]
            if (best == "") break
            ends[best] = clock + cost[best] * speed; busy++
        }
        if (!busy) return clock
        least = ""
        for (at = 1; at <= count; at++)
            if (is_at_work(order[at]) && (least == "" || ends[order[at]] < ends[least])) least = order[at]
        clock = ends[least]; done[least]
    }
}

# The moments that the calls before this one noted, and what is new: the log names a crate once it is proved.
function take_notes(    line, word, m, i, began) {
    while ((getline line < times) > 0) { split(line, word, " "); begun[word[1]] = word[2]; if (word[3] != "") ended[word[1]] = word[3] }
    close(times)
    m = split(started, began, " ")
    for (i = 1; i <= m; i++) if (!(began[i] in begun)) begun[began[i]] = now
    while ((getline line < logged) > 0)
        if (line ~ /^rt: [a-z_0-9]+ (proved|is kept: .*)$/) {
            split(line, word, " ")
            if (!(word[2] in found)) continue
            if (!(word[2] in begun)) begun[word[2]] = now
            if (!(word[2] in ended)) ended[word[2]] = line ~ /kept: / ? begun[word[2]] : now
            done[word[2]]; proved++
        }
}

END {
    collect()
    for (i = 1; i <= count; i++) if (!(order[i] in cost)) cost[order[i]] = 30
    take_notes()
    # What was measured before counts as much as one minute of the table.
    taken = 60 * speed; asked = 60
    for (i = 1; i <= count; i++) {
        crate = order[i]
        if (crate in ended && ended[crate] > begun[crate]) { taken += ended[crate] - begun[crate]; asked += cost[crate] }
    }
    speed = taken / asked
    # A crate at work that has taken more than that already counts too.
    for (i = 1; i <= count; i++) {
        crate = order[i]
        if (crate in begun && !(crate in ended) && now - begun[crate] > cost[crate] * speed) {
            taken += now - begun[crate]; asked += cost[crate]
        }
    }
    speed = taken / asked
    at_work = ""
    for (i = 1; i <= count; i++) {
        crate = order[i]
        if (crate in begun) printf "%s %s%s\n", crate, begun[crate], crate in ended ? " " ended[crate] : "" > times
        if (!(crate in begun) || crate in ended) continue
        if (at_work == "" || begun[crate] < begun[at_work]) at_work = crate
        # A crate that takes longer than the table says is expected to take a tenth of its time more.
        left = cost[crate] * speed - (now - begun[crate])
        ends[crate] = left > cost[crate] * speed / 10 ? left : cost[crate] * speed / 10
    }
    m = split(known, word, " ")
    for (i = 1; i <= m; i++) if (word[i] in found && !(word[i] in ends)) done[word[i]]
    printf "%d %d %d %.3f %s\n", proved, count, schedule(), speed, at_work
}
