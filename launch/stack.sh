# Raises the limit of the stack to 1 GiB, or as near to it as the hard limit lets: a program's syntax tree can be tens of
# thousands of levels deep, and what goes down it calls itself once for each level. Only memory that is touched is taken.
raise_stack() {
    limit=1048576
    most=$(ulimit -H -s) || return
    if [ "$most" != unlimited ] && [ "$most" -lt "$limit" ]; then
        limit=$most
    fi
    if [ "$limit" -lt 65536 ]; then
        echo "$name: the stack is limited to $limit KiB: a very deep program can end without an answer" >&2
    fi
    now=$(ulimit -S -s)
    if [ "$now" != unlimited ] && [ "$now" -lt "$limit" ]; then
        ulimit -S -s "$limit"
    fi
}
