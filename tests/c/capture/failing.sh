# failing.sh - system calls that fail: exit status 2, and nothing is spoiled.

# goes_on: the run in $work/k is taken up and ends like the undisturbed one.
goes_on() {
    run "$work/k" "$programs/capture" "$short" </dev/null &&
        same_end "$work/k" "$short.run"
}

# own_calls FROM: the calls that the program makes by itself, and its writes to
# standard output.
own_calls() {
    calls "$1" "$short" </dev/null | grep -E \
        '^(openat?|read|write|fsync|close|rename|lseek|fcntl|ftruncate) |stat.* file$'
}

# failing FROM LEAST: each call failing once.
failing() {
    own_calls "$1" >"$work/list"
    while read -r call number where; do
        inject "$1" "$call" "error=EIO:when=$number" "$short" </dev/null
        status=$?
        said=$(echo "$call" | sed 's/^openat$/open/; s/^newfstatat$/fstat/')
        [ $status -eq 2 ] && grep -q ": $said: " "$work/k/errors" ||
            { echo "$call $number: status $status" && return 1; }
        goes_on || { echo "$call $number" && return 1; }
    done <"$work/list"
    [ "$(wc -l <"$work/list")" -ge "$2" ]
}
try 'each system call failing once' failing "$work/empty" 50
try 'each system call of a restart failing once' failing "$work/half" 40

# Each call interrupted once: tried again, with no harm.
interrupted() {
    own_calls "$work/half" |
        grep -E '^(open|read|write|fsync|ftruncate|close).* file$' >"$work/list"
    while read -r call number where; do
        inject "$work/half" "$call" "error=EINTR:when=$number" "$short" \
            </dev/null && same_end "$work/k" "$short.run" ||
            { echo "$call $number" && return 1; }
    done <"$work/list"
    grep -q ftruncate "$work/list"
}
try 'each system call interrupted once' interrupted

full_at_each_write() {
    own_calls "$work/empty" | grep '^write .* file$' >"$work/list"
    while read -r call number where; do
        inject "$work/empty" write "error=ENOSPC:when=$number" "$short" \
            </dev/null
        [ $? -eq 2 ] &&
            grep -q 'write: No space left on device' "$work/k/errors" &&
            "$programs/show_book" "$work/k/book" && goes_on ||
            { echo "$call $number" && return 1; }
    done <"$work/list"
    [ "$(wc -l <"$work/list")" -ge 8 ]
}
try 'a full disk at each write' full_at_each_write

# limited BLOCKS: no file can be longer than so many blocks of 512 bytes.
limited() {
    rm -rf "$work/k" && mkdir "$work/k"
    (
        trap '' XFSZ
        ulimit -f "$1"
        run "$work/k" "$programs/capture" "$short"
    )
    [ $? -eq 2 ] && grep -q 'write: File too large' "$work/k/errors" &&
        "$programs/show_book" "$work/k/book" && goes_on
}
try 'a limit that stops the record' limited 1
try 'a limit that stops the book' limited 6

# Reports that can't be printed: the capture goes on and ends with 2.
unprinted() {
    rm -rf "$work/k" && mkdir "$work/k"
    "$programs/capture" 5 "$work/k/record" "$work/k/book" "$short" \
        >/dev/full 2>"$work/k/errors"
    [ $? -eq 2 ] && grep -q '^standard output: write' "$work/k/errors" &&
        cmp "$work/k/book" "$short.run/book" && goes_on
}
unread() {
    rm -rf "$work/k" && mkdir "$work/k"
    { sleep 0.1 && "$programs/capture" 5 "$work/k/record" "$work/k/book" \
        "$short" 2>"$work/k/errors"; } | :
    cmp "$work/k/book" "$short.run/book" && goes_on
}
try 'reports that can not be printed' unprinted
try 'reports that nobody reads' unread
