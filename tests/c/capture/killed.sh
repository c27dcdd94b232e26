# killed.sh - killed at any time, and taken up: the end is the undisturbed one.

# begin FOLDER LINE: a run in the background; $! is the program.
begin() {
    "$programs/capture" 5 "$1/record" "$1/book" "$2" >"$1/report" \
        2>"$1/errors" 3>&- &
}

# at_random_times SITE FRAMES: the waits grow, so that a slow machine gets to the
# end too.
at_random_times() {
    "$programs/make_line" "$1" 9 "$2" "$work/long.sent" >"$work/long"
    rm -rf "$work/k" "$work/long.run" && mkdir "$work/k" &&
        run "$work/long.run" "$programs/capture" "$work/long" || return 1
    kills=0 status=137
    while [ $status -eq 137 ] && [ $kills -lt 1000 ]; do
        begin "$work/k" "$work/long"
        sleep "$(printf 0.%03d $((kills * 7 % 8 + kills / 8)))"
        kill -KILL $! && kills=$((kills + 1))
        wait $!
        status=$?
    done
    echo "killed $kills times, status $status"
    [ $status -eq 0 ] && [ $kills -ge 5 ] && same_end "$work/k" "$work/long.run"
}
try 'killed at random times' at_random_times surge 400000
try 'killed at random times, sums of one lock' at_random_times drift 1000000

# ---- A FIFO that the test holds open ----

has_fed() { [ "$(fed "$work/k")" = "$1" ]; }

# all_fed BYTES: waits, at most ten seconds, until so many bytes are fed.
all_fed() {
    tries=0
    until has_fed "$1" 2>/dev/null; do
        tries=$((tries + 1))
        [ $tries -lt 1000 ] || return 1
        sleep 0.01
    done
}

open_fifo() {
    rm -rf "$work/k" && mkdir "$work/k" && mkfifo "$work/k/line" &&
        exec 3<>"$work/k/line"
}

# The FIFO is closed only after all was fed: the program has it open by then.
on_a_fifo() {
    open_fifo || return 1
    given=0 complete=yes
    for size in 100 1 29 2000 1 4096 3000 3000 1000; do
        begin "$work/k" "$work/k/line"
        tail -c +$((given + 1)) "$surge" | head -c $size >&3
        given=$((given + size))
        all_fed $given || complete=no
        kill -KILL $!
        wait $!
        [ $complete = yes ] || break
    done
    begin "$work/k" "$work/k/line"
    tail -c +$((given + 1)) "$surge" >&3
    all_fed "$(wc -c <"$surge")" || kill -KILL $!
    exec 3>&-
    wait $! && same_end "$work/k" "$surge.run"
}
try 'killed between the pieces of a FIFO' on_a_fifo

second() {
    open_fifo || return 1
    begin "$work/k" "$work/k/line"
    head -c 1000 "$surge" >&3
    all_fed 1000 || kill -KILL $!
    "$programs/capture" 5 "$work/k/record" "$work/k/book" "$surge" \
        >"$work/out" 2>&1 3>&-
    status=$?
    tail -c +1001 "$surge" >&3
    exec 3>&-
    wait $! && same_end "$work/k" "$surge.run" && [ $status -eq 1 ] &&
        grep -q 'book: another process writes this book' "$work/out"
}
try 'a second process is turned away' second

# ---- Killed at each system call ----

# inject FROM NAME WHAT [LINE]: a run in $work/k, which begins as a copy of the
# folder FROM, with something done to the system calls of that name.
inject() {
    rm -rf "$work/k" && cp -r "$1" "$work/k" &&
        strace -o "$work/strace" -e trace="$2" -e inject="$2:$3" \
            "$work/static/capture" 5 "$work/k/record" "$work/k/book" \
            ${4+"$4"} >"$work/k/report" 2>"$work/k/errors"
}

# calls FROM [LINE]: the system calls of such a run, as lines
# 'NAME NUMBER WHERE': the NUMBER-th call of this name; WHERE is 'output' for
# one on standard output, which the C library makes.
calls() {
    rm -rf "$work/k" && cp -r "$1" "$work/k" &&
        strace -o "$work/strace" "$work/static/capture" 5 "$work/k/record" \
            "$work/k/book" ${2+"$2"} >"$work/k/report" 2>"$work/k/errors"
    sed -n 's/^\([a-z_0-9]*\)(\(.*\)/\1 \2/p' "$work/strace" | awk '
        { n[$1]++ }
        $1 ~ /^(execve|exit_group)$/ { next }
        { print $1, n[$1], ($2 == "1," ? "output" : "file") }'
}

# at_each_call FROM LEAST: killed at each call, of which there are so many at
# least, and then run again.
at_each_call() {
    calls "$1" "$short" </dev/null >"$work/list"
    while read -r call number where; do
        inject "$1" "$call" "signal=KILL:when=$number" "$short" </dev/null
        [ $? -eq 137 ] || { echo "$call $number: not killed" && return 1; }
        run "$work/k" "$programs/capture" "$short" </dev/null &&
            same_end "$work/k" "$short.run" ||
            { echo "$call $number" && return 1; }
        [ ! -f "$1/kept" ] || cmp "$1/kept" "$work/k/record.spoiled" || return 1
    done <"$work/list"
    [ "$(wc -l <"$work/list")" -ge "$2" ]
}

# The folders to begin with: an empty one; one where a strip is in the book and
# the record does not tell it yet; one with a spoiled record.
mkdir "$work/empty"
inject "$work/empty" rename signal=KILL:when=2 "$short"
cp -r "$work/k" "$work/half"
mkdir "$work/spoiled_start"
echo spoiled | tee "$work/spoiled_start/kept" >"$work/spoiled_start/record"
try 'killed at each system call' at_each_call "$work/empty" 60
try 'a strip that the record does not tell' \
    [ "$("$programs/show_book" "$work/half/book" | wc -l)" -eq 1 ]
try 'killed at each system call of a restart' at_each_call "$work/half" 50
try 'killed at each system call, record spoiled' \
    at_each_call "$work/spoiled_start" 60

# A pipe: what comes after the restart begins with the first byte not fed.
at_each_call_of_a_pipe() {
    calls "$work/empty" <"$short" >"$work/list"
    while read -r call number where; do
        cat "$short" 2>/dev/null |
            inject "$work/empty" "$call" "signal=KILL:when=$number"
        begun=0
        [ ! -f "$work/k/record" ] || begun=$(fed "$work/k")
        tail -c +$((begun + 1)) "$short" | run "$work/k" "$programs/capture" &&
            same_items "$work/k" "$short.run" ||
            { echo "$call $number" && return 1; }
    done <"$work/list"
    [ "$(wc -l <"$work/list")" -ge 60 ]
}
try 'killed at each system call, a pipe' at_each_call_of_a_pipe
