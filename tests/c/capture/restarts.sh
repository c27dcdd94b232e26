# restarts.sh - runs that are taken up again, and files that do not fit.

# copy_of FOLDER COPY: a fresh copy of a folder.
copy_of() { rm -rf "$2" && cp -r "$1" "$2"; }

finished() {
    copy_of "$surge.run" "$work/r" && run "$work/r" "$programs/capture" \
        "$surge" && same_end "$work/r" "$surge.run" &&
        cmp "$work/r/record" "$surge.run/record"
}
try 'a finished line once more: nothing changes' finished

# grown LINE: the run is taken up wherever the line ended so far.
grown() {
    rm -rf "$work/r"
    for bytes in 1 2 100 127 128 129 3000 5001 9000 9001; do
        head -c $bytes "$1" >"$work/grown" &&
            run "$work/r" "$programs/capture" "$work/grown" || return 1
    done
    run "$work/r" "$programs/capture" "$1" && same_items "$work/r" "$1.run"
}
for line in "$surge" "$connector" "$drift" "$crossed"; do
    try "a line that grows between runs, $(basename "$line")" grown "$line"
done

# The places of lock are counted over restarts.
parted() {
    rm -rf "$work/r"
    head -c 5001 "$surge" | run "$work/r" "$programs/capture" &&
        grep '^lock' "$work/r/report" >"$work/events" &&
        tail -c +5002 "$surge" | run "$work/r" "$programs/capture" &&
        grep '^lock' "$work/r/report" >>"$work/events" &&
        grep '^lock' "$surge.run/report" | cmp - "$work/events" &&
        same_items "$work/r" "$surge.run"
}
try 'a pipe that goes on after a restart' parted

# left_alone TEXT LANE LINE: a run in $work/r ends with 1 and the text, and
# leaves every file as it is.
left_alone() {
    copy_of "$work/r" "$work/before" || return 1
    "$programs/capture" "$2" "$work/r/record" "$work/r/book" "$3" \
        >"$work/out" 2>&1
    found=$?
    cat "$work/out"
    [ $found -eq 1 ] && grep -qF "$1" "$work/out" &&
        diff -r "$work/r" "$work/before"
}
copy_of "$surge.run" "$work/r"
try 'another lane' left_alone 'is of lane 5' 6 "$surge"
try 'a shorter line' left_alone 'record tells 16' 5 "$short"
head -c $(($(wc -c <"$surge.run/book") - 1)) "$surge.run/book" >"$work/r/book"
try 'a book shorter by a byte' left_alone 'record tells 1' 5 "$surge"
: >"$work/r/book"
try 'an empty book' left_alone 'has 0 bytes' 5 "$surge"
rm "$work/r/book"
try 'no book' left_alone 'has 0 bytes' 5 "$surge"

longer() {
    copy_of "$surge.run" "$work/r" && cat "$surge" >>"$work/r/book" &&
        run "$work/r" "$programs/capture" "$surge" &&
        same_end "$work/r" "$surge.run"
}
try 'a book longer than the record tells is cut' longer

no_record() {
    copy_of "$surge.run" "$work/r" && rm "$work/r/record" &&
        run "$work/r" "$programs/capture" "$surge" &&
        grep -q 'record: not there; starting with a fresh' "$work/r/report" &&
        cat "$surge.run/book" "$surge.run/book" | cmp - "$work/r/book" &&
        totals "$work/r" | grep -q 'strips 16, '
}
try 'no record: a fresh start behind the book' no_record
