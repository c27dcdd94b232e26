# order.sh - the order in which things reach the disk, for when the power fails.

# written FROM: the writes, fsyncs and renames of a run in $work/k, which begins
# as a copy of the folder FROM, as words on one line.
written() {
    rm -rf "$work/k" && cp -r "$1" "$work/k" &&
        strace -y -o "$work/strace" -e trace=write,fsync,rename,ftruncate \
            "$work/static/capture" 5 "$work/k/record" "$work/k/book" \
            "$short" >"$work/k/report" 2>"$work/k/errors"
    sed -n -e 's/([0-9]*<[^>]*\/record\.new>.*/ record/p' \
        -e 's/([0-9]*<[^>]*\/book>.*/ book/p' \
        -e 's/([0-9]*<[^>]*\/k>.*/ folder/p' \
        -e 's/^rename(.*\/record\.new", .*\/record").*/rename record/p' \
        -e 's/^rename(.*\/record", .*\/record\.spoiled").*/set_aside record/p' \
        "$work/strace" | tr ' \n' '_ '
}

# A new record is on the disk before it gets its name, and the name before
# anything else is written; a strip is on the disk before a record tells it.
save='write_record fsync_record rename_record fsync_folder '
strip='write_book fsync_book '
in_order() {
    written "$1" | tee "$work/written"
    grep -Eqx "$2($save|$strip$save)*" "$work/written" &&
        grep -q "$strip" "$work/written"
}
try 'order of a first run' in_order "$work/empty" 'fsync_folder '
try 'order of a restart' in_order "$work/half" 'ftruncate_book '
try 'order with a spoiled record' in_order "$work/spoiled_start" \
    'set_aside_record fsync_folder fsync_folder '
