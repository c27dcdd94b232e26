# spoiled_record.sh - record files that are refused with 3 and set aside. The
# program is the sanitized one.

# numbers BYTES NUMBER..: writes numbers, each with its low byte first.
numbers() {
    size=$1 text=
    shift
    for number in "$@"; do
        left=$size
        while [ "$left" -gt 0 ]; do
            text=$text$(printf '\\%03o' $((number & 255)))
            number=$((number >> 8)) left=$((left - 1))
        done
    done
    printf "$text"
}

# spoil RECORD OFFSET BYTES NUMBER..: puts numbers into a record.
spoil() {
    spoiled=$1 offset=$2
    shift 2
    numbers "$@" | dd of="$spoiled" bs=1 seek="$offset" conv=notrunc 2>/dev/null
}

# repair RECORD: puts the right CRC at the end, as gzip computes it.
repair() {
    head -c $(($(wc -c <"$1") - 4)) "$1" >"$work/body"
    gzip -c <"$work/body" | tail -c 8 | head -c 4 | cat "$work/body" - >"$1"
}

# byte RECORD OFFSET: one of its bytes.
byte() { od -An -tu1 -j"$2" -N1 "$1" | tr -d ' '; }

# set_aside: the record in $work/s is refused, kept, and a fresh run is made.
set_aside() {
    cp "$work/s/record" "$work/spoiled"
    rm -f "$work/s/record.spoiled" "$work/s/book"
    run "$work/s" "$work/sanitized/capture" "$work/few_bytes"
    found=$?
    cat "$work/s/errors"
    [ $found -eq 0 ] && cmp "$work/spoiled" "$work/s/record.spoiled" &&
        grep -q "record: refused with 3 (.*); it is kept as .*record.spoiled; \
starting with a fresh receiver" "$work/s/errors" && [ "$(fed "$work/s")" = 8 ]
}
# set_aside_as WHY: the same, for this reason.
set_aside_as() { set_aside && grep -qF "with 3 ($1);" "$work/s/errors"; }
# taken_up: the record in $work/s is taken.
taken_up() {
    rm -f "$work/s/book"
    run "$work/s" "$work/sanitized/capture" </dev/null &&
        grep -q 'record: going on at byte' "$work/s/report"
}

head -c 8 "$surge" >"$work/few_bytes"
mkdir "$work/s"

# A record in each mode, with its open strip in it: killed before the strip is
# closed. The book of all is empty.
record_after() {
    rm -rf "$work/s" && mkdir "$work/s" &&
        head -c "$1" "$surge" >"$work/part" &&
        strace -o "$work/strace" -e trace=read \
            -e inject=read:signal=KILL:when="$2" "$work/static/capture" 5 \
            "$work/s/record" "$work/s/book" "$work/part"
    cp "$work/s/record" "$work/record.$1"
    [ "$(fed "$work/s")" = "$1" ] && [ "$(byte "$work/s/record" 12)" = "$3" ]
}
mode=0
for bytes in 3 21 67 81 139; do
    try "a record in mode $mode" record_after $bytes 2 $mode
    mode=$((mode + 1))
done
whole=$work/record.139

# each_byte RECORD LENGTH: with one bit of each of its bytes flipped.
each_byte() {
    for at in $(seq 0 $(($2 - 1))); do
        cp "$1" "$work/s/record"
        spoil "$work/s/record" "$at" 1 $(($(byte "$1" "$at") ^ 1 << at % 8))
        set_aside || { echo "byte $at" && return 1; }
    done
    [ "$(wc -c <"$1")" -eq "$2" ]
}
# each_length RECORD LENGTH: cut to each length below this one, its own.
each_length() {
    for length in $(seq 0 $(($2 - 1))); do
        head -c "$length" "$1" >"$work/s/record"
        set_aside || { echo "length $length" && return 1; }
    done
}
# longer_by RECORD BYTES repaired|as_it_is: with zeros behind it.
longer_by() {
    { cat "$1" && head -c "$2" /dev/zero; } >"$work/s/record"
    [ "$3" = repaired ] && repair "$work/s/record"
    set_aside
}
# damaged NAME RECORD LENGTH: all of these.
damaged() {
    try "$1one bit of each byte flipped" each_byte "$2" "$3"
    try "$1each shorter length" each_length "$2" "$3"
    try "$1longer by a byte" longer_by "$2" 1 as_it_is
    try "$1longer by a byte, CRC right" longer_by "$2" 1 repaired
    try "$1longer by an item, CRC right" longer_by "$2" 2 repaired
    try "$1longer than any record" longer_by "$2" 100000 as_it_is
}
damaged '' "$whole" 126

# field RECORD OFFSET BYTES NUMBER..: a copy with these numbers, the CRC right.
field() {
    cp "$work/record.$1" "$work/s/record"
    shift
    spoil "$work/s/record" "$@"
    repair "$work/s/record"
}
field_refused() { field "$@" && set_aside; }
field_taken() { field "$@" && taken_up; }

# The offsets: mode 12, bits 16, count 20, frame 24, word 28, read 32,
# results 36, state 40, clock 44, sums 72 to 80, items' count 108, items 112. Of
# each record: OFFSET:NUMBER..
each_field() {
    record=$1
    what=$2
    shift 2
    for pair in "$@"; do
        "$what" "$record" "${pair%:*}" 4 "${pair#*:}" ||
            { echo "record $record $pair" && return 1; }
    done
}
try 'Hunt: fields out of range' each_field 3 field_refused \
    12:5 12:4294967295 12:1 12:2 12:3 12:4 16:4278190080 20:33 24:65280 28:1 \
    32:2 36:1 40:1 44:1
try 'Flash: fields out of range' each_field 21 field_refused \
    12:0 12:2 12:3 12:4 16:65535 20:16 24:0 24:254 24:65281 24:65535 28:1 \
    32:2 36:1 40:1 44:1
try 'First: fields out of range' each_field 67 field_refused \
    12:1 12:3 12:4 16:65535 20:16 24:255 28:16384 32:2 36:1 40:1 44:2
try 'Prove: fields out of range' each_field 81 field_refused \
    12:1 12:2 12:4 16:65535 20:16 24:255 28:1 32:0 32:1 32:32 36:1 40:0 \
    40:131072 44:2
try 'Locked: fields out of range' each_field 139 field_refused \
    12:1 12:2 12:3 12:5 16:65535 20:16 24:255 28:1 32:2 36:15 36:255 36:256 \
    36:4294967295 40:0 40:131072 44:2 8:256 108:0 108:4 108:6 108:1025 \
    108:4294967295
try 'Flash: largest fields taken' each_field 21 field_taken 24:255 24:65280
try 'First: largest fields taken' each_field 67 field_taken 28:16383 44:0
try 'Prove: largest fields taken' each_field 81 field_taken \
    32:2 32:31 40:1 40:131071 44:1
try 'Locked: largest fields taken' each_field 139 field_taken \
    36:0 36:7 36:131 36:146 36:224 40:1 40:131071 44:0 44:1
try 'an item above a gap' field_refused 139 112 2 16385
try 'an item that is a gap' field_taken 139 112 2 16384

# sums_taken SUM LOWEST HIGHEST: any three are taken, told and kept.
sums_taken() {
    field_taken 139 72 4 "$@" && totals "$work/s" |
        grep -q ", sum $1, lowest $2, highest $3\$" &&
        [ "$(od -An -td4 -j72 -N12 "$work/s/record" | xargs)" = "$*" ]
}
least=-2147483648 largest=2147483647
for sums in '-1 -2 1' '0 -256 65535' "$least $least $largest" \
    "$largest $largest $least" "$((least + 1)) -65536 $((largest - 1))"; do
    try "sums $sums taken" sums_taken $sums
done

kept_apart() {
    rm -rf "$work/s" && mkdir "$work/s"
    for text in one two three; do
        echo $text >"$work/s/record" &&
            run "$work/s" "$work/sanitized/capture" </dev/null || return 1
    done
    cat "$work/s/record.spoiled" "$work/s/record.spoiled.2" \
        "$work/s/record.spoiled.3" | xargs | grep -qx 'one two three'
}
try 'spoiled records do not replace one another' kept_apart

behind_book() {
    rm -rf "$work/s" && cp -r "$surge.run" "$work/s" &&
        echo spoiled >"$work/s/record" &&
        run "$work/s" "$work/sanitized/capture" "$surge" &&
        cat "$surge.run/book" "$surge.run/book" | cmp - "$work/s/book"
}
try 'a spoiled record: the strips in the book stay' behind_book
