# versions.sh - the record file byte for byte, and those of earlier versions.

# ---- Version 3 ----

# laid_out RECORD MODE TOTALS SUMS PLACES ITEMS: the record is of lane 5 and has
# these numbers. MODE is those from the mode on; results, state and clock are
# the record's own.
laid_out() {
    {
        printf 'OWSREC3\n' && numbers 4 5 $2 && tail -c +37 "$1" | head -c 12 &&
            numbers 8 $3 && numbers 4 $4 && numbers 8 $5 &&
            numbers 4 "$(echo "$6" | wc -w)" && numbers 2 $6 && printf 'CRC.'
    } >"$work/laid_out"
    repair "$work/laid_out"
    cmp "$1" "$work/laid_out"
}
try 'the layout, with items' laid_out "$whole" \
    "4 $(byte "$surge" 138) 8 0 0 0" '5 0 0' \
    "$(sums_of "$surge" 128 138 | tr -dc '0-9 -')" '139 0 0' \
    "$(sed -n '2,6s/^sample //p' "$surge.sent" | xargs)"

# The report of the site drift tells negative sums.
as_reported() {
    set -- $(totals "$drift.run" | tr -d ,)
    [ "${14}" -lt 0 ] && [ "${16}" -lt 0 ] &&
        laid_out "$drift.run/record" '4 0 0 0 0 0' "$4 $6 $8" \
            "${14} ${16} ${18}" "$2 $(wc -c <"$drift.run/book") ${10}" ''
}
try 'the layout, with negative sums' as_reported

# ---- Version 2: no sums ----

# as_version NUMBER RECORD COPY: the record without its sums and with the mark
# of version 1 or 2, the CRC right. RECORD and COPY may be the same.
as_version() {
    {
        printf "OWSREC$1\n" && tail -c +9 "$2" | head -c 64 &&
            tail -c +85 "$2"
    } >"$work/version"
    repair "$work/version"
    mv "$work/version" "$3"
}

# goes_on_from_2 BYTES MODE: a record of version 2 after so many bytes is taken
# up there, with its open strip; the end is that of the undisturbed run, whose
# last lock is found later, with a record of version 3.
goes_on_from_2() {
    rm -rf "$work/s" && mkdir "$work/s" &&
        as_version 2 "$work/record.$1" "$work/s/record" &&
        run "$work/s" "$work/sanitized/capture" "$surge" &&
        grep -q "record: going on at byte $1 in mode $2\$" "$work/s/report" &&
        [ ! -s "$work/s/errors" ] && same_end "$work/s" "$surge.run" &&
        cmp "$work/s/record" "$surge.run/record" &&
        [ ! -e "$work/s/record.spoiled" ]
}
for place in '3 Hunt' '21 Flash' '67 First' '81 Prove' '139 Locked'; do
    try "version 2 goes on: $place" goes_on_from_2 $place
done

# sums_from VERSION BYTE: a record of this version is taken up in Locked after
# 500 frames of the site drift; the sums at the end are those of the frames from
# this byte on.
sums_from() {
    rm -rf "$work/s" && mkdir "$work/s" &&
        head -c 1128 "$drift" >"$work/part" &&
        run "$work/s" "$programs/capture" "$work/part" || return 1
    [ "$1" = 3 ] || as_version "$1" "$work/s/record" "$work/s/record"
    run "$work/s" "$programs/capture" "$drift" &&
        same_items "$work/s" "$drift.run" totals_but_sums &&
        [ "$(reported "$work/s")" = \
            "$(sums_of "$drift" "$2" "$(wc -c <"$drift")")" ]
}
try 'version 3 keeps its sums' sums_from 3 128
try 'version 2 has sums 0' sums_from 2 1128

# A full strip, which is in the book too; and killed on the way.
cp -r "$work/half" "$work/half_2"
as_version 2 "$work/half/record" "$work/half_2/record"
try 'version 2 with a full strip: killed at each system call' \
    at_each_call "$work/half_2" 50

as_version 2 "$whole" "$work/record.version_2"
damaged 'version 2: ' "$work/record.version_2" 114
try 'version 2: fields out of range' each_field version_2 field_refused \
    12:1 12:2 12:3 12:5 16:65535 20:16 24:255 28:1 32:2 36:15 36:255 36:256 \
    36:4294967295 40:0 40:131072 44:2 8:256 96:0 96:4 96:6 96:1025 96:4294967295
try 'version 2: largest fields taken' each_field version_2 field_taken \
    36:0 36:7 36:131 36:146 36:224 40:1 40:131071 44:0 44:1
try 'version 2: an item above a gap' field_refused version_2 100 2 16385
try 'version 2: an item that is a gap' field_taken version_2 100 2 16384

# ---- Marks ----

# marked RECORD MARK WHY: a copy with this mark, the CRC right, is set aside.
marked() {
    { printf "$2" && tail -c +9 "$1"; } >"$work/s/record"
    repair "$work/s/record"
    set_aside_as "$3"
}
# begun MARK WHY [BYTES]: the mark, with so many zeros behind it, is set aside.
begun() {
    { printf "$1" && head -c "${3-0}" /dev/zero; } >"$work/s/record"
    set_aside_as "$2"
}
length='its length is wrong'
first_bytes='its first bytes are wrong'
try 'version 3 with the mark of version 2' marked "$whole" 'OWSREC2\n' \
    'its count of items is wrong'
try 'version 2 with the mark of version 3' marked "$work/record.version_2" \
    'OWSREC3\n' "$length"
for mark in OWSREC0 OWSREC4 owsrec3 'OWSREC3 '; do
    try "the mark $mark" marked "$whole" "$mark\n" "$first_bytes"
done
for least in '2 96' '3 108'; do
    mark=OWSREC${least% *}
    bytes=${least#* }
    try "the mark $mark alone" begun "$mark\n" "$length"
    try "the mark $mark without its line feed" begun "$mark" "$length"
    try "the mark $mark and $((bytes - 1)) zeros" \
        begun "$mark\n" "$length" $((bytes - 1))
    try "the mark $mark and $bytes zeros" \
        begun "$mark\n" 'its CRC is wrong' "$bytes"
done

# ---- Version 1: numbers of another meaning ----

earlier='it is of an earlier version'
from_version_1() {
    as_version 1 "$work/record.$1" "$work/version_1" &&
        marked "$work/version_1" 'OWSREC1\n' "$earlier"
}
mode=0
for bytes in 3 21 67 81 139; do
    try "the mark of version 1 in mode $mode" from_version_1 $bytes
    mode=$((mode + 1))
done
for bytes in 0 1 95 96 97 100000; do
    try "the mark of version 1 and $bytes zeros" \
        begun 'OWSREC1\n' "$earlier" $bytes
done
try 'the mark of version 1 without its line feed' begun OWSREC1 "$length"
try 'the mark of version 1 with a space for its line feed' \
    marked "$whole" 'OWSREC1 ' "$first_bytes"
