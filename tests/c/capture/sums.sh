# sums.sh - the sums that capture reports, against the frames of the line.

# sums_of LINE FROM END: the sums of the frames from byte FROM up to, but
# without, byte END, as a report tells them.
sums_of() {
    tail -c +$(($2 + 1)) "$1" | head -c $(($3 - $2)) | od -An -v -tu1 -w2 |
        awk '
        function ones(byte) { return byte ? byte % 2 + ones(int(byte / 2)) : 0 }
        {
            sum += 2 * (ones($1) + ones($2)) - 16
            if (sum < lowest)
                lowest = sum
            if (sum > highest)
                highest = sum
        }
        END { printf "sum %d, lowest %d, highest %d\n", sum, lowest, highest }'
}

# reported FOLDER: the sums of the report.
reported() { totals "$1" | sed 's/.*, sum/sum/'; }

# range FOLDER: highest minus lowest.
range() { reported "$1" | awk '{ print $6 - $4 }'; }

# locked_from LINE: the byte after the first sequence, where a frame begins.
locked_from() { echo $(($(sed -n '1s/^sequence //p' "$1.sent") + 1)); }

# lost LINE: the byte in which lock was first lost.
lost() { sed -n 's/^lock lost at byte //p' "$1.run/report" | sed 1q; }

# sums_after LINE BYTES MODE END: a capture of so many bytes of the line is in
# this mode, and its sums are those of the frames from the first lock up to END.
sums_after() {
    rm -rf "$work/p" && head -c "$2" "$1" >"$work/part" &&
        run "$work/p" "$programs/capture" "$work/part" &&
        totals "$work/p" | grep -q ", mode $3, sum " &&
        [ "$(reported "$work/p")" = \
            "$(sums_of "$1" "$(locked_from "$1")" "$4")" ]
}
from=$(locked_from "$surge")
try 'sums before the lock' sums_after "$surge" $((from - 1)) Prove $from
try 'sums at the lock' sums_after "$surge" $from Locked $from
for frames in 1 2 3 40 1000; do
    end=$((from + 2 * frames))
    try "sums after $frames frames" sums_after "$surge" $end Locked $end
    try "sums after $frames frames and a half" \
        sums_after "$surge" $((end + 1)) Locked $end
done
for frames in 4000 1300; do
    line=$work/drift.$frames
    end=$(wc -c <"$line")
    try "sums of drift, $frames frames" sums_after "$line" $end Locked $end
done

# The frame that loses lock counts, and none after it.
for line in "$surge" "$connector" "$crossed"; do
    end=$(($(lost "$line") + 1))
    name="$(basename "$line"): sums"
    try "$name before lock is lost" \
        sums_after "$line" $((end - 1)) Locked $((end - 2))
    try "$name where lock is lost" sums_after "$line" $end Hunt $end
    try "$name rest after that" sums_after "$line" $((end + 100)) Hunt $end
done

# The next lock, in whose byte no frame can end, begins with sums 0.
next_lock() {
    end=$(($(sed -n 's/^sequence //p' "$1.sent" | tail -n 1) + 1))
    rm -rf "$work/p" && head -c $end "$1" >"$work/part" &&
        run "$work/p" "$programs/capture" "$work/part" &&
        totals "$work/p" |
        grep -q ', mode Locked, sum 0, lowest 0, highest 0$'
}
try 'surge: sums 0 at the next lock' next_lock "$surge"
try 'connector: sums 0 at the next lock' next_lock "$connector"
try 'crossed: sums 0 at the next lock' next_lock "$crossed"

# Frames sent balance within 16, and so the sums without damage within 32. A
# touched frame of the site drift arrives with one one less.
within() { [ "$(range "$1.run")" -gt 0 ] && [ "$(range "$1.run")" -le 32 ]; }
drifted() {
    touched=$(grep -c '^touched' "$1.sent")
    undamaged=$(reported "$1.run" | awk '{ print $2 + 0 }')
    undamaged=$((undamaged + 2 * touched))
    [ "$(range "$1.run")" -gt $((2 * touched - 32)) ] &&
        [ $undamaged -ge -32 ] && [ $undamaged -le 32 ]
}
for frames in 4000 1300; do
    try "surge, $frames frames: sums at most 32 apart" \
        within "$work/surge.$frames"
    try "drift, $frames frames: a one less for each touched frame" \
        drifted "$work/drift.$frames"
done
