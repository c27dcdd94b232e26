# runs.sh - what the other tests use: lines, undisturbed runs, comparisons.
#
# A run lives in a folder with the files record, book, report and errors.

# run FOLDER PROGRAM [LINE]: captures as lane 5 in a folder, which is made if
# it is not there. Standard input is the caller's.
run() {
    mkdir -p "$1"
    "$2" 5 "$1/record" "$1/book" ${3+"$3"} >"$1/report" 2>"$1/errors"
}

# items FOLDER: the book's items.
items() { "$programs/show_book" -i "$1/book"; }

# totals FOLDER: the report's last line. totals_but_strips FOLDER: without the
# number of strips. totals_but_sums FOLDER: without that and the sums.
totals() { tail -n 1 "$1/report"; }
totals_but_strips() { totals "$1" | sed 's/strips [0-9]*, //'; }
totals_but_sums() { totals_but_strips "$1" | sed 's/, sum .*//'; }

# fed FOLDER: the bytes fed, as the record file tells them.
fed() { od -An -tu8 -j84 -N8 "$1/record" | tr -d ' '; }

# same_end FOLDER FOLDER: the same book and the same totals.
same_end() {
    cmp "$1/book" "$2/book" && [ "$(totals "$1")" = "$(totals "$2")" ]
}

# same_items FOLDER FOLDER [TOTALS]: the same, but for where strips begin, or as
# far as TOTALS tells the totals.
same_items() {
    items "$1" >"$1/items" && items "$2" >"$2/items" &&
        cmp "$1/items" "$2/items" && [ "$(${3-totals_but_strips} "$1")" = \
        "$(${3-totals_but_strips} "$2")" ]
}

# wrong FOLDER LINE PART: what wrong_items.awk tells of the run's items.
wrong() {
    items "$1" >"$1/items"
    awk -v part="$3" -f examples/wrong_items.awk "$2.sent" "$1/items"
}

# The lines: of each site a long one of 4000 frames and a short one of 1300
# frames a stretch, each with its undisturbed run.
for site in surge connector drift crossed; do
    for frames in 4000 1300; do
        line=$work/$site.$frames
        "$programs/make_line" $site $frames $frames "$line.sent" >"$line"
        try "undisturbed run, $site, $frames frames" \
            run "$line.run" "$programs/capture" "$line"
    done
done
surge=$work/surge.4000
connector=$work/connector.4000
drift=$work/drift.4000
crossed=$work/crossed.4000
short=$work/surge.1300
