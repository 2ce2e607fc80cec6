#!/bin/sh
# Counts the instructions of `isodist list` over files, with valgrind: of the whole run, and how often
# rows are inserted into forms, and where. Run it in the top folder, after `rt run` in crates/isodist, as
# sh bench/list.sh FILE ..
set -eu
binary=crates/isodist/out/isodist
for file in "$@"; do
    profile=$(mktemp)
    valgrind --tool=callgrind --callgrind-out-file="$profile" "$binary" list < "$file" > /dev/null 2>&1
    callgrind_annotate --tree=caller --inclusive=yes --threshold=100 "$profile" | awk -v file="$file" '
        /PROGRAM TOTALS/ && !total { total = $1 }
        / < / { callers = callers "\n    " $0 }
        / \*  / {
            if (/Echelon::insert/) inserted = inserted callers
            callers = ""
        }
        END { print file ": " total " instructions; insertions by their callers:" inserted }'
    rm -f "$profile"
done
