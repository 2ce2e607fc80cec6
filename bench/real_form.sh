#!/bin/sh
# Counts the instructions of real forms, with valgrind: of `RealForm::new`, and of a row of a matrix on
# the average of a test's rows. Run it in the top folder, after `rt test` in crates/rep_tests: it
# measures the test binary that this left.
set -eu
binary=crates/rep_tests/out/rep_tests_tests
for form in vectors_of_a_cubic_group twelve_arms twenty_four_arms no_candidate_of_twelve; do
    profile=$(mktemp)
    valgrind --tool=callgrind --callgrind-out-file="$profile" "$binary" "measured_forms::$form" > /dev/null 2>&1
    callgrind_annotate --tree=caller --inclusive=yes --threshold=100 "$profile" | awk -v form="$form" '
        function count() { match($0, /\([0-9,]+x\)/); n = substr($0, RSTART + 1, RLENGTH - 3); gsub(",", "", n); return n }
        / < / { calls += count() }
        / \*  / {
            cost = $1
            gsub(",", "", cost)
            if (/RealForm::new/) made = cost
            if (/RealFormActsK24::row/) { rows = calls; spent = cost }
            calls = 0
        }
        END { printf "%s: %.0f instructions of new", form, made; if (rows) printf ", %.0f a row of %d", spent / rows, rows; print "" }'
    rm -f "$profile"
done
