#!/bin/sh
# Counts the instructions of insertions into a form over K24, with valgrind, and the operations of
# K24 that they need. Run it in the top folder, after `rt test` in crates/number_tests: it measures the test binary
# that this left. The rest is what isn't spent in the functions of cyclo24. The compiler writes two
# operations into the loops, so that the rest holds them too: a test for zero of an entry (14
# instructions and its jump, with one `ptest`, by which they are counted), and of a difference what
# lies around its sum and its reduction (33).
set -eu
binary=crates/number_tests/out/number_tests_tests
tests=$(mktemp)
objdump -d --no-show-raw-insn "$binary" | awk '
    />:$/ { inside = /Echelon::insert|lin_alg::elimination::/ }
    inside && /ptest/ { sub(":", "", $1); print "0x" $1 }' > "$tests"
for rows in 24_by_24 27_by_1152; do
    profile=$(mktemp)
    valgrind --tool=callgrind --dump-instr=yes --dump-line=no --compress-pos=no --compress-strings=no \
        --callgrind-out-file="$profile" "$binary" "measured_forms::of_$rows" > /dev/null 2>&1
    zeros=$(awk '
        NR == FNR { tests[$1]; next }
        /^fn=/ { inside = /Echelon::insert|lin_alg::elimination::/ }
        /^calls=/ { getline; next }
        inside && $1 in tests { n += $2 }
        END { print n }' "$tests" "$profile")
    callgrind_annotate --tree=calling --inclusive=yes --threshold=100 "$profile" | awk -v rows="$rows" -v zeros="$zeros" '
        function calls() { match($0, /\([0-9,]+x\)/); n = substr($0, RSTART + 1, RLENGTH - 3); gsub(",", "", n); return n }
        / \*  / { inside = /Echelon::insert|lin_alg::elimination::/ }
        / \*  .*Echelon::insert/ { gsub(",", "", $1); whole = $1 }
        !inside || !/ >   .*:cyclo24::/ { next }
        { cost = $1; gsub(",", "", cost); spent += cost }
        /K24Field::mul/ { products += calls() }
        /K24Field::inv/ { inverses += calls() }
        /Fraction4::sum/ { differences += calls() }
        END {
            count = products + differences + inverses
            rest = whole - spent
            printf "%s: %d instructions; %d products, %d differences and %d inverses: %.1f for each, and %.1f for the rest; %.1f of it without %d tests for zero and what lies around the sums\n",
                rows, whole, products, differences, inverses, spent / count, rest / count, (rest - 14 * zeros - 33 * differences) / count, zeros }'
    rm -f "$profile"
done
rm -f "$tests"
