#!/bin/sh
# Counts the instructions of a call of K24 and of Z24 on two fixed values, with valgrind.
# Run it in the top folder, after `rt run` in crates/field_cost: it measures the program that this left.
set -eu
binary=crates/field_cost/out/field_cost

# the instructions of a thousand calls, and of the loop around them
thousand() {
    for count in 1100 100; do
        valgrind --tool=callgrind --callgrind-out-file=/dev/null "$binary" "$1" "$2" "$3" "$count" 2>&1
    done | awk '/Collected/ { counts[++n] = $4 } END { print counts[1] - counts[2] }'
}

for field in K24 Z24; do
    for kind in rational halves roots whole fractions large; do
        case "$field $kind" in "K24 roots" | "Z24 large") continue ;; esac
        loop=$(thousand $field $kind nothing)
        for call in sum difference product inverse; do
            printf '%s %s %s: %d\n' $field $kind $call $((($(thousand $field $kind $call) - loop) / 1000))
        done
    done
done
