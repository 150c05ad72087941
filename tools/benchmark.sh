#!/bin/sh
# Measures the program on the largest kernels: of 256 vertices, of 65,536 bytes, and of 65,533 turns; on code of 150,000 operations, which
# is more than any plan has; and the check of a table against the plan that makes it, with 150,000 rows of a kernel of 100 vertices. Prints
# the mean time of a run and, where /usr/bin/time tells it, the most memory of one. It checks nothing and is no part of the gate. PEBBLE
# names another program.
here=$(CDPATH='' cd -- "$(dirname -- "$0")/.." && pwd) || exit 1
pebble=${PEBBLE:-$("$here/tools/current_program")}
[ -n "$pebble" ] || exit 70
runs=${RUNS:-20}
export PEBBLE_QUIET=1
folder=$(mktemp -d) || exit 1
trap 'rm -rf "$folder"' EXIT

# 2 inputs and 254 operations, of which each reads the two vertices before it.
most_vertices() {
    awk 'BEGIN {
        print "kernel most_vertices {"; print "in v0;"; print "in v1;"; print "out y;"
        for (k = 2; k < 256; k++) print "tmp v" k ";"
        for (k = 2; k < 256; k++) print "v" k " = v" k - 1 (k % 2 ? " * " : " + ") "v" k - 2 ";"
        print "y = v255;"; print "}"
    }'
}

# 2,600 names, and a chain of copies through all of them, filled up with line feeds to 65,536 bytes.
most_bytes() {
    awk 'BEGIN {
        print "kernel most_bytes {"; print "in n0;"; print "out y;"
        for (k = 1; k < 2600; k++) print "tmp n" k ";"
        for (k = 1; k < 2600; k++) print "n" k " = n" k - 1 ";"
        print "y = n2599 + 1;"; print "}"
    }' >"$folder/short"
    cat "$folder/short"
    awk -v missing=$((65536 - $(wc -c <"$folder/short"))) 'BEGIN { for (k = 0; k < missing; k++) print "" }'
}

# 256 vertices in 127 turns, and as many turns of a loop over constants as there may be: 65,533 in all.
most_turns() {
    echo 'kernel most_turns { in x; out y; tmp t; tmp c; t = x; for i in 0..127 { t = t * 3 + 1; } y = t + 1;'
    echo 'c = 0; for j in 0..10750 { c = c + 1; } }'
}

# 64 loads, 150,000 operations with three operands, of which one is a constant of 19 digits, and a store: about 5.7 MB.
most_operations() {
    awk 'BEGIN {
        print "slots 64"; print "words 256"; print "in x"; print "out y 255"
        for (k = 0; k < 64; k++) print "load " k " 0"
        for (k = 0; k < 150000; k++) print "mad " k % 64 " s" (k * 7 + 3) % 64 " #-9223372036854775807 s" (k * 5 + 1) % 64
        print "store 0 255"; print "end"
    }'
}

# As many of the shortest operations as a text of 20,000,000 bytes can have.
most_lines() {
    awk 'BEGIN {
        print "slots 1"; print "words 1"; print "in x"; print "out y 0"; print "load 0 0"
        for (k = 0; k < 2222217; k++) print "neg 0 s0"
        print "end"
    }'
}

# 16 inputs and 84 operations, of which each reads the vertex before it and one far back, so that six slots are too few to keep what is read.
hundred_vertices() {
    awk 'function name(j) { return j < 16 ? "x[" j "]" : "t" j - 16 }
    BEGIN {
        print "kernel hundred_vertices {"; print "in x[16];"; print "out y;"
        for (k = 0; k < 84; k++) print "tmp t" k ";"
        for (k = 0; k < 84; k++) print "t" k " = " name((7 * k + 84) % (16 + k)) (k % 2 ? " * " : " + ") name(15 + k) ";"
        print "y = t83;"; print "}"
    }'
}

# Runs the program with these words on the kernel or the code, named first, and prints what it took.
measure() {
    name=$1
    shift
    "$pebble" "$@" <"$folder/kernel" >"$folder/output"
    status=$?
    begin=$(date +%s%N)
    run=0
    while [ "$run" -lt "$runs" ]; do
        "$pebble" "$@" <"$folder/kernel" >/dev/null
        run=$((run + 1))
    done
    end=$(date +%s%N)
    printf '%s, %s: %s bytes, status %s: %s microseconds a run (mean of %s)\n' "$name" "$1" "$(wc -c <"$folder/kernel")" "$status" \
        "$(((end - begin) / runs / 1000))" "$runs"
    if [ -x /usr/bin/time ]; then
        /usr/bin/time -v "$pebble" "$@" <"$folder/kernel" 2>&1 >/dev/null | sed -n 's/^\tMaximum/  maximum/p'
    fi
}

echo 5 >"$folder/values"
most_vertices >"$folder/kernel"
measure most_vertices plan 64 "$folder/table" 0
measure most_vertices plan 3 "$folder/table" 0
most_bytes >"$folder/kernel"
measure most_bytes plan 64 "$folder/table" 0
most_turns >"$folder/kernel"
measure most_turns run "$folder/values"
measure most_turns graph
measure most_turns plan 3 "$folder/table" 0
most_operations >"$folder/kernel"
measure most_operations exec "$folder/values"
most_lines >"$folder/kernel"
measure most_lines exec "$folder/values"
# The check is to take at most the time of the plan whose table it reads.
runs=1
hundred_vertices >"$folder/kernel"
measure hundred_vertices plan 6 "$folder/table" 150000
measure hundred_vertices check 6 "$folder/table"
