#!/bin/sh
# Measures the search: plans each kernel of kernels/ with as few slots as it can do with and with six, and a budget (default 20000). Prints
# for each the rows that were made, the time of the whole run, and where /usr/bin/time tells it, the most memory. Runs of less than 0.02 s
# say more of the start of a program than of the search. It checks nothing and is no part of the gate. PEBBLE names another program.
here=$(CDPATH='' cd -- "$(dirname -- "$0")/.." && pwd) || exit 1
pebble=${PEBBLE:-$("$here/tools/current_program")}
[ -n "$pebble" ] || exit 70
budget=${1:-20000}
folder=$(mktemp -d) || exit 1
trap 'rm -rf "$folder"' EXIT

# Plans a kernel with so many slots, and prints what it took.
measure() {
    kernel=$1
    slots=$2
    begin=$(date +%s%N)
    "$pebble" plan "$slots" "$folder/table" "$budget" <"$kernel" >"$folder/output"
    end=$(date +%s%N)
    rows=$(sed -n 's/^; expanded //p' "$folder/output")
    memory=
    if [ -x /usr/bin/time ]; then
        memory=$(/usr/bin/time -f ', %M KB' "$pebble" plan "$slots" "$folder/table" "$budget" <"$kernel" 2>&1 >/dev/null | tail -n 1)
    fi
    printf '%s, %s slots: %s rows, %s milliseconds%s\n' "$(basename "$kernel" .kernel)" "$slots" "$rows" "$(((end - begin) / 1000000))" "$memory"
}

for kernel in "$here"/kernels/*.kernel; do
    degree=$("$pebble" graph <"$kernel" | sed -n 's/^degree //p')
    measure "$kernel" "$((degree + 1))"
    [ "$degree" -lt 5 ] && measure "$kernel" 6
done
