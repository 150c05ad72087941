#!/bin/sh
# Plans each kernel of kernels/ with three numbers of slots, has the program check the tables that it wrote, prints its graph, and runs it
# and its code on ten lists of values. Checks the report, the code, the table, the outputs, the graph and the exit statuses against
# tools/run_code.py, the outputs of `run` against those of `exec` and, if there is a gcc, of the code as a C function
# (tools/code_to_c.py), the costs of a cache against tools/compare_cache.py, and docs/KERNELS.md and the tests of crates/worked_kernels
# against the kernels. The exit status is 0 if all agrees, or if there is no python3 to check with. PEBBLE names another program than
# the one at the top of the repository.
here=$(CDPATH='' cd -- "$(dirname -- "$0")/.." && pwd) || exit 1
pebble=${PEBBLE:-$("$here/tools/current_program")}
[ -n "$pebble" ] || exit 70
run_code=$here/tools/run_code.py
export PEBBLE_QUIET=1

if ! command -v python3 >/dev/null 2>&1; then
    echo "check_kernels: skipped, since there is no python3"
    exit 0
fi
folder=$(mktemp -d) || exit 1
trap 'rm -rf "$folder"' EXIT
mkdir "$folder/lists" || exit 1

# Says that something of a kernel differs.
differs() {
    echo "$1"
    result=1
}

# Compiles the code in the file `code` to the program `compiled`, or leaves none if there is no gcc.
compile() {
    command -v gcc >/dev/null 2>&1 || return 0
    python3 "$here/tools/code_to_c.py" kernel main <"$folder/code" >"$folder/kernel.c" &&
        gcc -std=c11 -O1 -o "$folder/compiled" "$folder/kernel.c"
}

# Runs a kernel, its code, and its code in C on a list of values, and compares what they print; some lists are for the evaluator, too.
run_on() {
    values=$folder/lists/$2
    "$pebble" run "$values" <"$1" >"$folder/output"
    status=$?
    case $2 in
    3 | 4 | 7) python3 "$run_code" outputs "$1" "$values" "$folder/output" "$status" || result=1 ;;
    *) [ "$status" -eq 0 ] || differs "$1: run ends with another status than 0 on list $2" ;;
    esac
    "$pebble" exec "$values" <"$folder/code" >"$folder/executed" || differs "$1: exec ends with another status than 0 on list $2"
    { cat "$folder/output" && sed -n 's/^; cost /; transfers /p' "$folder/code"; } >"$folder/wanted"
    cmp -s "$folder/executed" "$folder/wanted" || differs "$1: exec and run differ on list $2"
    [ ! -x "$folder/compiled" ] || "$folder/compiled" <"$values" | cmp -s - "$folder/output" ||
        differs "$1: the code in C and run differ on list $2"
}

python3 "$run_code" document "$here/docs/KERNELS.md" "$here"/kernels/*.kernel || result=1
python3 "$run_code" gallery "$here/crates/worked_kernels/src/gallery" "$here"/kernels/*.kernel || result=1
python3 "$here/tools/compare_kernels.py" || result=1
python3 "$here/tools/compare_cache.py" check || result=1
for kernel in "$here"/kernels/*.kernel; do
    sizes=$(python3 "$run_code" slots "$kernel") || { echo "$kernel: $sizes"; result=1; continue; }
    for slots in $sizes; do
        "$pebble" plan "$slots" "$folder/table" 0 <"$kernel" >"$folder/output"
        status=$?
        python3 "$run_code" check "$kernel" "$folder/output" "$folder/table" "$slots" "$status" || result=1
        bound=$(sed -n 's/^; bound //p' "$folder/output")
        if [ -n "$bound" ] && [ "$("$pebble" check "$slots" "$folder/table" <"$kernel")" != "accepted bound $bound" ]; then
            echo "$kernel: with $slots slots the table of bound $bound is not accepted"
            result=1
        fi
        rm -f "$folder/table"
        [ "$slots" != "${sizes%% *}" ] || mv "$folder/output" "$folder/code"
    done
    "$pebble" graph <"$kernel" >"$folder/output"
    python3 "$run_code" graph "$kernel" "$folder/output" "$?" || result=1
    rm -f "$folder/compiled"
    compile || differs "$kernel: its code gives no C program"
    python3 "$run_code" values "$kernel" "$folder/lists" || result=1
    for vector in 0 1 2 3 4 5 6 7 8 9; do
        run_on "$kernel" "$vector"
    done
done
[ "${result:-0}" -ne 0 ] || echo "check_kernels: plans, codes, tables, graphs and runs of all kernels agree"
exit "${result:-0}"
