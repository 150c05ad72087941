# shellcheck shell=sh disable=SC2034,SC2154
# What ./pebble and the tools know of the two programs of this repository: those that were built here, and the released ones. It is read with
# `.` while $here names the top of the repository, and it changes nothing.

# The programs, in the order in which they are made and told.
programs='pebble improve'

# The program that has a command: program_of COMMAND.
program_of() { case $1 in improve | confirm) echo improve ;; *) echo pebble ;; esac }

# The command that names the sources, as release/MANIFEST has it to be typed by hand at the top of the repository.
# shellcheck disable=SC2016
source_command='(export LC_ALL=C; find -L crates.txt $(sed -n "s,^\([a-z][a-z0-9_]*\).*:.*,crates/\1/src crates/\1/specs crates/\1/proofs,p" crates.txt) -type f -print0 2>/dev/null | sort -z | xargs -0 sha256sum | sha256sum)'

built_mark=$here/out/built
manifest=$here/release/MANIFEST

# Processor minutes that proving every crate takes from nothing, and those of the longest chain of crates.
proof_minutes=60
chain_minutes=25

# The SHA-256 of the sources, or nothing if it cannot be had.
source_sum() {
    command -v sha256sum >/dev/null 2>&1 || return 1
    found=$(cd "$here" && eval "$source_command") && printf '%s\n' "${found%% *}"
}

# The SHA-256 of a file, or nothing.
sum_of() { found=$(sha256sum <"$1" 2>/dev/null) && printf '%s\n' "${found%% *}"; }

# The value of a line `KEY VALUE` in a program's block of lines, which begins with `program PROGRAM`: value_in FILE KEY PROGRAM.
value_in() {
    [ -r "$1" ] || return 1
    block=
    while read -r key value; do
        [ "$key" != program ] || block=$value
        if [ "$key" = "$2" ] && [ "$block" = "$3" ]; then
            printf '%s\n' "$value"
            return 0
        fi
    done <"$1"
    return 1
}

# The name of a program of this machine in release/.
released_name() { printf '%s-x86_64-linux\n' "$1"; }

# The place of a program that is built here.
built_place() { printf '%s/crates/%s/out/%s\n' "$here" "$1" "$1"; }

is_our_machine() { [ "$(uname -s -m 2>/dev/null)" = "Linux x86_64" ]; }

# Whether the program that was built here is of these sources: is_built PROGRAM SOURCES.
is_built() {
    place=$(built_place "$1")
    [ -x "$place" ] && [ "$(value_in "$built_mark" sources "$1")" = "$2" ] && [ "$(value_in "$built_mark" sha256 "$1")" = "$(sum_of "$place")" ]
}

# Whether the released program is of these sources: is_released PROGRAM SOURCES.
is_released() {
    file_name=$(released_name "$1")
    [ -r "$manifest" ] && [ "$(value_in "$manifest" sources "$file_name")" = "$2" ] && is_our_machine &&
        [ -x "$here/release/$file_name" ] && [ "$(value_in "$manifest" sha256 "$file_name")" = "$(sum_of "$here/release/$file_name")" ]
}

# Sets program and origin: the one that was built here and is current, or else the released one of the same sources. Fails if there is neither.
# The sum of the sources is kept in sources: find_program PROGRAM.
sources=
find_program() {
    program='' origin=''
    [ -n "$sources" ] || sources=$(source_sum) || return 1
    if is_built "$1" "$sources"; then
        program=$(built_place "$1") origin=built
    elif is_released "$1" "$sources"; then
        program=$here/release/$(released_name "$1") origin=released
    else
        return 1
    fi
}

# The same, but for a program that the environment names, or sources that are to run before any proof: choose_program PROGRAM.
choose_program() {
    named=${PEBBLE_PROGRAM:-}
    [ "$1" = pebble ] || named=${PEBBLE_IMPROVE:-}
    if [ -n "${PEBBLE_UNPROVED:-}" ]; then
        program='' origin=unproved
    elif [ -n "$named" ]; then
        program=$named origin=named
    else
        find_program "$1"
    fi
}

# Notes that the programs here are of these sources: mark_built SOURCES BY PROGRAM..
mark_built() {
    lines=$(printf 'sources %s\nkit %s\nby %s\n' "$1" "$(rt version)" "$2")
    shift 2
    mkdir -p "$here/out" && for marked in "$@"; do
        printf 'program %s\nsha256 %s\n%s\n\n' "$marked" "$(sum_of "$(built_place "$marked")")" "$lines"
    done >"$built_mark.$$" && mv "$built_mark.$$" "$built_mark"
}

# One crate for each processor, and for each 3 GB of memory.
jobs_here() {
    jobs=$(getconf _NPROCESSORS_ONLN 2>/dev/null) || jobs=2
    memory=$(awk '/^MemAvailable/ { print int($2 / 3000000) }' /proc/meminfo 2>/dev/null)
    [ "${memory:-$jobs}" -ge "$jobs" ] || jobs=$memory
    [ "$jobs" -ge 1 ] || jobs=1
    echo "$jobs"
}

# How long a build takes here from nothing: minutes_here JOBS.
minutes_here() {
    minutes=$((proof_minutes / $1))
    [ "$minutes" -ge "$chain_minutes" ] || minutes=$chain_minutes
    echo "$minutes"
}
