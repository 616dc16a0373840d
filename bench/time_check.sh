#!/usr/bin/env bash
# Times the check of certificates, as the program `check_bench` makes and checks them: 200,000 steps `rup` of three hints each, and
# a chain of 100,000 steps `rw`. For each it prints the processor seconds of a run that makes the certificate and of one that also
# checks it.
#
# usage: time_check.sh [TIMES]
#
# Each is also run with half and with twice the steps. A run is done TIMES times (default 3), and the fastest counts. The program is built first
# where it is missing or older than its sources.
set -u
here=$(cd "$(dirname "$0")" && pwd) || exit 2
crates=$here/../crates
program=$crates/check_bench/out/check_bench
times=${1:-3}

is_current() {
    [ -x "$program" ] || return 1
    [ -z "$(find "$crates" "$crates/../crates.txt" -path '*/out' -prune -o -type f \
        \( -name '*.rt' -o -name '*.antt' -o -name crates.txt \) -newer "$program" -print -quit)" ]
}

# build: proves and builds the program by a run on its own small certificate.
build() {
    command -v rt >/dev/null 2>&1 || { echo "time_check.sh: the command rt is not on the PATH" >&2; exit 2; }
    local log
    log=$(cd "$crates/check_bench" && rt run <stdin 2>&1)
    [ -x "$program" ] || { echo "$log" >&2; exit 2; }
    touch "$program"
}

# seconds WORDS..: the processor seconds of the fastest run at these words.
seconds() {
    local fastest="" spent
    local TIMEFORMAT=%U
    for _ in $(seq "$times"); do
        spent=$( { time "$program" <<<"$*" >/dev/null; } 2>&1 ) || { echo "time_check.sh: $* failed" >&2; exit 2; }
        if [ -z "$fastest" ] || [ "${spent/./}" -lt "${fastest/./}" ]; then
            fastest=$spent
        fi
    done
    echo "$fastest"
}

is_current || build
printf '%-6s %8s %8s %8s\n' step steps made checked
for size in "rup 100000" "rup 200000" "rup 400000" "rw 50000" "rw 100000" "rw 200000"; do
    # shellcheck disable=SC2086
    printf '%-6s %8s %8s %8s\n' $size "$(seconds make $size)" "$(seconds $size)"
done
