#!/usr/bin/env bash
# Times the clause solver alone, as the program `clause_bench` runs it, beside minisat and cadical where they are installed:
# all on the same sets in one run, as `timing.py` says.
#
# usage: time_solver.sh [SECONDS] [SEEDS]
#
# A run has at most SECONDS (default 60). There are SEEDS random sets (default 10) of each size. The program is built first
# where it is missing or older than its sources.
set -u
export PYTHONDONTWRITEBYTECODE=1
here=$(cd "$(dirname "$0")" && pwd) || exit 2
crates=$here/../crates
program=$crates/clause_bench/out/clause_bench

command -v python3 >/dev/null 2>&1 || { echo "time_solver.sh: skipped, since there is no python3"; exit 0; }

is_current() {
    [ -x "$program" ] || return 1
    [ -z "$(find "$crates"/{rup,sat_core,clause_bench} "$crates/../crates.txt" -path '*/out' -prune -o -type f \
        \( -name '*.rt' -o -name '*.antt' -o -name crates.txt \) -newer "$program" -print -quit)" ]
}

# build: proves and builds the program by a run on its own small set.
build() {
    command -v rt >/dev/null 2>&1 || { echo "time_solver.sh: the command rt is not on the PATH" >&2; exit 2; }
    local log
    log=$(cd "$crates/clause_bench" && rt run <stdin 2>&1)
    [ -x "$program" ] || { echo "$log" >&2; exit 2; }
    touch "$program"
}

is_current || build
commands=("$program")
for other in "minisat -verb=0" "cadical -q"; do
    if command -v "${other%% *}" >/dev/null 2>&1; then
        commands+=("$other")
    else
        echo "time_solver.sh: without ${other%% *}, which is not installed" >&2
    fi
done
exec python3 "$here/timing.py" dimacs "${1:-60}" "${2:-10}" "${commands[@]}"
