#!/usr/bin/env bash
# Times the program on sets of clauses, as `timing.py` says.
#
# usage: time_clauses.sh [PROGRAM] [SECONDS] [SEEDS]
#
# PROGRAM is run with the word `run` and the script on standard input (default ./tacsmt), for at most SECONDS (default 60)
# on each set. There are SEEDS random sets (default 3) of each size.
set -u
export PYTHONDONTWRITEBYTECODE=1
program=${1:-./tacsmt}
here=$(cd "$(dirname "$0")" && pwd) || exit 2

[ -x "$program" ] || { echo "time_clauses.sh: no program $program" >&2; exit 2; }
exec python3 "$here/timing.py" script "${2:-60}" "${3:-3}" "$program run"
