"""Times programs on sets of clauses, all on the same sets in one run; `time_solver.sh` and `time_clauses.sh` use it.

usage: timing.py FORM SECONDS SEEDS PROGRAM..    a PROGRAM is a command in one word; it reads the set on standard input

There are SEEDS random sets of each size. A run has at most SECONDS of a processor. A line a set has, for each program, its
answer, the seconds that a processor was at it, and the peak memory in MB (this script's own at least); a run that is cut off
has `>` and the limit. The sums at the end count such a run as the limit. Last comes, for each program but the first, by which
factor the first one's time is that of the other: over all sets, and at most over a set on which one of the two took more than
0.1 s.
"""
import os
import resource
import shlex
import signal
import subprocess
import sys
import tempfile

import clauses

RANDOM_SIZES = (100, 150, 200, 250)
PIGEONHOLE_SIZES = (7, 8, 9)
WORTH_A_RATIO = 0.1
# the statuses with which SAT solvers end
ANSWERS = {10: "sat", 20: "unsat"}


class Run:
    """What a program did with one set."""

    def __init__(self, answer, seconds, megabytes, is_cut_off):
        self.answer = answer
        self.seconds = seconds
        self.megabytes = megabytes
        self.is_cut_off = is_cut_off

    def text(self):
        mark = ">" if self.is_cut_off else " "
        return f"{self.answer:<7} {mark}{self.seconds:8.2f} s {self.megabytes:7.1f} MB"


def answer_of(output, status):
    if status in ANSWERS:
        return ANSWERS[status]
    words = output.replace(",", " ").split()
    return words[0] if words else f"status {status}"


def run(command, source, limit):
    """Runs a command on a file, for at most `limit` seconds of a processor."""

    def cut_off():
        resource.setrlimit(resource.RLIMIT_CPU, (limit, limit))

    with open(source, "rb") as given, tempfile.TemporaryFile() as output:
        child = subprocess.Popen(command, stdin=given, stdout=output, stderr=subprocess.DEVNULL, preexec_fn=cut_off)
        _, status, used = os.wait4(child.pid, 0)
        child.returncode = os.waitstatus_to_exitcode(status)
        output.seek(0)
        text = output.read().decode(errors="replace")
    megabytes = used.ru_maxrss / 1024
    if child.returncode == -signal.SIGKILL:
        return Run("-", limit, megabytes, True)
    return Run(answer_of(text, child.returncode), used.ru_utime + used.ru_stime, megabytes, False)


def sets(seeds):
    """The name of each set, and the words that make it."""
    for names in RANDOM_SIZES:
        for seed in range(1, seeds + 1):
            yield f"random {names}, seed {seed}", ("random", names, seed)
    for holes in PIGEONHOLE_SIZES:
        yield f"pigeonhole {holes}", ("pigeonhole", holes)


def ratios(rows, other):
    """The first program's time by that of another: over all sets, and at most over one."""
    mine = sum(row[0].seconds for row in rows)
    theirs = sum(row[other].seconds for row in rows)
    each = [
        row[0].seconds / max(row[other].seconds, 0.01)
        for row in rows
        if max(row[0].seconds, row[other].seconds) > WORTH_A_RATIO
    ]
    return mine / max(theirs, 0.01), max(each, default=0.0)


def main(words):
    if len(words) < 4 or words[0] not in clauses.FORMS:
        sys.exit(__doc__)
    form, limit, seeds = words[0], int(words[1]), int(words[2])
    commands = [shlex.split(word) for word in words[3:]]
    names = [os.path.basename(command[0]) for command in commands]
    print(f"{'':<20}" + "".join(f"   {name:<29}" for name in names), flush=True)
    rows = []
    with tempfile.NamedTemporaryFile("w") as source:
        for name, made in sets(seeds):
            source.seek(0)
            source.truncate()
            source.write(clauses.text(form, *made))
            source.flush()
            row = [run(command, source.name, limit) for command in commands]
            print(f"{name:<20}" + "".join(f"   {one.text()}" for one in row), flush=True)
            rows.append(row)
    sums = [sum(row[i].seconds for row in rows) for i in range(len(commands))]
    print(f"{'sum':<20}" + "".join(f"   {'':<7}  {total:8.2f} s {'':10}" for total in sums))
    for i in range(1, len(commands)):
        whole, most = ratios(rows, i)
        print(f"{names[0]} by {names[i]}: {whole:.2f} in the sum, at most {most:.2f} on a set past {WORTH_A_RATIO} s")


if __name__ == "__main__":
    main(sys.argv[1:])
