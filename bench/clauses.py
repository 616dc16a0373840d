#!/usr/bin/env python3
"""Writes a set of clauses to standard output, in DIMACS form or as an SMT-LIB script.

usage: clauses.py FORM random NAMES SEED    random clauses of three different names, 4.26 clauses a name
       clauses.py FORM pigeonhole HOLES     one pigeon more than HOLES, each in a hole, no two in one: no model

FORM is `dimacs` or `script`. The same words give the same clauses. The script's strategy is `sat`, so that its one check is
one search.
"""
import random
import sys

CLAUSES_A_NAME = 4.26


def random_clauses(names, seed):
    """Clauses over the names 1 to `names`; a literal is a name, or its negative number."""
    draw = random.Random(seed)
    for _ in range(round(CLAUSES_A_NAME * names)):
        chosen = draw.sample(range(1, names + 1), 3)
        yield [name if draw.random() < 0.5 else -name for name in chosen]


def pigeonhole_clauses(holes):
    """Name p * holes + h says that pigeon p, from 0, sits in hole h, from 1."""
    pigeons = holes + 1
    for p in range(pigeons):
        yield [p * holes + h for h in range(1, holes + 1)]
    for h in range(1, holes + 1):
        for p in range(pigeons):
            for q in range(p):
                yield [-(p * holes + h), -(q * holes + h)]


def dimacs(names, clauses):
    rows = [" ".join(str(lit) for lit in (*clause, 0)) for clause in clauses]
    return "\n".join([f"p cnf {names} {len(rows)}", *rows]) + "\n"


def script(names, clauses):
    lines = [f"(declare-const x{name} Bool)" for name in range(1, names + 1)]
    for clause in clauses:
        lits = [f"x{lit}" if lit > 0 else f"(not x{-lit})" for lit in clause]
        lines.append(f"(assert (or {' '.join(lits)}))")
    lines.append("(check-sat-using sat)")
    return "\n".join(lines) + "\n"


FORMS = {"dimacs": dimacs, "script": script}


def text(form, kind, size, seed=0):
    """The set of that kind and size, in a form of FORMS."""
    if kind == "random":
        return FORMS[form](size, random_clauses(size, seed))
    return FORMS[form]((size + 1) * size, pigeonhole_clauses(size))


def main(words):
    match words:
        case [form, "random", names, seed] if form in FORMS and int(names) > 2:
            return text(form, "random", int(names), int(seed))
        case [form, "pigeonhole", holes] if form in FORMS and int(holes) > 0:
            return text(form, "pigeonhole", int(holes))
    sys.exit(__doc__)


if __name__ == "__main__":
    sys.stdout.write(main(sys.argv[1:]))
