"""The checker of LRAT that is proved right in ACL2, by Heule, Hunt, Kaufmann and Wetzler: the packages acl2 and
acl2-books-source of Debian have it.

What reads files there needs more of ACL2's books, so a pair is given to it as values.
"""

import glob
import os
import re
import shutil
import subprocess
from pathlib import Path

PLACE = "projects/sat/lrat"


def books():
    """The directory of the checker; None where it isn't there."""
    named = os.environ.get("ACL2_SYSTEM_BOOKS")
    found = [Path(place) / PLACE for place in ([named] if named else sorted(glob.glob("/usr/share/acl2-*/books")))]
    return next((place for place in found if (place / "list-based/lrat-checker.lisp").is_file()), None)


def is_there():
    return shutil.which("acl2") is not None and books() is not None


def confirmed(pairs):
    """Of each pair of texts, in DIMACS and in LRAT, whether the second refutes the first."""
    script = [f'(ld "{books()}/portcullis.acl2")', "(set-inhibit-output-lst '(proof-tree warning event summary))",
              f'(ld "{books()}/list-based/lrat-checker.lisp" :ld-skip-proofsp t)', '(in-package "LRAT")']
    script += [f'(cw "~%pair {number}: ~x0~%" {question(*pair)})' for number, pair in enumerate(pairs)]
    ran = subprocess.run(["acl2"], input="\n".join(script) + "\n", capture_output=True, text=True, timeout=600)
    said = {int(number) for number in re.findall(r"^pair (\d+): \(T T\)$", ran.stdout, re.MULTILINE)}
    return [number in said for number in range(len(pairs))]


def question(cnf, lrat):
    """Whether ACL2 takes the clauses as a formula, and the proof as one that refutes it."""
    clauses = [line.split()[:-1] for line in cnf.splitlines() if line[0] not in "cp"]
    formula = " ".join(f"({number} {' '.join(clause)})" for number, clause in enumerate(clauses, 1))
    return (f"(let ((formula (make-fast-alist '({formula}))) (proof (list {' '.join(map(step, lrat.splitlines()))}))) "
            "(list (formula-p formula) (refutation-p proof formula)))")


def step(line):
    number, *words = line.split()
    end = words.index("0")
    return (f"(make add-step :index {number} :clause '({' '.join(words[:end])}) "
            f":rup-indices '({' '.join(words[end + 1:-1])}) :drat-hints nil)")
