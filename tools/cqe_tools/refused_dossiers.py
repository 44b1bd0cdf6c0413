"""What the program says of a dossier that it refuses."""

from .dossiers import ADMISSION, BYTES, FORM, LENGTH, MARK, TEXT, UNSAFE, VERDICT
from .facts import spot_of_line
from .places import Finding

SAME = ("check it with the policy, the facts and the user for whom it was written, and as it was written: a line that was "
        "changed, lost or added shows nothing any more")

# Of each kind what is wrong with the line, and what to do.
KINDS = {
    FORM: ("isn't the one that has to stand there, or is missing, or stands behind the end", SAME),
    TEXT: ("has a text that is no sentence of the policy, or is too long, or stands behind a history that is full for it",
           SAME),
    VERDICT: ("doesn't show what it says: its refutation isn't right, or in the world that it lists a premise is false or "
              "the goal true", SAME),
    MARK: ("has another mark than what its blocks show", "the user was told something that the rule doesn't give, or the "
           "line was changed; cqe batch and cqe serve refuse a journal with such a mark"),
    ADMISSION: ("doesn't show that the user is admissible: he isn't open, or what he knows is false in the database, or a "
                "secret of his follows from it", "a user who isn't served has no dossier to check; see cqe audit for his "
                "standing"),
    UNSAFE: ("adds a secret that isn't safe: it follows from what the user knows by then", SAME),
}


def explain(said, kind, line, text):
    """The meaning of `cqe: dossier KIND LINE`; the text may be None."""
    if kind == LENGTH and line == 0:
        return Finding(said, f"The dossier has more than {BYTES:,} bytes, and no longer one is checked.", None,
                       "a history is as long as that only with many refutations of many lines: a smaller budget makes "
                       "them shorter")
    if kind == FORM and line == 0:
        return Finding(said, "The dossier isn't UTF-8.", None, SAME)
    if kind not in KINDS:
        return Finding(said, f"The dossier is refused with the kind {kind}, which no format names.")
    meaning, advice = KINDS[kind]
    return Finding(said, f"Line {line} of the dossier {meaning}.", spot_of_line(text, line), advice)
