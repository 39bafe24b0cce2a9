"""Lines: those that are empty now go, and a `{` or `;` behind clauses is drawn up."""

import re

from .tokens import GAP


def laid_out(text):
    done, gap = [], False
    for line in text.split("\n"):
        had, bare = GAP in line, line.replace(GAP, "")
        if had and not bare.strip():
            gap = True
            continue
        bare = bare.rstrip() if had else bare
        said = bare.strip()
        if (gap or had) and drawn_up(done, said):
            gap = False
            continue
        if gap and not said and done and (not done[-1].strip() or done[-1].endswith("{")):
            continue
        if gap and said.startswith("}") and done and not done[-1].strip():
            done.pop()
        gap = gap and not said
        done.append(bare)
    return re.sub(r"\n\n\n+", "\n\n", "\n".join(done).lstrip("\n"))


def drawn_up(done, said):
    """Puts a `;` or a body behind the line above, where clauses stood between. Returns whether it did."""
    if not done or not said:
        return False
    if said == ";":
        done[-1] += ";"
        return True
    if said.startswith("{") and done[-1].strip() and not done[-1].endswith(","):
        done[-1] += " " + said
        return True
    return False
