#!/usr/bin/env python3
"""Turns the names of the repository's own definitions and lemmas to snake case, once, after port.py. Run at the top of the repository.

A word is taken apart at its dashes; each part that begins in lower case and goes on in upper case gets an underscore there (`norm2Of` is
`norm2_of`, `upTo-next` is `up_to-next`). Types, facts and modules begin in upper case and stay. A definition may come to bear the name of
the function of src/ that it mirrors, as std's definitions do. Where a name would fall together with another of antt's, BACK says which
word gives way (a lemma goes back to its dashes), and FIRST names what would be a tactic's word.
"""

import os
import re
import sys

WORD = r"[^\W\d][\w'⁺⁻-]*"
CAMEL = re.compile(r"(?<=[a-z0-9])([A-Z])")
# lemmas that port.py gave an underscore, and that a definition's name would meet
BACK = "more_rows not_finite fit_of too_short too_many no_room count_at too_long no_line found_in set_both point_at counts_of one_more fitted_of shown_by by_number too_many_rows"
FIRST = {"job": "first_refusal_of", "nullspace": "first_norm_of", "spelling": "first_digit_of", "text": "first_digit_of", "grammar": "first_digit_of"}


def parts(word):
    for part in word.split("-"):
        yield CAMEL.sub(lambda m: "_" + m.group(1).lower(), part) if part[:1].islower() else part


def files(*ends):
    for base, dirs, names in os.walk("crates"):
        dirs[:] = sorted(d for d in dirs if d != "out")
        for n in sorted(names):
            if n.endswith(ends):
                yield os.path.join(base, n)


def main():
    back = set(BACK.split())
    seen = set()
    for p in files(".antt", ".rt", ".edit"):
        with open(p, encoding="utf-8") as f:
            text = f.read()
        crate = p.split(os.sep)[1]

        def turned(m):
            word = m.group(0)
            before = text[m.start() - 1 : m.start()]
            if word in ("firstOf", "first_of") and crate in FIRST:
                return FIRST[crate]
            if word in back and p.endswith(".antt") and before != ".":
                return word.replace("_", "-")
            new = "-".join(parts(word))
            if new != word:
                seen.add(word)
            return new

        new = re.sub(WORD, turned, text)
        if new != text:
            with open(p, "w", encoding="utf-8") as f:
                f.write(new)
    for p in ["README.md"] + ["docs/" + n for n in sorted(os.listdir("docs")) if n.endswith(".md")]:
        with open(p, encoding="utf-8") as f:
            text = f.read()
        new = re.sub(WORD, lambda m: "-".join(parts(m.group(0))) if m.group(0) in seen else m.group(0), text)
        if new != text:
            with open(p, "w", encoding="utf-8") as f:
                f.write(new)
    print(f"{len(seen)} names")


if __name__ == "__main__":
    sys.exit(main())
