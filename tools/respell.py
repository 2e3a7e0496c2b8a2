#!/usr/bin/env python3
"""Brings this repository's own names to the spelling of today's Rattle, after port.py: words in snake case.

usage: python3 tools/respell.py        at the top of the repository, once, right after port.py

A name in camel case that begins with a small letter, as `ruleNo`, is a definition, a lemma, a field or a
variable of specs/ and proofs/: it becomes `rule_no`. A dash joins the parts of a lemma's name and stays:
`rulesIn-listed` becomes `rules_in-listed`. Types, modules, functions of src/ and strings keep their names.
Turned are .antt files, .rt files but for their strings, the .edit files, and in the pages the code spans.
The few lemmas and variables whose names would then fall together with another one's are renamed first.
"""

import os
import re
import sys

WORD = re.compile(r'[^\s(){}.;,@"«»`\'′:]+')
CAMEL = re.compile(r"(?:^|(?<=-))[a-z][a-z0-9_]*[A-Z][A-Za-z0-9_]*(?=$|-|')")
STRING = re.compile(r'"(?:[^"\\\n]|\\.)*"|b?\'(?:[^\'\\\n]|\\.)\'')
SPAN = re.compile(r"`[^`\n]+`")

# (file, old, new): the names that fall together with a definition's new name.
APART = [
    ("crates/closing/proofs/Settling.antt", "settle_read", "settle_read-good"),
    ("crates/closing/proofs/first/settle/Proof.antt", "settle_read", "settle_read-good"),
    ("crates/counting/proofs/Paging.antt", "last_row", "row_before"),
    ("crates/walk/proofs/Rows.antt", "last_row", "last_row-behind"),
    ("crates/walk/proofs/Listing.antt", "last_row", "last_row-behind"),
    ("crates/demands/proofs/UselessImports.antt", "free_bytes", "free_bytes-made"),
    ("crates/imported/proofs/Numbers.antt", "same_text", "same_text-true"),
    ("crates/imported/proofs/TextCases.antt", "same_text", "same_text-true"),
    ("crates/words/proofs/Turns.antt", "goes_on", "goes_further"),
]


def word(old, new):
    """A whole word in the files of specs/ and proofs/."""
    return re.compile(r"(?<![^\s(){}.;,@\"«»])" + re.escape(old) + r"(?![^\s(){}.;,@\"«»])"), new


def snake(part):
    return re.sub(r"(?<=[a-z0-9])_?([A-Z]+)", lambda m: "_" + m[1].lower(), part)


def turned(text):
    return WORD.sub(lambda m: CAMEL.sub(lambda c: snake(c[0]), m[0]), text)


def but_strings(text):
    out, at = [], 0
    for m in STRING.finditer(text):
        out += [turned(text[at : m.start()]), m[0]]
        at = m.end()
    return "".join(out + [turned(text[at:])])


def known(root):
    """The names that the code has in the new spelling: only what becomes one of these turns in a page."""
    names = set()
    for path in files(root, (".antt",)):
        with open(path, encoding="utf-8") as f:
            names.update(turned(m[0]) for m in WORD.finditer(f.read()))
    return names


def files(root, endings, top="crates"):
    for folder, dirs, names in os.walk(os.path.join(root, top)):
        dirs[:] = sorted(d for d in dirs if d not in ("out", ".git"))
        for name in sorted(names):
            if name.endswith(endings):
                yield os.path.join(folder, name)


def page(text, names):
    def span(m):
        return WORD.sub(lambda w: turned(w[0]) if turned(w[0]) in names else w[0], m[0])

    return SPAN.sub(span, text)


def rewrite(path, turn):
    with open(path, encoding="utf-8") as f:
        old = f.read()
    new = turn(old)
    if new != old:
        with open(path, "w", encoding="utf-8") as f:
            f.write(new)
    return new != old


def main():
    root = os.getcwd()
    if not os.path.isdir(os.path.join(root, "crates")):
        print("respell: run it at the top of the repository", file=sys.stderr)
        return 2
    n = 0
    for path, old, new in APART:
        pattern, to = word(old, new)
        n += rewrite(os.path.join(root, path), lambda t: pattern.sub(to, t))
    names = known(root)
    for path in files(root, (".antt", ".edit")):
        n += rewrite(path, turned)
    for path in files(root, (".rt",)):
        n += rewrite(path, but_strings)
    pages = [os.path.join(root, "README.md"), *files(root, (".md",), "docs")]
    for path in pages:
        n += rewrite(path, lambda t: page(t, names))
    print(f"respell: {n} files")
    return 0


if __name__ == "__main__":
    raise SystemExit(main())
