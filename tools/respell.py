#!/usr/bin/env python3
"""Brings this repository's definitions and lemmas to the spelling of today's Rattle: words in snake case.

usage: tools/respell.py [--list]     at the top of the repository, once, after the kit's port.py

A name that specs/ or proofs/ declares and that has a capital inside it, or a dash, is written in snake case wherever it stands: in
.antt and .rt files, in edits, and in the backquotes of pages. Types, modules and what Rattle makes or std has keep their names, and
so do functions, strings, inputs and outputs. Names that would fall together are listed, and nothing is written.
"""

import os
import re
import sys

TOKEN = re.compile(r"[^\W\d][\w'-]*")
SIGNATURE = re.compile(r"^\s*(?:(?:abbrev|unfoldable|pub) )*([^\s(){}:λ=.,]+(?: [^\s(){}:λ=.,]+)*)(?: \{[^}]*\})* : (.*)")
ALIAS = re.compile(r"^use .* as ([\w'-]+)$", re.M)
# What the general rule would let fall together with another name, or would leave unlike the word of std that it speaks of.
BY_HAND = {"getD-mapFrom": "get_or_map_from", "forgotten-at": "forgotten_at_lem", "noted-at": "noted_at_lem"}


def files(*ends):
    for top in ("crates", "mutants"):
        for folder, dirs, names in os.walk(top):
            dirs[:] = sorted(d for d in dirs if d not in ("out", "target"))
            yield from (os.path.join(folder, n) for n in sorted(names) if n.endswith(ends))


def read(path):
    with open(path, encoding="utf-8") as f:
        return f.read()


def snake(name):
    words = re.sub(r"(?<=[a-z0-9])(?=[A-Z])", "_", name).lower()
    return BY_HAND.get(name, words.replace("-", "_"))


def declared():
    """The names that specs/ declares, those that proofs/ declares and that are no answers, and those that a use line gives."""
    own = {"specs": set(), "proofs": set(), "alias": set()}
    answers = set()
    for path in files(".antt"):
        text = read(path)
        for line in text.splitlines():
            m = SIGNATURE.match(line)
            if m and not line.lstrip().startswith(("--", "use ", "module ")):
                (answers if re.match(r"(tie|goal)\.", m[2]) else own[path.split("/")[2]]).update(m[1].split())
        own["alias"].update(ALIAS.findall(text))
    return [{n for n in names - answers if re.fullmatch(r"[a-z][\w'-]*", n)} for names in own.values()]


def respelled():
    """The new name of each; of two that would fall together the lemma gets _lem, and what cannot be told apart so is listed."""
    specs, proofs, aliases = declared()
    new = {n: snake(n) for n in aliases | specs}
    for n in sorted(proofs - specs):
        new[n] = snake(n) + ("_lem" if any(snake(o) == snake(n) for o in specs) else "")
    bad = 0
    for names in (specs, proofs - specs):
        by = {}
        for n in names:
            by.setdefault(new[n], []).append(n)
        for to, same in sorted(by.items()):
            if len(same) > 1:
                bad += 1
                print(f"{', '.join(same)} fall together in {to}")
    return {n: m for n, m in new.items() if n != m}, bad


def main():
    new, bad = respelled()
    texts = {p: read(p) for p in files(".antt", ".rt", ".edit")}
    if bad or "--list" in sys.argv:
        print("\n".join(f"{n} -> {m}" for n, m in sorted(new.items())))
        raise SystemExit(bad > 0)
    code = lambda t: TOKEN.sub(lambda m: new.get(m[0], m[0]), t)
    quoted = lambda t: re.sub(r"`[^`\n]*`", lambda m: code(m[0]), t)

    def lines(text, mark):
        for line in text.splitlines(keepends=True):
            at = line.find(mark)
            yield code(line[:at]) + quoted(line[at:]) if at >= 0 else code(line)

    for path, text in texts.items():
        if path.endswith(".edit"):
            out = "".join(code(x) if re.match(r"(old|new|at):", x) else quoted(x) for x in text.splitlines(keepends=True))
        else:
            out = "".join(lines(text, "--" if path.endswith(".antt") else "//"))
        if out != text:
            with open(path, "w", encoding="utf-8") as f:
                f.write(out)
    pages = ["README.md", "bench/README.md"] + [os.path.join("docs", f) for f in sorted(os.listdir("docs")) if f.endswith(".md")]
    for path in pages:
        text = read(path)
        if quoted(text) != text:
            with open(path, "w", encoding="utf-8") as f:
                f.write(quoted(text))


main()
