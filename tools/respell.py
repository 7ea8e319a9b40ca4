#!/usr/bin/env python3
"""Respells this repository's own definitions and lemmas as today's Rattle spells names, once, at the top of the
checkout: words in snake case, types and facts in upper camel case. Names of goals and of steps, which Rattle
makes, keep theirs, and so do the names that FIPS 180-4 gives its functions (Ch, Maj, K, W and the Greek ones).
Says which names changed, and stops where a new name stands already, unless it is told --anyway: a definition may
have the name of the function that answers it, in a module of its own."""
import pathlib
import re
import sys

LETTER = r"\w'\-′₀-₉₋"
DECLARED = re.compile(
    r"^\s*(?:(?:abbrev|unfoldable|pub|record|data|ruleset)\s+)*([^\s(){}:=.,]+)(?:\s+[({].*)?\s+:\s+(.*)$")

# A definition that would have the name of a function with another meaning beside it, and names within proofs whose
# like were turned by the port script.
BY_HAND = {"is-broken": "are_broken", "first-four": "first_four", "at-d": "at_d", "at-e": "at_e", "in-range": "in_range"}


def respelled(name):
    if name[0].isupper() and not re.match(r"^[A-Z]-", name):
        head, *rest = name.split("-")
        return head + "".join(part[:1].upper() + part[1:] for part in rest)
    name = re.sub(r"(?<=[a-z0-9])([A-Z])", lambda m: "_" + m.group(1).lower(), name)
    return name.replace("-", "_")


def declared(files):
    names = set()
    for file in files:
        for line in file.read_text().split("\n"):
            found = DECLARED.match(line)
            if found and not found.group(2).startswith("goal."):
                names.add(found.group(1))
            if line.startswith("use Rattle."):
                names.update(re.findall(r" as ([^\s,}]+)", line))
    return names


def page(text, turn, known):
    """In a page only what stands as code or in italics is a name; the port script may have turned it before."""
    def one(m):
        part = turn(m.group(0))
        return re.sub(rf"[{LETTER}]+", lambda t: respelled(t.group(0)) if "-" in t.group(0) and respelled(t.group(0)) in known else t.group(0), part)
    return re.sub(r"`[^`\n]+`|(?<!\*)\*[^*\s][^*\n]*\*(?!\*)", one, text)


def main():
    proofs = sorted(pathlib.Path("crates").glob("*/specs/**/*.antt")) + sorted(pathlib.Path("crates").glob("*/proofs/**/*.antt"))
    names = {n: respelled(n) for n in declared(proofs) if respelled(n) != n} | BY_HAND
    texts = proofs + sorted(pathlib.Path("crates").glob("*/src/**/*.rt")) + sorted(pathlib.Path("crates").glob("*/must-fail/*.edit"))
    pages = [pathlib.Path("README.md")] + sorted(pathlib.Path("docs").glob("*.md"))
    whole = "\n".join(f.read_text() for f in texts)
    tokens = set(re.findall(rf"[{LETTER}]+", whole))
    clash = sorted((n, new) for n, new in names.items() if new in tokens)
    news = {}
    for n, new in names.items():
        news.setdefault(new, []).append(n)
    clash += sorted((tuple(old), new) for new, old in news.items() if len(old) > 1)
    for old, new in clash:
        print("falls together:", old, "->", new)
    if clash and "--anyway" not in sys.argv:
        sys.exit(1)
    pattern = re.compile(rf"(?<![{LETTER}])(" + "|".join(sorted(map(re.escape, names), key=len, reverse=True)) + rf")(?![{LETTER}])")

    def turn(text):
        def one(m):
            before = text[:m.start()]
            step = re.search(r"(?<![\w'.])[cw](\.[^\s.(){},]+)*\.$", before[-200:])
            return m.group(0) if step else names[m.group(1)]
        return pattern.sub(one, text)

    for f in texts:
        old = f.read_text()
        new = turn(old)
        if new != old:
            f.write_text(new)
    known = declared(proofs)
    for f in pages:
        old = f.read_text()
        new = page(old, turn, known)
        if new != old:
            f.write_text(new)
    for n, new in sorted(names.items()):
        print(n, "->", new)


main()
