#!/usr/bin/env python3
"""Brings the repository's own definitions and lemmas to the spelling of the installed Rattle: words in snake case.

usage: python3 tools/respell.py [--list]        at the top of the repository, once, right after port.py

A name that a file of specs/ or proofs/ declares and that begins with a small letter is turned: `isSubset` to `is_subset`, and a dash to `_`, so
`sizes-exact` to `sizes_exact`. Types and modules, Rust's names, and the names that Rattle makes (those of goals) stay. A lemma that would get a
definition's name ends in `_lem`. --list prints the table and the names that fall together, and changes nothing.
"""
import glob
import os
import re
import sys

DELIMITERS = "(){}.,;:`⟦⟧∥⌜⌝\""
TOKEN = re.compile(r"[^\s" + re.escape(DELIMITERS) + r"λ]+")
DECLARED = re.compile(r"^(?:(?:unfoldable|abbrev|pub|ruleset)\s+)*([^\s" + re.escape(DELIMITERS) + r"]+)\s*(?:[({].*[)}]\s*)?:(?:\s|$)")
FIELD = re.compile(r"^\s+(?:pub\s+)?([^\s" + re.escape(DELIMITERS) + r"]+(?:\s+[^\s" + re.escape(DELIMITERS) + r"→]+)*)\s*:(?:\s|$)")
TYPE = re.compile(r"^(?:(?:pub|abbrev)\s+)*(?:data|record)\s+(?:pub\s+)?([^\s(){}:]+)")
# lemmas and locals whose name a definition gets, and functions whose name a lemma would get
ALSO = {"some_fits": "some_fits_lem", "step_in": "step_in_lem"}
FUNCTIONS = {"has_letters"}
KEYWORDS = {"use", "pub", "mod", "module", "let", "in", "where", "open", "data", "record", "unfolding", "infix", "infixl", "infixr", "mutual", "--"}


def files(pattern):
    return sorted(f for f in glob.glob(pattern, recursive=True) if "/out/" not in f)


def read(path):
    with open(path, encoding="utf-8") as f:
        return f.read()


def snake(name):
    name = re.sub(r"([a-z0-9])([A-Z])(?=[a-z])", lambda m: m[1] + "_" + m[2].lower(), name)
    return re.sub(r"([a-z0-9])([A-Z])", lambda m: m[1] + "_" + m[2].lower(), name)


def declared():
    """The names that the laws and definitions declare, each with its files; and the fields of their records."""
    names, fields, types = {}, {}, set()
    for path in files("crates/*/specs/**/*.antt") + files("crates/*/proofs/*.antt"):
        inside = False
        for line in read(path).split("\n"):
            if line.startswith("--") or not line.strip():
                continue
            if not line[0].isspace():
                m = TYPE.match(line)
                inside = bool(m)
                if m:
                    types.add(m[1])
                    continue
            m = DECLARED.match(line.strip() if line.startswith("  ") and not inside else line)
            if m and m[1] not in KEYWORDS and not inside:
                names.setdefault(m[1], set()).add(path)
            elif inside:
                m = FIELD.match(line)
                if m:
                    for word in m[1].split():
                        fields.setdefault(word, set()).add(path)
    return names, fields, types


def table():
    names, fields, types = declared()
    turned = dict(ALSO)
    for name in list(names) + list(fields):
        if not name[0].islower() or name in KEYWORDS:
            continue
        parts = [snake(p) for p in name.split("-")]
        new = "_".join(parts)
        if new != name:
            turned[name] = new
    plain = {new for old, new in turned.items() if "-" not in old} | {n for n in list(names) + list(fields) if "-" not in n} - set(turned) | FUNCTIONS
    for old in turned:
        if "-" in old and turned[old] in plain:
            turned[old] += "_lem"
    return turned, names, fields


def parts_of(line):
    """The code of a line of antt, and its comment."""
    m = re.search(r"(?:^|\s)--(?:\s|$)", line)
    return (line, "") if not m else (line[: m.start()], line[m.start() :])


def turn(text, turned):
    return TOKEN.sub(lambda m: turned.get(m[0], m[0]), text)


def turn_quoted(text, turned):
    return re.sub(r"`[^`\n]*`", lambda m: turn(m[0], turned), text)


def turn_camel(text, turned):
    return re.sub(r"(?<![\w'-])[a-z]\w*(?![\w'-])", lambda m: turned[m[0]] if m[0] in turned and "-" not in m[0] and snake(m[0]) != m[0] else m[0], text)


def turned_text(path, text, turned):
    if path.endswith(".antt"):
        lines = []
        for line in text.split("\n"):
            code, comment = parts_of(line)
            lines.append(turn(code, turned) + turn_camel(turn_quoted(comment, turned), turned))
        return "\n".join(lines)
    return turn_camel(turn_quoted(text, turned), turned)


def main(words):
    turned, names, fields = table()
    texts = files("crates/**/*.antt") + files("crates/**/*.rt")
    where = {}
    for path in texts:
        if path.endswith(".antt"):
            for line in read(path).split("\n"):
                for t in TOKEN.findall(parts_of(line)[0]):
                    where.setdefault(t, set()).add(path)
    news = {}
    for old, new in turned.items():
        news.setdefault(new, []).append(old)
    together = 0
    for new, olds in sorted(news.items()):
        clash = sorted(where.get(new, ()))
        if len(olds) > 1 or clash:
            together += 1
            print("fall together:", new, "<-", ", ".join(olds), "also in", clash[:4])
    if "--list" in words:
        for old, new in sorted(turned.items()):
            print(old, new, sorted(names.get(old, fields.get(old)))[0])
        return
    for path in texts + files("docs/*.md") + files("*.md"):
        text = read(path)
        new = turned_text(path, text, turned)
        if new != text:
            with open(path, "w", encoding="utf-8") as f:
                f.write(new)


main(sys.argv[1:])
