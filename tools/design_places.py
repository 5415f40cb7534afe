#!/usr/bin/env python3
"""Lists the places of crates/*/src that docs/DESIGN-PASS.md counts, point by point.

    python3 tools/design_places.py [--list] [POINT..]

Run it at the top of a checkout. A point's row says how many places there are; with --list each place follows.
What it finds is a place to look at: the page says of each what became of it.
"""
import difflib
import glob
import re
import sys
from collections import Counter, defaultdict

WORDS = {"if", "else", "while", "for", "in", "loop", "match", "let", "mut", "return", "fn", "pub", "as", "break"}


def functions():
    """Each function: its file, line, name, parameters, result, clauses and body."""
    for path in sorted(glob.glob("crates/*/src/**/*.rt", recursive=True)):
        lines = open(path).read().split("\n")
        at = 0
        while at < len(lines):
            found = re.match(r"(\s*)(pub(\(crate\))? )?(final )?(const )?(extern \"C\" )?fn (\w+)", lines[at])
            if not found:
                at += 1
                continue
            end = at
            while end < len(lines) - 1 and lines[end] not in (found[1] + "}", found[1] + ");") and not lines[end].endswith(";\n"):
                if end == at and lines[at].rstrip().endswith(";"):
                    break
                end += 1
            text = "\n".join(lines[at : end + 1])
            opened = re.search(r"(^|\n)\s*\{\s*\n|\)( -> [^\n]*)? \{\s*\n", text)
            head = text[: opened.start()] if opened else text
            if opened and opened.group(0).startswith(")"):
                head = text[: opened.end()].rstrip().rstrip("{")
            body = text[opened.end() :] if opened else ""
            clauses = re.findall(r"(requires|ensures)\s+(?:\w+ )?\{(.*?)\}(?=\s*(?:requires|ensures|$))", head, re.S)
            signature = re.split(r"\n\s*(?:requires|ensures|where)", head)[0]
            inside = signature[signature.find("(") + 1 :]
            parameters = re.findall(r"(\w+): ((?:&(?:'\w+ )?(?:mut )?)?(?:\[[^\]]*\]|[\w:<>' ]+))", inside.split("->")[0])
            yield dict(path=path, line=at + 1, name=found[7], parameters=parameters, clauses=clauses, body=body,
                       before=lines[at - 1] if at else "", text=text)
            at = end + 1


def place(f, what=""):
    return f"{f['path']}:{f['line']} {f['name']}{what}"


def lines_with(pattern, skip=r"^\s*//"):
    for path in sorted(glob.glob("crates/*/src/**/*.rt", recursive=True)):
        for number, line in enumerate(open(path), 1):
            if re.search(pattern, line) and not re.search(skip, line):
                yield f"{path}:{number} {line.strip()}"


def enums():
    """Enums with a case that is a refusal or nothing, beside one that has a value."""
    for path in sorted(glob.glob("crates/*/src/**/*.rt", recursive=True)):
        for found in re.finditer(r"enum (\w+)[^{]*\{(.*?)\n\}", open(path).read(), re.S):
            cases = re.findall(r"^\s+(\w+)(\([^)]*\))?,", found[2], re.M)
            if len(cases) == 2 and any(value for _, value in cases):
                yield f"{path} enum {found[1]}: {', '.join(name for name, _ in cases)}"


def codes():
    """Numbers in the place of a refusal, an edition, or 'there is none'."""
    yield from lines_with(r"number: \d+,|refused\(\d+,|write_refused\(\d+|return (14|6|7);|NoSet => [07]\b|edition == \d|\(edition: usize|number != 0 \{|of\(1,|try_cases\([12]\)|last_fault\(|fault == 0|0 < fault|MOST")


def tokens(body):
    body = re.sub(r"//.*", "", body)
    out = []
    for token in re.findall(r"[A-Za-z_]\w*|\d\w*|[^\s\w]", body):
        if re.match(r"\d", token):
            token = "0"
        elif re.fullmatch(r"[ui](8|16|32|64|size)", token):
            token = "T"
        elif token.isupper():
            token = "C"
        elif re.match(r"[A-Za-z_]", token) and token not in WORDS:
            token = "x"
        out.append(token)
    return out


def twins():
    """Pairs of functions of one shape."""
    all_of = [(f, tokens(f["body"])) for f in functions()]
    all_of = [(f, t) for f, t in all_of if len(t) >= 10]
    for i, (f, t) in enumerate(all_of):
        for g, u in all_of[i + 1 :]:
            if abs(len(t) - len(u)) > 0.15 * max(len(t), len(u)):
                continue
            if difflib.SequenceMatcher(None, t, u, autojunk=False).ratio() >= 0.88:
                names = set(re.findall(r"\w+", f["body"])) & set(re.findall(r"\w+", g["body"]))
                every = set(re.findall(r"\w+", f["body"])) | set(re.findall(r"\w+", g["body"]))
                if len(names) >= 0.4 * len(every):
                    yield f"{place(f)} ~ {place(g)}"


def loops():
    """Loops that are no `for`."""
    yield from lines_with(r"^\s*(while .*\{|('\w+: )?loop \{|let .*loop \{)")


def hands():
    """Functions that do by hand what the library or a derive does."""
    shapes = {
        "max, min": r"^\s*if (\w+) < (\w+) \{ (\1|\2) \} else \{ (\1|\2) \}\s*\}\s*$",
        "saturating_sub": r"if \w+ < \w+ \{ \w+ - \w+ \} else \{ 0 \}",
        "choose": r"^\s*if \w+ \{ (\w+\([^)]*\)|\w+) \} else \{ (\w+|0) \}\s*\}\s*$",
        "from": r"^\s*if \w+ \{ 1 \} else \{ 0 \}",
        "&&": r"if !?\w+(\([^)]*\))? \{\s*return false;\s*\}",
        "and": r"^\s*if a \{ b \} else \{ false \}",
        "==": r"s\[0\] != letters\[0\]|places\[k\] != FILL",
        "le bytes": r"256 \* byte_at|65536 \* u16_at|4294967296 \* u32_at|x % 256\) as u8|x / 65536|x / 4294967296|value % 256|value % 65536|units % 4294967296|wide\(s|^\s*x as u64\s*\}",
        "From": r"^\s*(Reply|StepsReply|Written) \{\s*refusal: number",
        "Display": r"write_all\(b\": |\.print\(|put_digit\(",
        "Add": r"wrapping_add_usize\(self",
        "Default": r"Tally \{ made: 0, right: 0 \}|plans: Tally::none\(\),\s*plans_refused",
        "copy": r"(to|rows|out)\[[^\]]*\] = (from|text)\[[^\]]*\];",
        "fill": r"out\[i\] = 0;",
        "count": r"rest % 2\) as usize",
    }
    for f in functions():
        for what, shape in shapes.items():
            if re.search(shape, f["body"].rstrip().rstrip("}").rstrip() + "\n}", re.S):
                yield place(f, f" ({what})")
                break


def facts():
    """Facts that three or more functions of a crate require, and parameters that travel together in three or more."""
    required, together = defaultdict(set), defaultdict(set)
    for f in functions():
        crate = f["path"].split("/")[1]
        for kind, clause in f["clauses"]:
            if kind == "requires":
                required[" ".join(clause.split())].add(place(f))
        given = [(n, t.strip()) for n, t in f["parameters"]]
        for i, a in enumerate(given):
            for b in given[i + 1 :]:
                if "[" in a[1] + b[1] or a[1][0].isupper() or b[1][0].isupper():
                    together[crate, a, b].add(f["name"])
    for fact, at in sorted(required.items()):
        if len(at) >= 3:
            yield f"{len(at)} functions require: {fact}"
    for (crate, a, b), names in sorted(together.items()):
        if len(names) >= 3:
            yield f"{crate}: {a[0]}, {b[0]} in {len(names)} functions"


def buffers():
    """A buffer with a length or a place beside it, and buffers with several words an element."""
    for f in functions():
        names = [n for n, t in f["parameters"] if t.strip() == "usize" and re.fullmatch(r"n|at|from|to|length|records|r", n)]
        slices = [n for n, t in f["parameters"] if "[" in t or "Space" in t]
        if names and slices:
            yield place(f, f": {', '.join(slices)} with {', '.join(names)}")
        if re.search(r"\bWORDS\b|BLOCK_WORDS|ROWS \*", f["body"]):
            yield place(f, ": several words an element")


def switches():
    """A flag that says which of two functions to run."""
    for f in functions():
        if re.search(r"if (first|tight|edition == 1|is_first\(s\)) \{\s*(return )?\w+\(", f["body"]):
            yield place(f)


def proofs():
    """Answers and invariants of functions."""
    for path in sorted(glob.glob("crates/*/proofs/**/*.antt", recursive=True)):
        if path.endswith(("Answers.antt", "Invariants.antt")):
            yield f"{path} {sum(1 for _ in open(path))} lines"


POINTS = {
    "1a own enums like Option and Result": enums,
    "1b numbers in place of kinds": codes,
    "2 twins": twins,
    "3 loops that are no for": loops,
    "4 written by hand": hands,
    "5 facts and parameters of three or more functions": facts,
    "6 buffers": buffers,
    "7 switches": switches,
    "8 proofs of functions": proofs,
}


def main():
    asked = [a for a in sys.argv[1:] if not a.startswith("-")]
    for name, find in POINTS.items():
        if asked and name.split()[0] not in asked:
            continue
        places = list(dict.fromkeys(find()))
        print(f"{len(places):5} {name}")
        if "--list" in sys.argv:
            for p in places:
                print(f"        {p}")
    if not asked or "8" in asked:
        lines = sum(int(p.split()[-2]) for p in proofs())
        print(f"{lines:5} lines in these proofs")


main()
