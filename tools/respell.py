#!/usr/bin/env python3
"""Brings the repository's own names of antt to today's spelling.

usage: tools/respell.py        at the top of the repository, once, right after Rattle's own port.py

A word or lemma in camel case goes to snake case, as notBefore to not_before. In the name of a word or lemma a dash stays where
the part behind it is a name by itself, as in pick-true and sent-length, and is an underscore where it is a plain word, as in
wrapped_below. Types, facts and modules keep their capitals, and what src/ names keeps its spelling. Files of specs/ and proofs/, the
clauses of src/, the edits and docs/ are turned alike; in comments and pages a name with a dash is turned only between backticks.
It stops, and writes nothing, where two names would fall together in a file. It prints each name that it turned.
"""

import glob
import re
import sys

KIT = "/opt/rattle/rattle"
DEF = re.compile(r"^(\s*)((?:abbrev |unfoldable |pub )*)([^\s:(){}\[\]]+) :(?= |$)")
CON = re.compile(r"^\s+((?:[^\s:(){}\[\]]+ )+): ")
TOKEN = re.compile(r"[^\s(){}\[\],;.:·«»`\"|=↦→λ]+")
# A lemma that would have its function's name.
LEM = {("crates/host_history/proofs/History.antt", "is_block"): "is_block_lem", ("crates/transmit/proofs/Steps.antt", "is_found"): "is_found_lem"}
# A binder and a field that may share a spelling.
BOTH = {("crates/flushing/src/clock.rt", "tm_flush", "tmFlush"), ("crates/flushing/src/clock.rt", "tmFlush", "tm_flush")}
CAMEL = re.compile(r"(?<![A-Za-z])[a-z][a-z0-9]*[A-Z]")


def snake(word):
    """Camel case to snake case, in each part of the name that begins with a small letter."""
    parts = re.split(r"([-_])", word)
    for i, part in enumerate(parts):
        if re.match(r"[a-z]", part):
            parts[i] = re.sub(r"(?<=[a-z0-9])([A-Z])", lambda m: "_" + m.group(1).lower(), part)
    return "".join(parts)


def read(path):
    with open(path, encoding="utf-8") as f:
        return f.read()


def own_files():
    return sorted(glob.glob("crates/*/specs/**/*.antt", recursive=True) + glob.glob("crates/*/proofs/**/*.antt", recursive=True))


def is_answer(path):
    return path.endswith("/Proof.antt")


def main():
    files = own_files()
    texts = {p: read(p) for p in files}
    defined, camel = set(), set()
    for p, t in texts.items():
        for line in t.split("\n"):
            if line.lstrip().startswith("--"):
                continue
            for tok in TOKEN.findall(line):
                if CAMEL.search(tok) and re.match(r"[a-z]", tok):
                    camel.add(tok)
            m = DEF.match(line)
            if m and not is_answer(p) and (not m.group(1) or "pub" in m.group(2) or len(m.group(1)) == 2):
                defined.add(m.group(3))
            m = CON.match(line)
            if m and not is_answer(p):
                defined |= set(m.group(1).split())
    known = {snake(n) for n in defined if "-" not in n}
    for f in ["Prelude", "Common"]:
        for p in glob.glob(f"{KIT}/**/{f}.antt", recursive=True):
            for names in re.findall(r"\{([^}]*)\}", read(p)):
                known |= {n.strip().split(" as ")[-1] for n in names.split(",")}
    plain = set("is at of to in by as on up no or and the a from for past over under until only same whole both each all one two none no_more below above before after has one_more more less right left".split())
    known -= plain

    routines = set()
    for p in glob.glob("crates/*/src/**/*.rt", recursive=True):
        routines |= set(re.findall(r"\bfn (\w+)", read(p)))

    def dashes(name):
        if "-" not in name.strip("-") or not re.match(r"[a-z]", name):
            return name
        if name.replace("-", "_") in routines:
            return name.replace("-", "_")
        parts = name.split("-")
        out = parts[0]
        for part in parts[1:]:
            joined = "-" if part in known or (part and not re.match(r"[a-z]", part)) else "_"
            out += joined + part
        return out

    turn = {t: snake(t) for t in camel}
    for n in defined:
        if re.match(r"[a-z]", n) and "-" in n:
            turn[n] = dashes(snake(n))
    for n in list(turn):
        turn[n] = dashes(turn[n]) if n in defined else turn[n]
    turn = {a: b for a, b in turn.items() if a != b}

    # Where two names of a file would fall together, one with a dash keeps it; no other two may.
    sources = sorted(glob.glob("crates/*/src/**/*.rt", recursive=True))
    NAME = re.compile(r"(?<![.])" + TOKEN.pattern + r"(?!\.)")

    def together():
        found = set()
        for p in files + sources:
            mark = "//" if p.endswith(".rt") else "--"
            seen = {}
            for line in (texts[p] if p in texts else read(p)).split("\n"):
                if line.lstrip().startswith(mark):
                    continue
                for m in NAME.finditer(line):
                    tok = m.group(0)
                    field = line[m.end() : m.end() + 3] == " = " and m.start() > 4
                    if field or (p.endswith(".rt") and tok not in turn and not re.search(rf"\b{re.escape(tok)}: ", line)):
                        continue
                    new = turn.get(tok, tok)
                    if seen.setdefault(new, tok) != tok:
                        found.add((p, tok, seen[new]))
        return found

    for p, a, b in sorted(together()):
        for n in (a, b):
            if "-" in n and n in turn:
                turn[n] = snake(n) if snake(n) != n else n
    turn = {a: b for a, b in turn.items() if a != b}
    for (p, n), new in LEM.items():
        texts[p] = re.sub(rf"(?<![\w.-]){n}(?![\w-])", new, texts[p])
    left = {x for x in together() if x not in BOTH}
    for p, a, b in sorted(left):
        print(f"respell: {p}: {a} and {b} fall together", file=sys.stderr)
    if left and "--force" not in sys.argv:
        raise SystemExit(1)

    # The pages still have the names from before port.py too: a name that has no meaning any more is the one it was turned to.
    names = {turn.get(n, n) for n in defined}
    alike = {}
    for n in names:
        alike.setdefault(n.replace("-", "_"), set()).add(n)

    def now(tok):
        tok = turn.get(tok, tok)
        same = alike.get(snake(tok).replace("-", "_"), set())
        return next(iter(same)) if tok not in names and len(same) == 1 else tok

    def code(text):
        return TOKEN.sub(lambda m: turn.get(m.group(0), m.group(0)), text)

    def prose(text):
        text = re.sub(r"`[^`\n]*`", lambda m: code(m.group(0)), text)
        return TOKEN.sub(lambda m: turn.get(m.group(0), m.group(0)) if m.group(0) in camel else m.group(0), text)

    def page(text):
        return re.sub(r"`[^`\n]*`", lambda m: TOKEN.sub(lambda n: now(n.group(0)), m.group(0)), text)

    def turned(path, text):
        comment = "--" if path.endswith(".antt") else "//"
        out = []
        for line in text.split("\n"):
            if path.endswith(".md"):
                out.append(page(line))
            elif line.lstrip().startswith(comment) or (path.endswith(".edit") and line.startswith("#")):
                out.append(prose(line))
            elif comment + " " in line:
                at = line.index(comment + " ")
                out.append(code(line[:at]) + prose(line[at:]))
            else:
                out.append(code(line))
        return "\n".join(out)

    pages = glob.glob("docs/*.md") + ["README.md"]
    edits = glob.glob("crates/*/must-fail/*.edit") + glob.glob("crates/*/trials/*.edit")
    for p in files + sources + edits + pages:
        text = read(p)
        new = turned(p, texts.get(p, text))
        if new != text:
            with open(p, "w", encoding="utf-8") as f:
                f.write(new)
    for a in sorted(turn):
        print(f"{a} {turn[a]}")


main()
