#!/usr/bin/env python3
"""Brings the repository's own definitions and lemmas to today's spelling: words in snake case, a dash only where a lemma's name is two names or more.

usage: python3 tools/spelling.py            renames by the table tools/spelling.tsv (old, tab, new), once, right after port.py
       python3 tools/spelling.py --table    writes that table anew from the tree as port.py left it

Turned are the code of crates/**/*.antt, the clauses and `ghost use` items of crates/**/*.rt, and names in comments; in the pages only what stands in backticks.
Functions of src/, exported names, strings, inputs and outputs keep their names. A second run changes nothing.
"""
import os
import re
import sys

ROOT = os.path.dirname(os.path.dirname(os.path.abspath(__file__)))
TABLE = os.path.join(ROOT, "tools", "spelling.tsv")
WORD = r"[^\s(){}.;,@\"«»\[\]\\`]+"
# words of the library that a lemma's name may be made of
LIBRARY = set("""length take drop append map replicate set get_or get cond min max and or not sum concat reverse zip add sub mul div mod suc zero head tail
    bit_and bit_or bit_xor shl shr pow pos neg_suc to_bits of_bits round le lt eq abs fin inf nan finite neg fold build scan cons nil leb ltb eqb""".split())
# where the plain rule would take a name that stands already
BY_HAND = {"isTrue": "true_is"}


def snake(name):
    name = re.sub(r"(?<=[a-z0-9'])([A-Z])(?=[a-z])", lambda m: "_" + m.group(1).lower(), name)
    return re.sub(r"(?<=[a-z0-9])([A-Z]+)", lambda m: "_" + m.group(1).lower(), name)


def sources():
    for folder, dirs, files in os.walk(os.path.join(ROOT, "crates")):
        dirs[:] = sorted(d for d in dirs if d != "out")
        for f in sorted(files):
            if f.endswith((".antt", ".rt")):
                yield os.path.join(folder, f)


def code(text):
    return re.sub(r"--[^\n]*", "", text)


def make_table():
    texts = {p: open(p, encoding="utf-8").read() for p in sources()}
    antt = {p: code(t) for p, t in texts.items() if p.endswith(".antt")}
    camel, tokens = set(), {}
    for p, t in antt.items():
        tokens[p] = set(re.findall(WORD, t))
        camel |= {k for k in tokens[p] if re.match(r"^[a-zα-ω][\wα-ω']*$", k) and re.search(r"[a-z0-9][A-Z]", k)}
    defined, lemmas, made = set(), set(), set()
    for p, t in antt.items():
        for line in t.split("\n"):
            m = re.match(r"^\s*(?:(?:abbrev|unfoldable|pub|record|data) )*(%s)(?: [({].*)? :( |$)(.*)" % WORD, line)
            if not m or line.startswith("use "):
                continue
            name = m.group(1)
            if m.group(3).startswith("tie.") or re.search(r"\btie\.", line):
                made.add(name)
            elif "/specs/" in p:
                defined.add(name)
            elif "-" in name:
                lemmas.add(name)
            elif re.match(r"^\s*(?:abbrev|unfoldable) ", line):
                defined.add(name)
    kit = set()
    for t in antt.values():
        for m in re.finditer(r"use ([\w.'·]+)\.\{([^}]*)\}", t):
            if not re.match(r"Rattle\.(?!std)", m.group(1)):
                kit |= {x.split(" as ")[0].strip() for x in m.group(2).split(",")}
    known = {BY_HAND.get(n, snake(n)) for n in defined} | LIBRARY
    new = {k: BY_HAND.get(k, snake(k)) for k in camel}
    taken = {new.get(n, n) for n in defined | camel}

    def segments(parts):
        """the fewest names that these parts are, or None"""
        best = None
        for i in range(len(parts), 0, -1):
            if "_".join(parts[:i]) in known:
                rest = segments(parts[i:]) if i < len(parts) else []
                if rest is not None and (best is None or len(rest) + 1 < len(best)):
                    best = ["_".join(parts[:i])] + rest
        return best

    for name in sorted(lemmas):
        if name in kit or name in made or re.search(r"-(requires|spec)(-\d+)?$", name) or not re.match(r"^[a-z][\w'-]*$", name):
            continue
        parts = name.split("-")
        out = "-".join(segments(parts) or ["_".join(parts)])
        if out != name:
            new[name] = out
    # no two may fall together, nor with what stands in a file that has the old name
    lower = {}
    for old in sorted(new, key=lambda o: (o in lemmas, o)):
        it = new[old]
        here = [p for p in tokens if old in tokens[p]]
        clash = it in lower and lower[it] != old or it in kit
        if old in lemmas:
            clash = clash or it in taken or any(it in tokens[p] for p in here)
        if clash:
            new[old] = it = it + "_lem"
            if it in lower or any(it in tokens[p] for p in tokens):
                del new[old]
                continue
        lower[it] = old
    # a lemma that port.py gave the name that a definition takes now
    for p, t in antt.items():
        for line in t.split("\n"):
            m = re.match(r"^\s*(?:pub )?(%s)(?: [({].*)? :( |$)" % WORD, line)
            if m and "/proofs/" in p and m.group(1) in {new[c] for c in camel} and not re.search(r"\btie\.", line) and m.group(1) not in new:
                new[m.group(1)] = m.group(1) + "_lem"
    with open(TABLE, "w", encoding="utf-8") as f:
        for old in sorted(new):
            f.write(f"{old}\t{new[old]}\n")
    print(f"{len(new)} names: {len(camel)} in camel case, {len(new) - len(camel)} lemmas")


def rows():
    with open(TABLE, encoding="utf-8") as f:
        return dict(line.rstrip("\n").split("\t") for line in f if line.strip())


def turn():
    new = rows()
    # a lemma takes `_lem` where a definition takes its name: once, while the definitions still have their old names
    camel = {o for o in new if re.search(r"[a-z0-9][A-Z]", o)}
    if not any(camel & set(re.findall(WORD, code(open(p, encoding="utf-8").read()))) for p in sources() if p.endswith(".antt")):
        print("every name is in today's spelling")
        return
    plain = {o for o in new if "-" not in o and new[o].endswith("_lem")}
    changed = 0
    for p in sources():
        text = open(p, encoding="utf-8").read()
        antt = p.endswith(".antt")

        def word(m):
            w = m.group(0)
            if w in plain:
                # by its field's or goal's name only where no dot stands before it
                return new[w] if antt and text[m.start() - 1 : m.start()] not in (".", "«") and here(w) else w
            if w not in new or (not antt and "-" in w):
                return w
            return new[w]

        def here(w):
            return bool(re.search(r"(?m)^\s*(?:pub )?%s(?: [({].*)? :" % re.escape(w), text)) or bool(re.search(r"use [\w.']+\.proofs\.[\w.']+\.\{[^}]*(?<![\w-])%s(?![\w-])" % re.escape(w), text))

        out = []
        at = 0
        quiet = r"--[^\n]*" if antt else r"//[^\n]*|b?\"(?:\\.|[^\"\\])*\"|b?'(?:\\.|[^'\\])'"
        for m in re.finditer(quiet, text):
            out.append((text[at : m.start()], at, True))
            out.append((m.group(0), m.start(), False))
            at = m.end()
        out.append((text[at:], at, True))
        s = ""
        for piece, start, live in out:
            if live:
                base = start
                s += re.sub(WORD, lambda m: word(Shifted(m, base)), piece)
            elif piece.startswith(("--", "//")):
                piece = re.sub(r"`(%s)`" % WORD, lambda m: "`" + (m.group(1) if m.group(1) in plain else new.get(m.group(1), m.group(1))) + "`", piece)
                s += re.sub(WORD, lambda m: new[m.group(0)] if m.group(0) in new and re.search("[a-z0-9][A-Z]", m.group(0)) else m.group(0), piece)
            else:
                s += piece
        if s != text:
            open(p, "w", encoding="utf-8").write(s)
            changed += 1
    for folder, dirs, files in os.walk(ROOT):
        dirs[:] = sorted(d for d in dirs if d not in (".git", "crates", "target", "out"))
        for f in files:
            if f.endswith(".md"):
                p = os.path.join(folder, f)
                text = open(p, encoding="utf-8").read()
                s = re.sub(r"`(%s)`" % WORD, lambda m: "`" + (m.group(1) if m.group(1) in plain else new.get(m.group(1), m.group(1))) + "`", text)
                if s != text:
                    open(p, "w", encoding="utf-8").write(s)
                    changed += 1
    print(f"{changed} files changed")


class Shifted:
    """a match with its place in the whole text"""

    def __init__(self, m, base):
        self.m, self.base = m, base

    def group(self, n):
        return self.m.group(n)

    def start(self):
        return self.m.start() + self.base


if __name__ == "__main__":
    make_table() if "--table" in sys.argv[1:] else turn()
