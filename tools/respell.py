#!/usr/bin/env python3
"""Respells this repository's own definitions and lemmas as today's Rattle spells them: lower camel case and dashes become snake case.

usage: python3 tools/respell.py [--dry]     at the top of the repository, once, right after port.py

It takes every name that an .antt file of crates/ defines or binds and that has a capital or a dash in it, and writes it anew in .antt files,
in the clauses, `ghost use` lines and comments of .rt files, and between backquotes in README and docs/. Types, modules, functions of src/,
names of the library and the goals that the checker names keep their spelling. Where two names would fall together, OTHER says what is written.
"""
import collections
import os
import re
import sys

DRY = "--dry" in sys.argv
TOKEN = re.compile(r"[A-Za-z_\u0370-\u03ff\u2115\u2124\u25cc][\w'\u2115\u2124\u2080-\u2089\u25cc-]*")
OWN = re.compile(r"^\s*(?:pub |ghost )?use Rattle\.(?!std\b|core\b|io\b|libc\b)")
USE = re.compile(r"^\s*(?:pub )?(?:ghost )?use ([\w.·+'-]+)\.\{([^}]*)\}", re.M)
SIGNATURE = re.compile(r"^\s*(?:(?:pub|abbrev|unfoldable)\s+)*((?:[^\s():{}=]+\s+)*[^\s():{}=]+)\s+:\s", re.M)
BINDER = re.compile(r"[({]\s*((?:[^\s(){}:=,]+\s+)*[^\s(){}:=,]+)\s+:\s")
LAMBDA = re.compile(r"λ\s+((?:[^\s(){}:=,.]+\s+)*[^\s(){}:=,.]+)\.")
LET = re.compile(r"\blet\s+([^\s():=]+)\s+[:=]")
# written by hand, where the plain snake case would fall together with another name
OTHER = {
    "add-all": "add_all_lem",
    "add-one": "add_one_lem",
    "go-round": "go_round_lem",
    "end_after": "end_after_lem",
    "end_before": "end_before_lem",
    "step_down": "step_down_lem",
    "told_more": "told_more_lem",
    "wrong_byte": "is_wrong_byte",
    "left-of": "left_of_it",
    "oneMore": "one_more_turn",
}


def files(root, *endings):
    for folder, dirs, names in os.walk(root):
        dirs[:] = sorted(d for d in dirs if d not in ("out", ".git"))
        for n in sorted(names):
            if n.endswith(endings):
                yield os.path.join(folder, n)


def read(path):
    with open(path, encoding="utf-8") as f:
        return f.read()


def code(text):
    """The text of an .antt file without its comments."""
    return re.sub(r"(?m)(^|\s)--(\s.*)?$", r"\1", text)


def odd(name):
    return bool(re.match(r"[a-z]", name)) and bool(re.search(r"[A-Z]|-", name))


def snake(name):
    s = re.sub(r"(?<=[a-z0-9'])([A-Z])", r"_\1", name)
    return s.lower().replace("-", "_")


def bound(text):
    """The names that a text defines or binds."""
    found = set()
    for pattern in (SIGNATURE, BINDER, LAMBDA, LET):
        for m in pattern.finditer(text):
            found |= set(m.group(1).split())
    return found


def imported(text, own):
    found = set()
    for m in USE.finditer(text):
        ours = bool(OWN.match(m.group(0).strip()))
        if ours == own:
            found |= {w.strip().split(" as ")[0].strip() for w in m.group(2).split(",")} - {""}
    return found


def goals(text):
    """The names in a proof of a function that the checker gave: they are typed by its own module."""
    return {m.group(1) for m in re.finditer(r"(?m)^\s*(?:(?:pub|abbrev|unfoldable)\s+)*(\S+)\s+:\s+(?:\{[^}]*\}\s*→\s*)?(?:tie|goal)\.", text)}


def main():
    antt = {p: read(p) for p in files("crates", ".antt")}
    plain = {p: code(t) for p, t in antt.items()}
    defined = set()
    for p, t in plain.items():
        defined |= {w for w in bound(t) if odd(w)} - goals(t)
    turned = {w: OTHER.get(w, snake(w)) for w in sorted(defined)}
    everywhere = collections.defaultdict(set)
    for p, t in plain.items():
        for m in TOKEN.finditer(t):
            everywhere[m.group()].add(p)
    rust = set()
    for p in files("crates", ".rt"):
        body = re.sub(r"//.*", "", read(p))
        body = re.sub(r"(?m)^\s*(ghost|requires|ensures)\b.*$", "", body)
        rust |= set(TOKEN.findall(body))
    backwards = collections.defaultdict(list)
    for w, n in turned.items():
        backwards[n].append(w)
    # a definition and the lemma about it: the lemma gets `_lem`
    for n, ws in list(backwards.items()):
        if len(ws) == 2 and sum("-" in w for w in ws) == 1:
            lemma = next(w for w in ws if "-" in w)
            turned[lemma] = n + "_lem"
            backwards[n] = [w for w in ws if w != lemma]
            backwards[n + "_lem"].append(lemma)
    turned.update({w: n for w, n in OTHER.items() if not odd(w)})
    for n, ws in sorted(backwards.items()):
        if len(ws) > 1:
            print("together:", n, "from", ws)
        if n in everywhere:
            shared = [p for w in ws for p in everywhere[w] & everywhere[n]]
            print("there:", n, "from", ws, "already in", len(everywhere[n]), "files, beside it in", len(set(shared)), sorted(set(shared))[:2])
        elif n in rust:
            print("rust:", n, "from", ws)
    print("names:", len(turned))
    if DRY:
        return
    for p, t in antt.items():
        kept = (imported(t, False) | goals(plain[p]))
        def put(m):
            w = m.group()
            return turned[w] if w in turned and w not in kept else w
        new = []
        for line in t.split("\n"):
            c = re.search(r"(^|\s)--(\s|$)", line)
            head, tail = (line, "") if not c else (line[:c.start()], line[c.start():])
            head = re.sub(r"[\w\u25cc\u0370-\u03ff\u2115\u2124'\u2080-\u2089-]+", lambda m: put(m), head)
            tail = re.sub(r"\b[a-z]+[0-9]*[A-Z]\w*", lambda m: put(m), tail)
            tail = re.sub(r"`([^`]+)`", lambda m: "`" + TOKEN.sub(lambda k: put(k), m.group(1)) + "`", tail)
            new.append(head + tail)
        new = "\n".join(new)
        if new != t:
            with open(p, "w", encoding="utf-8") as f:
                f.write(new)
    for p in files("crates", ".rt"):
        t = read(p)
        kept = imported(t, False)
        def put(m):
            w = m.group()
            return turned[w] if odd(w) and w in turned and w not in kept else w
        new = TOKEN.sub(put, t)
        if new != t:
            with open(p, "w", encoding="utf-8") as f:
                f.write(new)
    pages = [p for p in ("README.md", "CONTRIBUTING.md") if os.path.exists(p)] + [p for p in files("docs", ".md")]
    for p in pages:
        t = read(p)
        new = re.sub(r"`([^`\n]+)`", lambda m: "`" + TOKEN.sub(lambda k: turned.get(k.group(), k.group()), m.group(1)) + "`", t)
        if new != t:
            with open(p, "w", encoding="utf-8") as f:
                f.write(new)


if __name__ == "__main__":
    main()
