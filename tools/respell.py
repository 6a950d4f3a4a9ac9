#!/usr/bin/env python3
"""Gives the repository's own definitions and lemmas the spelling of today's Rattle.

usage: python3 tools/respell.py [--list]     at the top of the repository, once, after the kit's own script

Types, and what answers a Type, are in upper camel case. Everything else that specs/ and proofs/ define is in snake case.
Names of src/, of goals and of the library stay as they are. --list prints the names and changes nothing.
"""
import collections
import glob
import re
import sys

NAME = r"[^\s(){}.,;:\[\]◌]+"
TOKEN = re.compile(r"(?<![\w'′-])[^\W\d][\w'′-]*(?![\w'′-])")
SIGNATURE = re.compile(r"^(\s*)((?:pub |abbrev |unfoldable |record |data |ruleset )*)(" + NAME + r")(?: [^:]*)? : ?(.*)$")
SKIP = re.compile(r"^\s*(use |mod |pub mod |--|ghost |where|let |in |[=∙])")
# names that a rule by spelling alone would bring together with another, or with a name of the library
BY_HAND = {
    "step-of": "step_of_word",
    "after-words": "after_words_kept",
}
# a name that the kit's script brought together with a function of src/ that means something else: by crate
APART = {
    "crates/lines/": {"first_word": "blanks_length"},
}


def files():
    specs = glob.glob("crates/*/specs/*.antt")
    proofs = glob.glob("crates/*/proofs/**/*.antt", recursive=True)
    return sorted(specs + proofs)


def snake(name):
    name = name.replace("-", "_")
    name = re.sub(r"([a-z0-9])([A-Z])", lambda m: m[1] + "_" + m[2].lower(), name)
    return name[0].lower() + name[1:]


def camel(name):
    return "".join(p[0].upper() + p[1:] for p in re.split(r"[-_]", name))


def signature(lines, i):
    """The signature that begins in this line, with the lines that go on with it."""
    text = lines[i]
    depth = len(text) - len(text.lstrip())
    for l in lines[i + 1 : i + 6]:
        if l.strip() and len(l) - len(l.lstrip()) > depth and l.strip()[0] in "→×":
            text += " " + l.strip()
        else:
            break
    return text


def names():
    found = collections.OrderedDict()
    for f in files():
        with open(f, encoding="utf-8") as it:
            lines = it.read().splitlines()
        for i, l in enumerate(lines):
            m = SIGNATURE.match(l)
            if not m or SKIP.match(l) or "=" in l.split(" : ")[0]:
                continue
            name, text = m[3], signature(lines, i)
            if re.search(r": goal\.", text) or not re.match(r"[^\W\d]", name):
                continue
            is_type = "record" in m[2] or "data" in m[2] or re.search(r"(→|:) Type 0\s*$", text.split(" where")[0].split(" = ")[0].rstrip())
            to = camel(name) if is_type else snake(name) if re.search(r"-|[a-z0-9][A-Z]", name) and name[0].islower() else name
            if to != name:
                found.setdefault(name, set()).add((to, f))
    return found


def library_names(texts):
    used = set()
    for t in texts.values():
        for m in re.finditer(r"use ([\w.]+)\.\{([^}]*)\}", t):
            if not m[1].startswith("Rattle.") or m[1].startswith("Rattle.std"):
                used |= {w.strip().split(" as ")[-1] for w in m[2].split(",")}
    return used


def turn_rt(text, turn):
    """Ghost lines and the braces of clauses; the code stays."""
    out, ghost = [], False
    for l in text.splitlines(keepends=True):
        s = l.strip()
        starts = re.match(r"(ghost|requires|ensures)\b", s)
        ghost = bool(starts) or (ghost and not out[-1].rstrip().endswith(("}", ";")) and not s.startswith(("{", "fn ", "pub ")))
        out.append(TOKEN.sub(turn, l) if ghost else l)
    return "".join(out)


def main(argv):
    found = names()
    texts = {f: open(f, encoding="utf-8").read() for f in files() + sorted(glob.glob("crates/*/src/*.rt"))}
    library = library_names(texts)
    table = {}
    for name, seen in found.items():
        to = {t for t, _ in seen}
        if name in BY_HAND:
            to = {BY_HAND[name]}
        if len(to) > 1:
            print(f"look: {name} has the spellings {sorted(to)}: {[f for _, f in seen]}")
        if name in library:
            print(f"look: {name} is a name of the library too: {[f for _, f in seen]}")
            continue
        table[name] = sorted(to)[0]
    for to in {t for t in table.values()}:
        both = [n for n, t in table.items() if t == to]
        if len(both) > 1:
            print(f"look: {both} fall together as {to}")
    for name, to in table.items():
        for f, t in texts.items():
            words = set(TOKEN.findall(t))
            if name in words and to in words and f.endswith(".antt"):
                print(f"look: {name} and {to} both stand in {f}")
    if "--list" in argv:
        for name, to in sorted(table.items()):
            print(f"{name} {to}")
        return 0
    for f, t in texts.items():
        apart = next((a for c, a in APART.items() if f.startswith(c)), {})
        turn = lambda m: apart.get(m[0]) or table.get(m[0], m[0])
        new = turn_rt(t, turn) if f.endswith(".rt") else TOKEN.sub(turn, t)
        if new != t:
            with open(f, "w", encoding="utf-8") as it:
                it.write(new)
    print(f"{len(table)} names respelled")
    return 0


if __name__ == "__main__":
    raise SystemExit(main(sys.argv[1:]))
