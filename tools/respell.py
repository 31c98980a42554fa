#!/usr/bin/env python3
"""Spells the repository's own definitions and lemmas in snake case, once, after /opt/rattle/port/port.py: words of a name are joined by '_'
and no longer by '-' or a capital, as row_at of row-at and fault_at of faultAt. A part of a name that begins with a capital is a type's or a
fact's name and stays. Functions of src/, strings, inputs, outputs and file names are not touched, nor names that a file takes from the kit.

usage: tools/respell.py [--list] FOLDER       --list prints the renamings and what falls together, and writes nothing
"""
import os
import re
import sys

TOKEN = re.compile(r"[^\s(){}.;,@\"«»:`\[\]|\\λ]+")
DECLARED = re.compile(r"^(\s*)((?:(?:pub|abbrev|unfoldable|record|data|private) )*)([^\s(){}.;,@\"«»:]+)((?: \{[^{}\n]*\})*(?: \([^()\n]*\))*) :(?= |$)")
OWN = re.compile(r"^(?:pub )?use Rattle\.(\w+)\.")
USE = re.compile(r"^\s*(?:pub )?use ([^\s{;]+?)(?:\.\{([^}]*)\})?\s*(?:as \S+)?\s*$", re.M)
GHOST_USE = re.compile(r"ghost\s+use\s+([^\s{;]+?)(?:\.\{([^}]*)\})?\s*;", re.S)
# what Rattle names itself: it stays behind a dot in a proof of a function
MADE = re.compile(r"^(loop|if|in|match|returns|same|no|while|for|short|join|stack)(\d|-|$)")


# a field beside a field of Rust's `Counts` that would have its name
# and the row that stands for none, beside fields and cases called `no_row`
ALSO = {"pairs-at": "pairs_at_lem", "rows-at": "rows_at_lem", "noRow": "blank_row"}


def snake(name):
    out = []
    for part in name.split("-"):
        part = part.replace("getD", "get_or").replace("getd", "get_or")
        if not part[:1].isupper():
            part = re.sub(r"(?<=[a-z0-9₀-₉])([A-Z]+)", lambda m: "_" + m.group(1).lower(), part)
        out.append(part)
    return "_".join(out)


def texts(top):
    for folder, dirs, files in os.walk(top):
        dirs[:] = sorted(d for d in dirs if d not in ("out", ".git", "target"))
        for f in sorted(files):
            yield os.path.join(folder, f)


def walked(path):
    """A proof of one function, whose answers have names that Rattle makes."""
    return path.endswith(("/Proof.antt", "/Answers.antt", "/Invariants.antt"))


def main():
    listing = "--list" in sys.argv
    top = [a for a in sys.argv[1:] if a != "--list"][0]
    crates = set(os.listdir(os.path.join(top, "crates")))
    sources = {}
    for p in texts(os.path.join(top, "crates")):
        if p.endswith((".antt", ".rt", ".edit")):
            with open(p, encoding="utf-8") as f:
                sources[p] = f.read()
    own, foreign, tokens = {}, {}, {}
    for p, t in sources.items():
        kit = set()
        for use in (USE if p.endswith(".antt") else GHOST_USE).finditer(t):
            path, names = use.group(1), use.group(2)
            first = path.split(".")
            if first[0] == "Rattle" and len(first) > 1 and first[1] in crates:
                continue
            if names is None:
                kit.add(first[-1])
            else:
                kit.update(n.split(" as ")[0].strip() for n in re.split(r",\s*", names))
        foreign[p] = kit
        if p.endswith(".antt"):
            for line in t.split("\n"):
                if line.lstrip().startswith("--"):
                    continue
                m = DECLARED.match(line)
                if m and not re.search(r": (tie|goal)\.", line):
                    own.setdefault(m.group(3), set()).add(p)
        tokens[p] = set(TOKEN.findall(t))
    groups = {}
    for name in own:
        if "◌" not in name and not name.startswith(("_", "-")):
            groups.setdefault(snake(name), set()).add(name)
    table, local = {}, {}
    for new, names in groups.items():
        # where names fall together, the definition, whose name has capitals, is first: a lemma beside it gets `_lem`
        first = sorted(names, key=lambda x: ("-" in x, x == new, x))[0]
        for name in sorted(names):
            to = new if name == first else new + "_lem"
            if name == new and to != new:
                # spelled so already: it turns in the files that declare it or bring it in, and never behind a dot
                local[name] = to
            elif to != name:
                table[name] = to
    table.update(ALSO)
    local.pop("no_row", None)
    holders = {}
    for p, t in sources.items():
        if p.endswith(".antt"):
            holders[p] = {n for n in local if p in own[n]}
            for use in USE.finditer(t):
                if use.group(2) and use.group(1).split(".")[0] == "Rattle" and use.group(1).split(".")[1] in crates:
                    names = {n.split(" as ")[0].strip() for n in re.split(r",\s*", use.group(2))}
                    path = "crates/" + "/".join(use.group(1).split(".")[1:]) + ".antt"
                    holders[p] |= {n for n in names if n in local and any(q.endswith(path) for q in own[n])}
    # what falls together: a new name that a file with the old one has already
    clash = []
    for p, ts in tokens.items():
        seen = {}
        for x in ts:
            if x in table and x not in foreign[p]:
                y = table[x]
                if y in holders.get(p, ()):
                    continue
                if y in foreign[p] or p.endswith(".antt") and re.search(r"(?m)^(?!\s*--)(?!(?:pub )?use ).*(?<![\w.-])" + re.escape(y) + r"(?![\w'-])", sources[p]):
                    clash.append((p, x, y))
                if y in seen:
                    clash.append((p, x + " and " + seen[y], y))
                seen[y] = x
    if listing:
        for a in sorted(table):
            print(a, table[a])
        for n in local:
            print(n, local[n], *[p for p in holders if n in holders[p]])
        for c in clash:
            print("falls together:", *c)
        return
    if clash:
        for c in clash:
            print("falls together:", *c)
        raise SystemExit(1)
    for p, t in sources.items():
        stay = foreign[p]

        def turn(m):
            x = m.group(0)
            if x in holders.get(p, ()) and t[m.start() - 1] != ".":
                return local[x]
            if x in stay or x not in table:
                return x
            if walked(p) and MADE.match(x) and t[m.start() - 1] == ".":
                return x
            return table[x]

        if p.endswith(".rt"):
            parts = re.split(r'(b?"(?:\\.|[^"\\])*")', t)
            new = ""
            for i, part in enumerate(parts):
                if i % 2:
                    new += part
                else:
                    base = part
                    new += TOKEN.sub(lambda m: table[m.group(0)] if m.group(0) in table and m.group(0) not in stay else m.group(0), base)
        else:
            new = TOKEN.sub(turn, t)
        if new != t:
            with open(p, "w", encoding="utf-8") as f:
                f.write(new)
    # names in the pages' code spans
    pages = [os.path.join(top, "README.md")] + [p for p in texts(os.path.join(top, "docs")) if p.endswith(".md")]
    for p in pages:
        with open(p, encoding="utf-8") as f:
            t = f.read()
        new = re.sub(r"`[^`\n]*`", lambda m: TOKEN.sub(lambda n: table.get(n.group(0), n.group(0)), m.group(0)), t)
        if new != t:
            with open(p, "w", encoding="utf-8") as f:
                f.write(new)


main()
