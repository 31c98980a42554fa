#!/usr/bin/env python3
"""Turns the proofs of functions of an older Rattle, proofs/F/Proof.antt with a goal each (`tie.Need-X`), into today's Answers.antt and Invariants.antt.
It goes by the list of old and new names that `rt check --generated FOLDER --old-names` writes, and leaves what only says `search rules` to the check.

usage: tools/answers.py CRATE [FUNCTION..]      at the top of the repository, once a crate's libraries are built
"""
import json
import os
import re
import subprocess
import sys
import tempfile


def blocks(text):
    """The declarations of a file: runs of lines that begin at the margin, with the comments above them."""
    out, now = [], []
    for line in text.split("\n"):
        if not line.strip():
            now.append(line)
            continue
        if line[0] not in " )" and now and any(x.strip() for x in now) and not now[-1].strip():
            out.append(now)
            now = []
        now.append(line)
    if any(x.strip() for x in now):
        out.append(now)
    return ["\n".join(b).strip("\n") for b in out]


class Names:
    def __init__(self, record):
        self.needs = {old: (new, place) for (old, new), place in zip(record["needs"], record["asked_at"])}
        self.new_needs = {new: (new, place) for (old, new), place in zip(record["needs"], record["asked_at"])}
        self.settled = set(record["settled"])
        self.places, self.callees = {}, {}
        for name, parent, step, callee, extra in record["places"]:
            self.places[name] = (parent, step)
            self.callees[name] = callee
        self.loops = record["loops"]
        self.record = record

    def path(self, place, befores):
        for _ in range(befores):
            if place is None or place not in self.places:
                return None
            place = self.places[place][0]
        return place


def alike(x):
    return x.replace("-", "_")


WORD = re.compile(r"[^\s(){}.;,@\"«»\[\]|]+")
PATH = re.compile(r"(?<![\w.'₀])c((?:\.[^\s(){},;.]+)+)")
FIXED = ("args", "requires", "ranges", "type_inv", "utf8", "auto")


def flat(names, place, text, said, label):
    """The body of an answer with its paths into `c` as today's record has them."""
    # a name for a part of the path
    for _ in range(20):
        m = re.search(r"let ([^\s:=]+) = (c(?:\.before)*) in\s*", text)
        if not m:
            break
        alias, is_ = m.group(1), m.group(2)
        text = text[: m.start()] + re.sub(r"(?<![\w.'₀-])" + re.escape(alias) + r"(?=\.)", is_, text[m.end():])

    chain = []
    at = place
    while at is not None and at in names.places:
        chain.append(at)
        at = names.places[at][0]

    def one(m):
        parts = m.group(1)[1:].split(".")
        k = 0
        while k < len(parts) and parts[k] == "before":
            k += 1
        rest = parts[k:]
        if not rest:
            said.append(f"{label}: path {m.group(0)} at {place}")
            return m.group(0)
        f = rest[0]
        if f in FIXED:
            return "c." + ".".join(rest)
        # the step of that name nearest to where the path pointed
        fits = [i for i, w in enumerate(chain) if alike(names.places[w][1][0]) == alike(f)]
        if not fits and alike(f).endswith("_lem"):
            fits = [i for i, w in enumerate(chain) if alike(names.places[w][1][0]) == alike(f)[:-4]]
        if not fits:  # a number that kept it apart from another field
            fits = [i for i, w in enumerate(chain) if alike(names.places[w][1][0]) == re.sub("[0-9]+$", "", alike(f))]
        if fits:
            i = min(fits, key=lambda i: abs(i - k))
            # what a `&mut` argument holds after a call, by the parameter's name
            if len(rest) > 2 and rest[1] in ("new", "auto") and rest[2] in ("0", "1"):
                given = names.record["params"].get(names.callees.get(chain[i]))
                n = 2
                while n < len(rest) and rest[n] == "1":
                    n += 1
                if given and n < len(rest) and rest[n] == "0" and n - 2 < len(given):
                    rest = rest[:2] + [given[n - 2]] + rest[n + 1:]
            # what was known of a matched value is the equation of the arm that it stands in
            if rest[1:3] == ["given", "1"]:
                arm = names.places[chain[i]][0]
                while arm is not None and not names.places[arm][1][1].startswith("in"):
                    arm = names.places[arm][0]
                if arm is not None:
                    return "c." + ".".join([names.places[arm][1][1], "is"] + rest[3:])
            return "c." + ".".join([names.places[chain[i]][1][1]] + rest[1:])
        # a loop's own step stands under its test's
        for old, new in names.loop_names:
            if old == f:
                return "c." + ".".join([new] + rest[1:])
        if k == 0 and any(names.places[w][1][1] == f for w in chain):
            return m.group(0)
        said.append(f"{label}: no step {f}, of {m.group(0)}; steps {[tuple(names.places[w][1]) for w in chain]}")
        return "c." + ".".join(rest)

    text = PATH.sub(one, text)
    # the test of an `if !x` says today what x is
    not_ = r"not-(?:true|false) (?:_|[a-z][^\s(){},;]*) (c\.if-not-[^\s(){},;]+?\.(?:true|false))(?![\w.-])"
    text = re.sub(r"\(" + not_ + r"\)", r"\1", text)
    text = re.sub(not_, r"\1", text)
    text = re.sub(r"(?<![\w.'-])(c\.args\.|c\.loop-[^\s.(){},;]+\.|[abd-z]\.)([a-z][a-z0-9]*(?:-[a-z0-9]+)+)(?![\w-])", lambda m: m.group(1) + alike(m.group(2)), text)
    text = re.sub(r"(c\.wrapping_[^\s.(){},;]+\.ensures)(?![.\w])", r"\1.value", text)
    text = re.sub(r"\.keys[0-9]\b", ".is", text)
    return re.sub(r"(c\.in_default(?:-[^\s.(){},;]+)?)\.rest\b", r"\1.in_default-own.rest", text)


TURNS = {"<": ("lt-ltb", "le-ltb"), "<=": ("le-leb", "lt-leb"), "==": ("eq-eqb", "ne_eqb")}


def compared(crate, fn):
    """The names that a function gives to comparisons of numbers, `let short = a < b;`, with the lemmas that turn their tests into equations of `Bool`s."""
    found = {}
    for file in sorted(os.listdir(os.path.join("crates", crate, "src"))):
        with open(os.path.join("crates", crate, "src", file), encoding="utf-8") as f:
            text = f.read()
        m = re.search(r"\bfn " + re.escape(fn.split("::")[-1].lstrip("+")) + r"\b(.*?)(?=\n(?:pub )?fn |\Z)", text, re.S)
        if not m:
            continue
        for name, term in re.findall(r"let (?:mut )?(\w+) = ([^;]*);", m.group(1)):
            bare = term
            while True:
                less = re.sub(r"\([^()]*\)|\[[^\[\]]*\]", "", bare)
                if less == bare:
                    break
                bare = less
            ops = re.findall(r"(?<![<>=!])(<=|>=|<|>|==|!=)(?![<>=])|([&|])", bare)
            if len(ops) == 1 and ops[0][0] in TURNS:
                found[name] = TURNS[ops[0][0]]
    return found


def turned(term, given):
    """Where the old proof had an equation of `Bool`s, today's step tells the order or the equality itself."""
    used = set()
    for name, (yes, no) in given.items():
        for step, (of_true, of_false) in ((f"c.if-{name}", (yes, no)), (f"c.if-not-{name}", (no, yes))):
            for field, lemma in (("true", of_true), ("false", of_false)):
                at = re.escape(f"{step}.{field}") + r"(?![\w.-])"
                # what turned it back
                term = re.sub(r"\((?:ltb|leb|eqb)-(?:true|false) _ _ (" + at + r")\)", r"\1\0", term)
                term = re.sub(r"(?:ltb|leb|eqb)-(?:true|false) _ _ (" + at + r")", r"\1\0", term)
                if re.search(at + r"(?!\0)", term):
                    used.add(lemma)
                    term = re.sub(r"\((" + at + r")\)", r"\1", term)
                    term = re.sub(r"(" + at + r")(?!\0)", f"({lemma} _ _ \\1)", term)
                term = term.replace("\0", "")
    return term, used


def convert(crate, fn, folder, names, said):
    given = compared(crate, fn)
    turns = set()
    path = os.path.join(folder, "Proof.antt")
    with open(path, encoding="utf-8") as f:
        text = f.read()
    bs = blocks(text)
    head, uses = [], []
    answers, invariants, helpers = [], [], []
    first = True
    for b in bs:
        lines = b.split("\n")
        if first:
            i = 0
            while i < len(lines) and lines[i].startswith("--"):
                head.append(lines[i])
                i += 1
            while i < len(lines) and (lines[i].startswith("use ") or lines[i].startswith("pub use ") or not lines[i].strip()):
                if lines[i].strip():
                    uses.append(lines[i])
                i += 1
            first = False
            rest = "\n".join(lines[i:]).strip("\n")
            if not rest:
                continue
            b = rest
            lines = b.split("\n")
        note = []
        while lines and lines[0].startswith("--"):
            note.append(lines.pop(0))
        b2 = "\n".join(lines)
        if not lines:
            if note:
                helpers.append("\n".join(note))
            continue
        m = re.match(r"(\S+) : tie\.Need-([^\s]+)", lines[0]) or re.match(r"(\S+) :\n\s+tie\.Need-([^\s]+)", b2)
        if m:
            label, old = m.group(1), m.group(2)
            i = 1
            opened = ""
            while i < len(lines) and not re.match(re.escape(label) + r"(\s|$)", lines[i]):
                if lines[i].startswith("unfolding"):
                    opened = lines[i]
                i += 1
            answers.append((label, old, opened, "\n".join(lines[i:]), note))
            continue
        m = re.match(r"(?:abbrev )?(?:pub )?(\S+) : tie\.(invariant|decreases)-(\S+)", lines[0])
        if m:
            label, kind, loop = m.groups()
            i = 1
            opened = ""
            while i < len(lines) and not re.match(re.escape(label) + r"(\s|$)", lines[i]):
                if lines[i].startswith("unfolding"):
                    opened = lines[i]
                i += 1
            invariants.append((label, kind, loop, opened, "\n".join(lines[i:]), note))
            continue
        if re.match(r"(?:pub )?\S+_spec : ", lines[0]) or re.match(r"(?:pub )?\S+-spec : ", lines[0]):
            continue
        helpers.append("\n".join(note + [b2]) if note else b2)
    uses = [u for u in uses if not re.search(r"\.(Statement\.\{statement\}|Tie as tie)$", u)]
    out = []
    for label, old, opened, body, note in answers:
        body_text = body[len(label):]
        m = re.match(r"\s+(c|_)((?: [^\s=]+)*)\s*=\s*", body_text)
        if not m:
            said.append(f"{fn}: form of {label}: {body_text[:60]!r}")
            continue
        term = body_text[m.end():]
        if term.strip() in ("search rules", "search needs"):
            continue
        key = None
        for k, (n, pl) in names.needs.items():
            if alike(old) in (alike(k), "overflow_" + alike(k)):
                key = k
                break
        for k, (n, pl) in names.needs.items():
            if key is None and alike(n) == alike(old):
                key = k
        if key is None:
            for k in names.needs:
                o = alike(old)
                if alike(k) in (re.sub("^(overflow|bounds|nonzero|slice|enum)_", "", o), o.replace("_init", "_holds"), o.replace("_preserved", "_again"), o.replace("_smaller", "_less")):
                    key = k
                    break
        if key is None:
            done = [s for s in names.settled if alike(s) == alike(old)]
            if done:
                continue
            said.append(f"{fn}: no goal for {old}; there are {sorted(names.needs)} settled {sorted(names.settled)}")
            continue
        new, place = names.needs[key]
        more = " ".join(x for x in m.group(2).split() if x not in ("κs", "_"))
        if more:
            new_head = f"{new} c {more}"
        else:
            new_head = f"{new} c"
        term = flat(names, place[0], term, said, f"{fn}.{new}")
        term, more_turns = turned(term, given)
        turns |= more_turns
        out.append("\n".join(note + [f"pub {new} : goal.{new}"] + ([opened] if opened else []) + [f"{new_head} = {term}" if "\n" not in term and "\n" not in body_text[: m.end()] else f"{new_head} =\n    {term.lstrip()}"]))
    inv = []
    for label, kind, loop, opened, body, note in invariants:
        j = body.index("=")
        args, term = body[len(label):j].split(), body[j + 1:]
        new = None
        for old_loop, new_loop in names.loop_names:
            if old_loop == loop:
                new = new_loop
        if new is None:
            said.append(f"{fn}: no loop {loop}: {names.loop_names}")
            new = loop
        # the loop's variables by name
        for a in sorted(args, key=lambda x: -len(x)):
            to = ("l.initial." + a[:-1]) if a.endswith("₀") else "l." + a
            to = to.replace("last-reader", "last_reader").replace("last-writer", "last_writer")
            term = re.sub(r"(?<![^\s(){}.;,])(?<!\.)" + re.escape(a) + r"(?![^\s(){}.;,])", "\0" + to.replace(".", "\1"), term)
        term = term.replace("\0", "").replace("\1", ".")
        inv.append("\n".join(note + [f"abbrev pub {kind}-{new} : goal.{kind}-{new}"] + ([opened] if opened else []) + [f"{kind}-{new} l ={term}"]))
    os.remove(path)
    if turns:
        uses = uses + [f"use borrow.Author.Tests.{{{', '.join(sorted(turns))}}}"]
    # helpers that the invariants cite stand with them
    cited, grows = [], True
    while grows:
        grows = False
        for h in helpers:
            m = re.search(r"^(?:(?:pub|abbrev|unfoldable) )*([^\s(){}:]+) :", h, re.M)
            if m and h not in cited and re.search(r"(?<![^\s(){}.;,])" + re.escape(m.group(1)) + r"(?![^\s(){}.;,])", "\n".join(inv + cited)):
                cited.append(h)
                grows = True
    if cited:
        lent = []
        for i, h in enumerate(cited):
            m = re.search(r"^((?:(?:pub|abbrev|unfoldable) )*)([^\s(){}:]+) :", h, re.M)
            lent.append(m.group(2))
            if "pub" not in m.group(1):
                cited[i] = h[: m.end(1)] + "pub " + h[m.start(2):]
        cited = [c for h in helpers for c in cited if c.replace("pub ", "", 1) == h.replace("pub ", "", 1)]
        helpers = [h for h in helpers if not any(c.replace("pub ", "", 1) == h.replace("pub ", "", 1) for c in cited)]
        inv = cited + inv
        uses.append(f"use Rattle.{crate}.proofs.{fn.replace('::', '.')}.Invariants.{{{', '.join(lent)}}}")
    used = "\n".join(helpers + out)
    if out:
        with open(os.path.join(folder, "Answers.antt"), "w", encoding="utf-8") as f:
            f.write("\n".join(head + prune(uses, used) + [f"use Rattle.{crate}.proofs.{fn.replace('::', '.')}.Goals as goal", ""]) + "\n" + "\n\n".join(helpers + out) + "\n")
    if inv:
        with open(os.path.join(folder, "Invariants.antt"), "w", encoding="utf-8") as f:
            f.write("\n".join((head if not out else head) + [u for u in prune(uses, "\n".join(inv)) if ".Invariants.{" not in u] + [f"use Rattle.{crate}.proofs.{fn.replace('::', '.')}.Given as goal", ""]) + "\n" + "\n\n".join(inv) + "\n")
    elif not out and not os.listdir(folder):
        os.rmdir(folder)


def prune(uses, text):
    """The imports that the text cites."""
    kept = []
    words = set(re.findall(r"[^\s(){}.;,@\"«»\[\]|]+", text))
    for u in uses:
        m = re.match(r"use (\S+?)\.\{(.*)\}$", u)
        if not m:
            kept.append(u)
            continue
        names = []
        for n in m.group(2).split(", "):
            plain = n.split(" as ")[-1].strip()
            bare = plain.replace("◌", "")
            if plain in words or bare in words or (plain.startswith("◌") and bare in text):
                names.append(n)
        if names:
            kept.append(f"use {m.group(1)}.{{{', '.join(names)}}}")
    return kept


def main():
    crate = sys.argv[1]
    top = os.path.join("crates", crate)
    out = tempfile.mkdtemp(prefix="names-")
    r = subprocess.run(["rt", "check", "--generated", out, "--old-names"], cwd=top, capture_output=True, text=True)
    f = os.path.join(out, "names.json")
    if not os.path.exists(f):
        print(r.stdout[-3000:], r.stderr[-2000:])
        raise SystemExit(2)
    with open(f) as g:
        all_names = json.load(g)
    with open(f"/tmp/names-{crate}.json", "w") as g:
        json.dump(all_names, g, ensure_ascii=False, indent=1)
    said = []
    for folder, dirs, files in os.walk(os.path.join(top, "proofs")):
        if "Proof.antt" not in files:
            continue
        fn = os.path.relpath(folder, os.path.join(top, "proofs")).replace(os.sep, "::")
        if sys.argv[2:] and fn not in sys.argv[2:]:
            continue
        stem = f"Rattle-{crate}-proofs.{fn.replace('::', '.')}.Lts"
        record = all_names.get(stem) or next((v for k, v in all_names.items() if k.startswith(stem + "-")), None)
        if record is None:
            said.append(f"{fn}: not among the generated: {[k for k in all_names if 'Rattle' in k]}")
            continue
        names = Names(record)
        names.loop_names = loops(record)
        convert(crate, fn, folder, names, said)
    for s in said:
        print(s)


def loops(record):
    """The loops by their old and new names."""
    found = []
    for (old, new) in record["needs"]:
        for end_old, end_new in (("-init", "-init"), ("-holds", "-init"), ("-less", "-smaller"), ("-again", "-preserved"), ("-smaller", "-smaller"), ("-preserved", "-preserved")):
            if old.endswith(end_old) and new.endswith(end_new) and old.startswith("loop"):
                pair = (old[: -len(end_old)], new[: -len(end_new)])
                if pair not in found:
                    found.append(pair)
    return found


main()
