#!/usr/bin/env python3
"""The litmus tables of crates/model, printed from examples/litmus: the definitions `example` and `proved` of specs/Litmus.antt and `further` of
specs/Further.antt. Names, words and what is lent come from litmus.src, bytes and lines from the files that harness/litmus.sh makes of it.
An entry whose words mark it (P) stands in `proved`, every other in `further`; each line `lent` of the source makes a row of its own, in `further`.
With --check nothing is written: are the tables as they should be?
"""
import os
import sys

ROOT = os.path.join(os.path.dirname(os.path.abspath(__file__)), "..", "..")
DIR = "examples/litmus/"
MODES = {1: "unordered", 2: "sc"}


def read(name):
    try:
        with open(os.path.join(ROOT, name), "rb") as f:
            return f.read()
    except FileNotFoundError:
        sys.exit(f"{name} is not there: run tests/make")


def entries():
    """Name, words, what is lent, bytes and line of each entry of the source."""
    found = []
    for line in read(DIR + "litmus.src").decode().splitlines():
        if line.startswith("entry "):
            name = line[6:]
            found.append(dict(name=name, words=[], lent=[], sheet=read(DIR + name + ".sheet"), line=read(DIR + name + ".line").decode().strip()))
        elif line.startswith("| "):
            found[-1]["words"].append(line[2:])
        elif line.startswith("lent "):
            room, places, answer = line[5:].split(" ", 2)
            found[-1]["lent"].append((int(room), int(places), answer))
    return found


def listed(numbers):
    """A list of numbers as an argument."""
    numbers = list(numbers)
    if not numbers:
        return "[]"
    if len(numbers) > 3 and len(set(numbers)) == 1:
        return f"(replicate {len(numbers)} {numbers[0]})"
    return "(" + " ∷ ".join(map(str, numbers)) + " ∷ [])"


def fields(sheet):
    """The sheet's fields, whole; what is cut is one field."""
    at = 0
    while at < len(sheet):
        end = at + 3 + int.from_bytes(sheet[at + 1 : at + 3], "big")
        yield sheet[at:end]
        at = end


def field(f, edition=1):
    """A field by its constructor; one that has none, as bytes."""
    tag, value = f[0], f[3:]
    if f[1:3] == bytes([0, len(value)]):
        if tag == 1 and len(value) == 3 and value[0] == 2:
            return f"head_2 {value[1]} {value[2]}"
        if tag == 2 and edition == 2:
            # an event of edition 1 with the tear byte before its data
            inner = bytes([2, 0, len(value) - 1]) + value[:5] + value[6:] if len(value) >= 6 else b""
            text = field(inner) if inner else ""
            return f"tear {value[5]} ({text})" if text and text != listed(inner) else listed(f)
        if tag == 1 and len(value) == 3 and value[0] == 1:
            return f"head {value[1]} {value[2]}"
        if tag == 3 and len(value) == 3:
            return "row " + " ".join(map(str, value))
        if tag == 4 and len(value) == 2:
            return "pair " + " ".join(map(str, value))
        if tag == 2 and len(value) >= 5:
            agent, kind, mode, start, width = value[:5]
            data = value[5:]
            if (agent, kind, mode) == (0, 2, 0) and len(data) == width:
                return f"init {start} {listed(data)}"
            if kind in (1, 2) and mode in MODES and len(data) == width:
                return f"{'read' if kind == 1 else 'write'} {agent} {MODES[mode]} {start} {listed(data)}"
            if kind == 3 and mode == 2 and len(data) == 2 * width:
                return f"modify {agent} {start} {listed(data[:width])} {listed(data[width:])}"
            if (kind, mode, start, width, len(data)) == (4, 2, 0, 0, 0):
                return f"marker {agent}"
    return listed(f)


def answer(line):
    """The answer and the order of a line, as two arguments."""
    kind, *words = line.split()
    if kind == "refused":
        return f"(Refused {words[0]} {words[2]}) []"
    if kind == "broken":
        names = words[1:]
        case = {"nn-n": "OfRow", "n---": "OfEvent", "nnnn": "Between", "nnn-": "Torn", "----": "Nobody"}["".join("-" if n == "-" else "n" for n in names)]
        told = " ".join([case] + [n for n in names if n != "-"])
        return f"(Broken {words[0]} {told if case == 'Nobody' else f'({told})'}) []"
    settled, order = line[len("consistent ") :].split(" then ")
    settled = "Orderly" if settled == "orderly" else "(" + settled.replace("unsettled", "Unsettled") + ")"
    return f"(Consistent {settled}) ({' ∷ '.join(order.split())} ∷ [])"


def edition(sheet):
    """The edition that its head says, where there is one."""
    return sheet[3] if len(sheet) > 3 else 1


def bytes_of(e):
    return "example" if e["name"] == "01-example" else "(sheet (" + " ∷ ".join([field(f, edition(e["sheet"])) for f in fields(e["sheet"])]) + " ∷ []))"


def tables(found):
    """The bodies of the three definitions."""
    proved, further, last = [], [], []
    for e in found:
        marked = "(P)" in e["words"][0]
        row = [f"-- {e['name']}: {' '.join(e['words'])}", f"judged {bytes_of(e)} {answer(e['line'])}"]
        lent = [
            [f"-- {e['name']}, lent a scratch of {room} and an order buffer of {places}", f"lending {room} {places} {bytes_of(e)} {answer(line)}"]
            for room, places, line in e["lent"]
        ]
        (proved if marked else further).append(row)
        (last if marked else further).extend(lent)
    example = next(e for e in found if e["name"] == "01-example")
    return {"example": "    " + " ++ ".join(["(" + " ∷ ".join(map(str, f)) + " ∷ [])" for f in fields(example["sheet"])]) + "\n", "proved": body(proved), "further": body(further + last)}


def body(rows):
    lines = []
    for i, (comment, row) in enumerate(rows):
        lines += ["    " + comment, "    " + ("∷ " if i else "") + row]
    return "\n".join(lines + ["    ∷ []"]) + "\n"


def put(text, name, inside):
    """The text with another body of the definition `name`: the lines behind `name =`, up to an empty line or the end."""
    before, mark, rest = text.partition(f"\n{name} =\n")
    assert mark, f"no definition of {name}"
    behind = rest.partition("\n\n")
    return before + mark + inside + (("\n" + behind[2]) if behind[1] else "")


def main():
    check = sys.argv[1:] == ["--check"]
    if sys.argv[1:] and not check:
        sys.exit("usage: tables.py [--check]")
    bodies = tables(entries())
    stale = 0
    for name, definitions in {"Litmus": ["example", "proved"], "Further": ["further"]}.items():
        path = f"crates/model/specs/{name}.antt"
        now = read(path).decode()
        want = now
        for d in definitions:
            want = put(want, d, bodies[d])
        if want == now:
            continue
        if check:
            stale = 1
            lines = zip(now.splitlines() + [""], want.splitlines() + [""])
            at = next(i for i, (a, b) in enumerate(lines, 1) if a != b)
            print(f"{path}: line {at} is not what {DIR} gives: run tests/make")
        else:
            with open(os.path.join(ROOT, path), "w") as f:
                f.write(want)
            print(f"{path}: written")
    sys.exit(stale)


main()
