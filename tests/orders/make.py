#!/usr/bin/env python3
"""Makes the stored problems and answers beside it: `make.py` writes them; `make.py --check` compares them with what is stored.
bench/ runs them through the exports of crates/orders_c: `bench/run orders problems tests/orders/problems tests/orders/answers`.

Everything is found by enumerating permutations and subsets from the definitions alone, with no search and no masks taken from the crates:
an order meets a problem when it contains `before` and no bar's W, V, R stand in this order.

A problem, one byte each: inits k, events m, scratch bytes, order bytes, limit, count of before pairs, count of bars; then the pairs
(a, b): a before b; then the bars (r, w, v). Its line among the answers: `none` or the order buffer's bytes in decimal (those after the events are as
they were); `possible` or `impossible`; `sets N` or `over`; `clean`, where after each of the three the needed scratch is zero and its rest as it was.
"""
import itertools
import os
import random
import sys

HERE = os.path.dirname(os.path.abspath(__file__))
FILL = 170  # what the buffers hold at first


def needed(n):
    return max(1, 2**n // 8)


def meets(order, before, bars):
    at = {e: i for i, e in enumerate(order)}
    return all(at[a] < at[b] for a, b in before) and not any(at[w] < at[v] < at[r] for r, w, v in bars)


def ready(placed, e, before, bars):
    if e in placed or any(b == e and a not in placed for a, b in before):
        return False
    return not any(v == e and w in placed and r not in placed for r, w, v in bars)


def runs_from_inits(k, m, before, bars):
    """All orders of the others that can be placed one at a time after the inits, in the order of comparison."""
    for rest in itertools.permutations(range(k, m)):
        placed = set(range(k))
        good = True
        for e in rest:
            if not ready(placed, e, before, bars):
                good = False
                break
            placed.add(e)
        if good:
            yield rest


def reachable(k, m, before, bars):
    seen = {frozenset(range(k))}
    for size in range(m - k):
        for s in [s for s in seen if len(s) == k + size]:
            for e in range(m):
                if ready(s, e, before, bars):
                    seen.add(s | {e})
    return len(seen)


def well_posed(k, before, bars):
    return (
        not any(b < k for _, b in before)
        and not any(v < k or r == v for r, w, v in bars)
        and all((w, v) in before for r, w, v in bars if w < k)
    )


def answer(p):
    k, m, room, length, limit, before, bars = p
    if k > m or m > 32 or room < needed(m - k):
        return "none impossible sets 0 clean"
    count = reachable(k, m, before, bars)
    sets = f"sets {count}" if count <= limit else "over"
    first = next(runs_from_inits(k, m, before, bars), None)
    if well_posed(k, before, bars) and m <= 7:
        whole = next((o for o in itertools.permutations(range(m)) if meets(o, before, bars)), None)
        expected = None if first is None else tuple(range(k)) + first
        assert whole == expected, (p, whole, expected)
    word = "impossible" if first is None else "possible"
    if first is None or length < m:
        return f"none {word} {sets} clean"
    order = list(range(k)) + list(first) + [FILL] * (length - m)
    return "".join(f"{b} " for b in order) + f"{word} {sets} clean"


def problem(rng, i):
    m = rng.randint(0, 7)
    k = rng.randint(0, min(3, m))
    before = set()
    bars = set()
    if i % 10 != 9:  # a problem that the judge may pose
        for d in range(k, m):
            for e in range(k):
                if rng.random() < 0.6:
                    before.add((e, d))
        for a, b in itertools.permutations(range(k, m), 2):
            if rng.random() < (0.15 if a < b else 0.06):
                before.add((a, b))
        for _ in range(rng.choice([0, 2, 4, 8, 16, 30, 50])):
            if m - k < 2 or m < 3:
                break
            v = rng.randrange(k, m)
            w = rng.randrange(0, m)
            r = rng.randrange(k, m)
            if len({r, w, v}) == 3 and (w >= k or (w, v) in before):
                bars.add((r, w, v))
    else:  # any tables at all
        for _ in range(rng.randint(0, 6)):
            if m:
                before.add((rng.randrange(m), rng.randrange(m)))
        for _ in range(rng.randint(0, 6)):
            if m:
                bars.add((rng.randrange(m), rng.randrange(m), rng.randrange(m)))
    room = needed(m - k) + rng.randint(0, 3)
    length = m + rng.randint(0, 3)
    limit = rng.choice([255, 255, 0, 1, 2, 7, 20])
    if i % 17 == 5:
        room = needed(m - k) - 1
    if i % 19 == 7 and m:
        length = m - 1
    if i % 23 == 11:
        k = m + 1
    if i % 29 == 13:
        m, k, before, bars, length = 33, 31, set(), set(), 33
    return (k, m, room, length, limit, sorted(before), sorted(bars))


def main():
    rng = random.Random(20261115)
    data, lines = bytearray(), []
    for i in range(400):
        p = problem(rng, i)
        k, m, room, length, limit, before, bars = p
        data += bytes([k, m, room, length, limit, len(before), len(bars)])
        for pair in before:
            data += bytes(pair)
        for bar in bars:
            data += bytes(bar)
        lines.append(answer(p))
    out = ("\n".join(lines) + "\n").encode()
    files = {"problems": bytes(data), "answers": out}
    for name, body in files.items():
        path = os.path.join(HERE, name)
        if "--check" in sys.argv:
            if open(path, "rb").read() != body:
                print(f"make.py: {name} is not what the script makes")
                return 1
        else:
            open(path, "wb").write(body)
    found = sum(1 for l in lines if not l.startswith("none"))
    print(f"{len(lines)} problems, {found} with an order, {sum(' impossible ' in l for l in lines)} without, {sum(' over ' in l for l in lines)} over the limit, {len(data)} bytes")
    return 0


sys.exit(main())
