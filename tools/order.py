#!/usr/bin/env python3
"""Ranks lines with many equal trees by the words of the rules alone, and compares with what pentrace answers.

usage: python3 tools/order.py [LINES]     at the top of the repository, with pentrace built (rt run < stdin in its folder); 600 lines by chance unless given

The search is that of docs/RULES.md, "The best tree" (with SEARCH.md, "The algorithm"), with its choices among equals; the order is that of
"Rankings". Each line is also compared with all its trees, for its weights. Counts and the last refusal are not compared. It reads no code of the
repository and is no part of the gate.
"""
import itertools
import random
import subprocess
import sys


def plus(a, b):
    return a[0] + b[0], a[1] + b[1]


def minus(a, b):
    return a[0] - b[0], a[1] - b[1]


def search(n, arcs, held=(), barred=()):
    """The heads that the search finds, or None. An arc's weight has the root's place in front; a set is (words, from, to, value)."""
    seen = {}
    for (h, d), w in arcs.items():
        if (d > len(held) or held[d - 1] == h) and not (d == len(held) + 1 and h in barred):
            seen[h, d] = (-1 if h == 0 else 0, w)

    def best_into(words, potential):
        best = None
        for d in sorted(words):
            for h in range(n + 1):
                if h not in words and (h, d) in seen:
                    value = plus(seen[h, d], potential[d])
                    if best is None or value > best[3]:
                        best = (frozenset(words), h, d, value)
        return best

    potential = {d: (0, 0) for d in range(1, n + 1)}
    own = {d: best_into({d}, potential) for d in range(1, n + 1)}
    if None in own.values():
        return None
    made = []

    def top(word):
        return next((s for s in reversed(made) if word in s[0]), own[word])

    def on_ring():
        for start in range(1, n + 1):
            met, word = set(), start
            while word and word not in met:
                met.add(word)
                word = top(word)[1]
            if word:
                return word
        return None

    while (word := on_ring()) is not None:
        words, total = set(), (0, 0)
        while word not in words:
            part = top(word)
            words |= part[0]
            total = plus(total, part[3])
            word = part[1]
        raised = {w: minus(plus(potential[w], total), top(w)[3]) for w in words}
        potential.update(raised)
        entered = best_into(words, potential)
        if entered is None:
            return None
        made.append(entered)
    heads, done = {d: own[d][1] for d in own}, set()
    for words, h, d, _ in reversed(made):
        if not words & done:
            heads[d] = h
            done.add(d)
    found = tuple(heads[d] for d in range(1, n + 1))
    return found if found.count(0) == 1 else None


def weight(arcs, heads):
    return sum(arcs[h, d + 1] for d, h in enumerate(heads))


def rank(n, arcs):
    """The trees in their order, up to fifty. A row is (heads, from, banned)."""
    first = search(n, arcs)
    rows, offered = [(first, 1, frozenset())] if first else [], []
    while rows and len(rows) < 50:
        heads, word, banned = rows[-1]
        for p in range(word, n + 1):
            bans = frozenset([heads[p - 1]]) | (banned if p == word else frozenset())
            found = search(n, arcs, heads[:p - 1], bans)
            if found:
                offered.append((found, p, bans))
        left = [r for r in offered if r not in rows]
        if not left:
            break
        rows.append(min(left, key=lambda r: (-weight(arcs, r[0]), r[0])))
    return [(weight(arcs, r[0]), r[0]) for r in rows]


def all_weights(n, arcs):
    """The weights of all single-root trees of the line, falling."""
    found = []
    for heads in itertools.product(range(n + 1), repeat=n):
        if heads.count(0) == 1 and all((h, d + 1) in arcs for d, h in enumerate(heads)):
            ends = list(range(1, n + 1))
            for _ in range(n):
                ends = [heads[w - 1] if w else 0 for w in ends]
            if not any(ends):
                found.append(weight(arcs, heads))
    return sorted(found, reverse=True)


def draw(chance):
    n, most, dense = chance.randint(1, 5), chance.choice([0, 1, 1, 2, 3]), chance.choice([1, 1, 0.8, 0.6])
    return n, {(h, d): chance.randint(0, most) for d in range(1, n + 1) for h in range(n + 1) if h != d and chance.random() < dense}


def main():
    chance = random.Random(7)
    lines = [draw(chance) for _ in range(int(sys.argv[1]) if len(sys.argv) > 1 else 600)]
    script = ''
    for n, arcs in lines:
        puts = [f'put {h} {d} {w}\n' for (h, d), w in arcs.items()]
        chance.shuffle(puts)
        script += f'open {n}\n' + ''.join(puts) + 'begin\n' + 'take\n' * 51
    told = []
    for line in subprocess.run(['crates/pentrace/out/pentrace'], input=script, capture_output=True, text=True, check=True).stdout.splitlines():
        if line.startswith('open'):
            told.append([])
        elif ': tree ' in line:
            _, w, heads = line.split(': tree ')[1].split(', ')
            told[-1].append((int(w.split()[1]), tuple(int(h) for h in heads.split()[1:])))
    wrong = 0
    for (n, arcs), trees in zip(lines, told, strict=True):
        if trees != rank(n, arcs) or [w for w, _ in trees] != all_weights(n, arcs)[:50]:
            wrong += 1
            print(f'differs: {n} words, arcs {arcs}: told {trees}, by the rules {rank(n, arcs)}')
    print(f'{len(lines)} lines, {sum(map(len, told))} trees, {wrong} lines differ')
    return wrong > 0


if __name__ == '__main__':
    sys.exit(main())
