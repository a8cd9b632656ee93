#!/usr/bin/env python3
"""Makes problems without function symbols, of known kinds, in several sizes and both statuses, runs the program on each, and
where they are installed z3 and E, and prints the times, and for each kind and in all the geometric mean of the ratios.
`epr.py --help` lists the kinds."""

import itertools
import math
import os
import random
import shutil

from begin import beginning, shown, timed

# A literal is a sign, a predicate and a tuple of terms; a term is a variable where it begins with a capital letter. The predicate
# `=` is equality.


def yes(name, *terms):
    return (True, name, terms)


def no(name, *terms):
    return (False, name, terms)


def different(names):
    return [[yes("diff", a, b)] for a, b in itertools.permutations(names, 2)]


def chain(length, refuted):
    """A walk along a row of edges."""
    clauses = [[yes("e", f"c{n}", f"c{n + 1}")] for n in range(1, length)]
    clauses += [[yes("r", "c1")], [no("r", "X"), no("e", "X", "Y"), yes("r", "Y")]]
    return clauses + ([[no("r", f"c{length}")]] if refuted else [])


def pigeons(holes, refuted):
    """As many pigeons as holes, or one more."""
    birds = [f"b{n}" for n in range(holes + (1 if refuted else 0))]
    clauses = [[yes("in", b, f"h{n}") for n in range(holes)] for b in birds]
    return clauses + [[no("in", "X", "Z"), no("in", "Y", "Z"), no("diff", "X", "Y")]] + different(birds)


def colouring(nodes, refuted):
    """Three colours for a random graph; four nodes that are all joined have none."""
    source = random.Random(nodes)
    clauses = [[yes("c", "X", "red"), yes("c", "X", "green"), yes("c", "X", "blue"), no("n", "X")]]
    clauses += [[no("e", "X", "Y"), no("c", "X", "Z"), no("c", "Y", "Z")]]
    clauses += [[yes("n", f"v{n}")] for n in range(nodes)]
    edges = {tuple(sorted(source.sample(range(nodes), 2))) for _ in range(2 * nodes)}
    edges = {(a, b) for a, b in edges if a % 3 != b % 3}
    if refuted:
        edges |= set(itertools.combinations(range(4), 2))
    return clauses + [[yes("e", f"v{a}", f"v{b}")] for a, b in sorted(edges)]


def counter(bits, refuted):
    """A binary counter from zero, which comes to all ones in the end."""
    clauses = [[yes("s", *["o"] * bits)]]
    for low in range(bits):
        high = [f"X{n}" for n in range(bits - low - 1)]
        clauses.append([no("s", *high, "o", *["i"] * low), yes("s", *high, "i", *["o"] * low)])
    return clauses + ([[no("s", *["i"] * bits)]] if refuted else [])


def latin(size, refuted):
    """A Latin square; one with a number twice in a row is none."""
    names = [f"n{k}" for k in range(size)]
    clauses = [[yes("v", a, b, c) for c in names] for a in names for b in names]
    clauses += [[no("v", "X", "Y", "Z"), no("v", "X", "Y", "W"), no("diff", "Z", "W")],
                [no("v", "X", "Y", "Z"), no("v", "X", "W", "Z"), no("diff", "Y", "W")],
                [no("v", "X", "Y", "Z"), no("v", "W", "Y", "Z"), no("diff", "X", "W")]] + different(names)
    if refuted:
        clauses += [[yes("v", "n0", names[k], names[k])] for k in range(size - 2)]
        clauses += [[yes("v", names[1], names[-2], names[-1])], [yes("v", names[2], names[-1], names[-1])],
                    [yes("v", names[3], names[-1], names[-2])]]
    return clauses


def grid(width, refuted):
    """A walk of a robot on a grid with walls."""
    source = random.Random(width)
    walls = {(source.randrange(1, width), source.randrange(1, width)) for _ in range(width)} - {(width - 1, width - 1)}
    clauses = [[yes("next", f"k{n}", f"k{n + 1}")] for n in range(width - 1)]
    clauses += [[yes("at", "k0", "k0")]]
    clauses += [[no("at", "X", "Y"), no("next", "X", "Z"), yes("wall", "Z", "Y"), yes("at", "Z", "Y")],
                [no("at", "X", "Y"), no("next", "Y", "Z"), yes("wall", "X", "Z"), yes("at", "X", "Z")]]
    places = itertools.product(range(width), repeat=2)
    clauses += [[(p in walls, "wall", tuple(f"k{n}" for n in p))] for p in places]
    return clauses + ([[no("at", f"k{width - 1}", f"k{width - 1}")]] if refuted else [])


def ontology(classes, refuted):
    """A tree of classes with disjoint branches, a transitive role, and facts."""
    source = random.Random(classes)
    clauses = [[no(f"a{n}", "X"), yes(f"a{source.randrange(n)}", "X")] for n in range(1, classes)]
    clauses += [[no(f"a{n}", "X"), no(f"a{n + 1}", "X")] for n in range(classes // 2, classes - 1, 3)]
    clauses += [[no("part", "X", "Y"), no("part", "Y", "Z"), yes("part", "X", "Z")], [no("part", "X", "Y"), yes("a0", "Y")],
                [no("part", "X", "Y"), no(f"a{classes - 1}", "X"), yes("b", "Y")], [no("b", "X"), no(f"a{classes // 3}", "X")]]
    clauses += [[yes("part", f"o{n}", f"o{n + 1}")] for n in range(classes // 4)]
    clauses += [[yes(f"a{classes - 1}", "o0")]]
    return clauses + ([[yes(f"a{classes // 3}", f"o{classes // 4}")]] if refuted else [])


def ring(size, refuted):
    """A token on a ring that stays or goes on at each step, and is at one place alone."""
    steps = size - 1 if refuted else size + 1
    clauses = [[no("tok", "X", "T"), no("next", "T", "S"), no("succ", "X", "Y"), yes("tok", "X", "S"), yes("tok", "Y", "S")],
               [no("tok", "X", "T"), no("tok", "Y", "T"), no("diff", "X", "Y")], [yes("tok", "p0", "t0")]]
    clauses += [[yes("succ", f"p{n}", f"p{(n + 1) % (size + 1)}")] for n in range(size + 1)]
    clauses += [[yes("next", f"t{n}", f"t{n + 1}")] for n in range(steps)]
    return clauses + different([f"p{n}" for n in range(size + 1)]) + [[yes("tok", f"p{size}", f"t{steps}")]]


def equations(length, refuted, source=None):
    """A row of equations between a fact and its denial. Satisfiable ones are short, since all equations of the row follow."""
    if not refuted:
        length //= 25
    pairs = [(n, n + 1) for n in range(1, length)]
    if source:
        source.shuffle(pairs)
        pairs = [source.choice([(a, b), (b, a)]) for a, b in pairs]
    return [[yes("=", f"a{a}", f"a{b}")] for a, b in pairs] + [[yes("p", "a1")], [no("p", f"a{length}" if refuted else "b")]]


def mixed(length, refuted):
    """The same in any order, and with their sides exchanged at random."""
    return equations(length, refuted, random.Random(length))


KINDS = {
    "chain": (chain, (100, 1000, 10000)),
    "pigeons": (pigeons, (5, 6, 7)),
    "colouring": (colouring, (20, 60, 120)),
    "counter": (counter, (6, 8, 10)),
    "latin": (latin, (5, 6, 7)),
    "grid": (grid, (8, 16, 32)),
    "ontology": (ontology, (20, 60, 120)),
    "ring": (ring, (4, 8, 12)),
    "equations": (equations, (50, 100, 200, 400)),
    "mixed": (mixed, (50, 100, 160)),
}


def tptp(clauses):
    def literal(sign, name, terms):
        if name == "=":
            return f" {'=' if sign else '!='} ".join(terms)
        return f"{'' if sign else '~'}{name}({','.join(terms)})"

    for number, clause in enumerate(clauses, 1):
        text = " | ".join(literal(*parts) for parts in clause)
        yield f"cnf(c{number},axiom,{text}).\n"


def smt(clauses):
    names = {(name, len(terms)) for clause in clauses for _, name, terms in clause if name != "="}
    terms = {term for clause in clauses for _, _, terms in clause for term in terms}
    yield "(set-logic UF)\n(declare-sort U 0)\n"
    for name, arity in sorted(names):
        yield f"(declare-fun p_{name} ({' '.join(['U'] * arity)}) Bool)\n"
    for term in sorted(t for t in terms if not t[0].isupper()):
        yield f"(declare-const {term} U)\n"
    for clause in clauses:
        atoms = [f"({name if name == '=' else 'p_' + name} {' '.join(terms)})" for _, name, terms in clause]
        text = "(or " + " ".join(a if lit[0] else f"(not {a})" for a, lit in zip(atoms, clause)) + ")"
        bound = sorted({t for _, _, terms in clause for t in terms if t[0].isupper()})
        if bound:
            text = f"(forall ({' '.join(f'({v} U)' for v in bound)}) {text})"
        yield f"(assert {text})\n"
    yield "(check-sat)\n"


def judged(text):
    """The verdict in what a prover printed."""
    for line in text.split(b"\n"):
        if line == b"sat" or b"status Satisfiable" in line:
            return "Satisfiable"
        if line == b"unsat" or b"status Unsatisfiable" in line:
            return "Unsatisfiable"
    return "?"


def mean(ratios):
    return f"{math.exp(sum(map(math.log, ratios)) / len(ratios)):.2f}" if ratios else "-"


def row(name, stem, limit, program, others):
    """One problem's line, and its ratio to the first of the others, where both ended with a verdict."""
    words = {"instgen": [program, "prove", stem + ".p"], "z3": ["z3", stem + ".smt2"],
             "eprover": ["eprover", "--auto", "--silent", stem + ".p"]}
    times, said = {}, {}
    for prover in ["instgen"] + others:
        times[prover], text = timed(words[prover], limit)
        said[prover] = judged(text)
    ended = {p for p in times if times[p] is not None and said[p] != "?"}
    verdicts = {said[p] for p in ended}
    mark = " !" if len(verdicts) > 1 else ""
    line = f"{name:24} {said['instgen'] + mark:>16}"
    for prover in times:
        line += f" {shown(times[prover] if prover in ended else None):>9}"
    ratio = None
    if others and {"instgen", others[0]} <= ended:
        ratio = max(times["instgen"], 0.001) / max(times[others[0]], 0.001)
    print(line + (f" {ratio:>8.2f}" if ratio else f" {'-':>8}"), flush=True)
    return ratio


def main():
    given = beginning(__doc__, KINDS)
    others = [p for p in ("z3", "eprover") if shutil.which(p)]
    print(f"{'problem':24} {'verdict':>16}" + "".join(f" {p:>9}" for p in ["instgen"] + others) + f" {'ratio':>8}", flush=True)
    all_ratios = []
    for kind in given.kinds:
        make, sizes = KINDS[kind]
        ratios = []
        for size, refuted in itertools.product(sizes, (True, False)):
            name = f"{kind} {size} {'unsat' if refuted else 'sat'}"
            stem = os.path.join(given.folder, name.replace(" ", "-"))
            clauses = make(size, refuted)
            with open(stem + ".p", "w", encoding="ascii") as out:
                out.writelines(tptp(clauses))
            with open(stem + ".smt2", "w", encoding="ascii") as out:
                out.writelines(smt(clauses))
            ratios.append(row(name, stem, given.limit, given.program, others))
        ratios = [r for r in ratios if r]
        all_ratios += ratios
        print(f"{kind + ', mean':24} {'':>16}" + " " * 10 * (1 + len(others)) + f" {mean(ratios):>8}", flush=True)
    print(f"{'all, mean':24} {'':>16}" + " " * 10 * (1 + len(others)) + f" {mean(all_ratios):>8}", flush=True)


if __name__ == "__main__":
    main()
