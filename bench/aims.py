#!/usr/bin/env python3
"""Makes the problems for which README.md has an aim in seconds, runs the program on each, and where they are installed z3 and E,
and prints the times, the ratios to those of the others, and the aim. `aims.py --help` lists the kinds."""

import itertools
import os
import random
import shutil

import models
from begin import beginning
from epr import chain, counter, equations, judged, no, smt, tptp, yes
from table import compare


def classes(count, denied):
    """A hierarchy of classes, each below one of the first half of those before it, with axioms of roles, conjunctions, and individuals
    with a class and a role each; or one membership that follows is denied besides."""
    source = random.Random(count)
    above = {n: source.randrange((n + 1) // 2) for n in range(1, count)}
    clauses = [[no(f"c{n}", "X"), yes(f"c{up}", "X")] for n, up in above.items()]
    for _ in range(count // 10):
        role, low, high = source.randrange(100), source.randrange(count), source.randrange(count)
        clauses.append([no(f"r{role}", "X", "Y"), no(f"c{low}", "X"), yes(f"c{high}", "Y")])
    for _ in range(count // 20):
        clauses.append([no(f"c{source.randrange(count)}", "X"), no(f"c{source.randrange(count)}", "X"), yes(f"c{source.randrange(count)}", "X")])
    people = count // 5
    for n in range(people):
        clauses.append([yes(f"c{source.randrange(count)}", f"i{n}")])
        clauses.append([yes(f"r{source.randrange(100)}", f"i{n}", f"i{source.randrange(people)}")])
    low = count - 1
    return clauses + ([[yes(f"c{low}", "i0")], [no("c0", "i0")]] if denied else [])


def wide(count, denied):
    """One clause of so many atoms; or each of them is denied besides."""
    return [[yes("p", f"k{n}") for n in range(count)]] + ([[no("p", f"k{n}")] for n in range(count)] if denied else [])


def constants(count, denied):
    """So many constants with a property; or as many others without it besides, and an equation between each two of both."""
    clauses = [[yes("p", f"a{n}")] for n in range(count)]
    if denied:
        clauses += [[no("p", f"b{n}")] for n in range(count)] + [[yes("=", f"a{n}", f"b{n}")] for n in range(count)]
    return clauses


def congruence(arguments, refuted):
    """A fact of so many arguments and the denial of one with others, so that the congruence axiom is as wide; and each argument is
    equal to the other, or one equation tells of two more constants."""
    def fact(sign, name):
        return [sign("p", *(f"{name}{n}" for n in range(arguments)))]
    equal = [(f"b{n}", f"a{n}") for n in range(arguments)] if refuted else [("c", "d")]
    return [fact(yes, "a"), fact(no, "b")] + [[yes("=", a, b)] for a, b in equal]


def quasigroup(size, lawless):
    """An idempotent quasigroup as a relation; with the law (xy)(yx) = x there is none of 5 to 7 elements."""
    names = [f"e{n}" for n in range(size)]
    clauses = [[yes("m", "X", "Y", a) for a in names], [yes("m", "X", "X", "X")]]
    for a, b in itertools.combinations(names, 2):
        clauses += [[no("m", "X", "Y", a), no("m", "X", "Y", b)], [no("m", "X", a, "Y"), no("m", "X", b, "Y")],
                    [no("m", a, "X", "Y"), no("m", b, "X", "Y")]]
    return clauses + ([[no("m", "X", "Y", "Z"), no("m", "Y", "X", "W"), yes("m", "Z", "W", "X")]] if lawless else [])


# for each kind what makes it, and the sizes, each with whether there is a refutation, and the seconds that are aimed at, if any
KINDS = {
    "rows": (equations, [(n, refuted, 0.1) for n in (50, 100, 200, 400) for refuted in (True, False)]),
    "classes": (classes, [(100_000, True, 3), (100_000, False, 10)]),
    "wide": (wide, [(100_000, False, 1), (100_000, True, None)]),
    "constants": (constants, [(1024, True, 2)]),
    "congruence": (congruence, [(1024, True, 1), (256, True, None), (256, False, 1)]),
    "counter": (counter, [(14, False, 0.082), (16, False, 0.33)]),
    "chain": (chain, [(100_000, False, 1.5)]),
    "quasigroup": (quasigroup, [(7, True, 0.5)]),
    "group": ("not abelian", [(4, True, 1)]),
    "lattice": ("not distributive", [(5, False, 1)]),
}


def answer(text):
    """What a solver says, as a verdict."""
    found = judged(text)
    if found != "?":
        return found
    return {"model": "Satisfiable", "none": "Unsatisfiable", "?": "?"}[models.answer(text)]


def of_clauses(stem, clauses, program):
    """The commands for the program, z3 and E."""
    for ending, text in ((".p", tptp(clauses)), (".smt2", smt(clauses))):
        with open(stem + ending, "w", encoding="ascii") as out:
            out.writelines(text)
    return {"instgen": [program, "prove", stem + ".p"], "z3": ["z3", stem + ".smt2"],
            "eprover": ["eprover", "--auto", "--silent", stem + ".p"]}


def of_tables(stem, texts, size, program):
    """Those for models of so many elements; E is asked for none."""
    with open(stem + ".p", "w", encoding="ascii") as out:
        out.writelines(f"cnf(c{n},axiom,{text}).\n" for n, text in enumerate(texts, 1))
    models.write_smt(stem + ".smt2", list(map(models.parsed, texts)), models.heads(size)["z3"])
    return {"instgen": [program, "fmodel", str(size), stem + ".p"], "z3": ["z3", stem + ".smt2"], "eprover": ["false"]}


def main():
    given = beginning(__doc__, KINDS)
    others = [it for it in ("z3", "eprover") if shutil.which(it)]

    def problems(kind):
        make, rows = KINDS[kind]
        for size, refuted, seconds in rows:
            stem = os.path.join(given.folder, f"{kind}-{size}-{'unsat' if refuted else 'sat'}")
            if callable(make):
                words = of_clauses(stem, make(size, refuted), given.program)
            else:
                words = of_tables(stem, next(texts for title, texts, _ in models.KINDS[kind] if title == make), size, given.program)
            words = {it: words[it] for it in ["instgen"] + others}
            yield f"{kind} {size}", "Unsatisfiable" if refuted else "Satisfiable", words, lambda _, seconds=seconds: f"aim {seconds}" if seconds else ""

    compare(given, others, answer, problems)


if __name__ == "__main__":
    main()
