#!/usr/bin/env python3
"""Makes large sets of clauses in which few are planted that are refuted and of which none can be spared, runs the commands core and
prove on each, and for ground ones picomus where it is installed, and prints the seconds and the number of clauses that each names, and
for each kind and in all the geometric means of the ratios. `cores.py --help` lists the kinds."""

import itertools
import os
import random
import re
import shutil

from begin import beginning, shown, timed
from check import line
from epr import mean, no, tptp, yes
from run import chain, parity, pigeonhole, write_dimacs, write_tptp
from table import checked

# A kind gives the planted clauses and so many others. All others are true together whatever the planted ones say, but for their own
# predicates or atoms; so all that is refuted has all planted clauses, and they are the only core.


def reach(length, count, source):
    """A walk along a row of edges, and a graph beside it into which edges go and from which none come back."""
    planted = [[yes("e", f"c{n}", f"c{n + 1}")] for n in range(1, length)]
    planted += [[yes("r", "c1")], [no("r", "X"), no("e", "X", "Y"), yes("r", "Y")], [no("r", f"c{length}")]]
    nodes = [f"d{n}" for n in range(count // 2)]
    origins = nodes + [f"c{n}" for n in range(1, length)]
    return planted, [[yes("e", source.choice(origins), source.choice(nodes))] for _ in range(count)]


def pigeons(holes, count, source):
    """One pigeon more than holes, and others with a hole of their own and some more."""
    birds = [f"b{n}" for n in range(holes + 1)]
    planted = [[yes("in", b, f"h{n}") for n in range(holes)] for b in birds]
    planted += [[no("in", "X", "Z"), no("in", "Y", "Z"), no("diff", "X", "Y")]]
    planted += [[yes("diff", a, b)] for a, b in itertools.combinations(birds, 2)]
    many = count // 3
    others = [[yes("in", f"o{n}", f"g{hole}") for hole in {n, source.randrange(many), source.randrange(many)}] for n in range(many)]
    pairs = [source.sample(range(many), 2) for _ in range(count - many)]
    return planted, others + [[yes("diff", f"o{a}", f"o{b}")] for a, b in pairs]


def classes(depth, count, source):
    """A row of classes, each in the next one, and a hierarchy beside it, with things in its classes."""
    planted = [[no(f"a{n}", "X"), yes(f"a{n + 1}", "X")] for n in range(depth)] + [[yes("a0", "it")], [no(f"a{depth}", "it")]]
    many = count // 3
    others = [[no(f"b{source.randrange(n)}", "X"), yes(f"b{n}", "X")] for n in range(1, many)]
    others += [[no(f"a{source.randrange(depth)}", "X"), yes(f"b{source.randrange(many)}", "X")] for _ in range(many)]
    return planted, others + [[yes(f"b{source.randrange(many)}", f"t{n}")] for n in range(count - len(others))]


def ground(make):
    """Ground clauses over the planted atoms and others, in each of which one of the others has a value that is chosen beforehand."""
    def made(size, count, source):
        atoms, planted = make(size)
        values = {atom: source.choice((1, -1)) for atom in range(atoms + 1, atoms + count // 3 + 1)}
        others = []
        for _ in range(count):
            names = source.sample(range(1, atoms + len(values) + 1), 2)
            true = source.choice([atom for atom in source.sample(sorted(values), 3) if atom not in names])
            others.append([true * values[true]] + [name * source.choice((1, -1)) for name in names])
        return planted, others

    return made


KINDS = {
    "reach": (reach, ((10, 1000), (40, 1000), (10, 10000), (40, 10000))),
    "pigeons": (pigeons, ((3, 1000), (5, 1000), (3, 10000), (5, 10000))),
    "classes": (classes, ((10, 1000), (40, 1000), (10, 10000), (40, 10000))),
    "ground-chain": (ground(chain), ((10, 1000), (40, 1000), (10, 10000), (40, 10000))),
    "ground-pigeons": (ground(pigeonhole), ((3, 1000), (4, 1000), (3, 10000), (4, 10000))),
    "ground-parity": (ground(lambda size: parity(size, 1)), ((3, 1000), (7, 1000), (3, 10000), (7, 10000))),
}


def problem(make, size, count):
    """The clauses in any order, and the places of the planted ones, counted from 1."""
    source = random.Random(size * count)
    planted, others = make(size, count, source)
    clauses = [(clause, True) for clause in planted] + [(clause, False) for clause in others]
    source.shuffle(clauses)
    return [clause for clause, _ in clauses], [place for place, (_, is_planted) in enumerate(clauses, 1) if is_planted]


def own_core(text):
    """The places that the program names, none where it says that there is no core."""
    first = text.split(b"\n", 1)[0]
    if first.startswith(b"% core of "):
        return list(map(int, first.rpartition(b":")[2].split()))
    return [] if first.startswith(b"% no core for ") else None


def other_core(text):
    """The places that picomus names."""
    return sorted(map(int, re.findall(rb"^v ([1-9]\d*)$", text, re.M))) if b"s UNSATISFIABLE" in text else None


def certificates(program, text, core, path):
    """What `check` says of the refutation and of the saturations behind the first line."""
    them = re.split(rb"^(?=% SZS status )", text, flags=re.M)[1:]
    forms = [b"CNFRefutation"] + [b"Saturation"] * len(core)
    fit = len(them) == len(forms) and all(form in it.split(b"\n")[1] for it, form in zip(them, forms))
    return "valid" if fit and all(checked(program, b"\n" + it, path) == "valid" for it in them) else "bad !"


def row(name, given, words, places, much, small):
    """One problem's line, and the ratios to `prove` and to picomus. A `!` says that a core is not the planted one, or that `prove` says
    otherwise."""
    def sized(core):
        return "?" if core is None else f"{len(core)}{'' if core == places else ' !'}"

    times, texts = {}, {}
    for solver, command in words.items():
        times[solver], texts[solver] = timed(command, given.limit)
    core, other = own_core(texts["core"]), other_core(texts.get("picomus", b""))
    first = texts["prove"].split(b"\n", 1)[0]
    refuted, mark = b"status Unsatisfiable" in first, " !" if b"status Satisfiable" in first else ""
    ours, prove, theirs = (times.get(it) if known else None for it, known in (("core", core), ("prove", refuted), ("picomus", other)))
    ratios = [max(ours, 0.001) / max(it, 0.001) if ours and it else None for it in (prove, theirs)]
    seen = certificates(given.program, texts["core"], core, os.path.join(given.folder, "core.txt")) if core and small else ""
    line(name + mark, much, len(places), sized(core), sized(other) if "picomus" in words else "-", *map(shown, (ours, prove, theirs)),
         *(f"{it:.2f}" if it else "-" for it in ratios), seen)
    return ratios


def main():
    given = beginning(__doc__, KINDS, 60)
    every = []

    def means(name, found):
        line(name, *[""] * 7, *(mean([it for it in them if it]) for them in zip(*found)))

    line("problem", "clauses", "planted", "core", "picomus", "core s", "prove s", "picomus s", "to prove", "to picomus", "looked at")
    for kind in given.kinds:
        make, sizes = KINDS[kind]
        found = []
        for size, count in sizes:
            name = f"{kind} {size} in {count}"
            stem = os.path.join(given.folder, name.replace(" ", "-"))
            clauses, places = problem(make, size, count)
            words = {"core": [given.program, "core", stem + ".p"], "prove": [given.program, "prove", stem + ".p"]}
            if kind.startswith("ground"):
                write_tptp(stem + ".p", clauses)
                write_dimacs(stem + ".cnf", max(map(abs, itertools.chain.from_iterable(clauses))), clauses)
                if shutil.which("picomus"):
                    words["picomus"] = ["picomus", stem + ".cnf"]
            else:
                with open(stem + ".p", "w", encoding="ascii") as out:
                    out.writelines(tptp(clauses))
            found.append(row(name, given, words, places, len(clauses), (size, count) == sizes[0]))
        means(kind + ", mean", found)
        every += found
    means("all, mean", every)


if __name__ == "__main__":
    main()
