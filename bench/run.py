#!/usr/bin/env python3
"""Makes ground problems of known kinds, runs the program and, where it is installed, minisat on each, and prints the times
and their ratio. `run.py --help` lists the kinds."""

import os
import random
import shutil

from begin import beginning, shown, timed


# A problem is a number of atoms and a list of clauses; a literal is a number from 1 on, or its negative.

def random_clauses(atoms, ratio, seed):
    """Clauses of three different atoms with random signs, so many for each atom."""
    source = random.Random(seed)
    clauses = []
    for _ in range(int(atoms * ratio)):
        names = source.sample(range(1, atoms + 1), 3)
        clauses.append([n if source.random() < 0.5 else -n for n in names])
    return atoms, clauses


def pigeonhole(holes):
    """One pigeon more than holes."""
    def name(pigeon, hole):
        return pigeon * holes + hole + 1

    clauses = [[name(p, h) for h in range(holes)] for p in range(holes + 1)]
    for h in range(holes):
        for p in range(holes + 1):
            clauses += [[-name(p, h), -name(q, h)] for q in range(p)]
    return (holes + 1) * holes, clauses


def parity(count, seed):
    """Two chains of exclusive ors over the same inputs in two orders, whose ends are to differ."""
    source = random.Random(seed)
    order = list(range(1, count + 1))
    source.shuffle(order)
    clauses = []
    atoms = count

    def chain(names):
        nonlocal atoms
        last = names[0]
        for name in names[1:]:
            atoms += 1
            clauses.extend([[-last, -name, -atoms], [last, name, -atoms], [last, -name, atoms], [-last, name, atoms]])
            last = atoms
        return last

    first = chain(list(range(1, count + 1)))
    second = chain(order)
    clauses.extend([[first, second], [-first, -second]])
    return atoms, clauses


def planning(width, steps, seed):
    """A walk on a grid: one place at each step, each move to a neighbour, from one corner to the other one step too late."""
    source = random.Random(seed)
    walls = {(source.randrange(width), source.randrange(width)) for _ in range(width)} - {(0, 0), (width - 1, width - 1)}
    places = [(x, y) for x in range(width) for y in range(width) if (x, y) not in walls]
    index = {place: n for n, place in enumerate(places)}

    def name(step, place):
        return step * len(places) + index[place] + 1

    clauses = [[name(0, (0, 0))], [name(steps, (width - 1, width - 1))]]
    for step in range(steps + 1):
        clauses.append([name(step, place) for place in places])
        for place in places:
            clauses += [[-name(step, place), -name(step, other)] for other in places if index[other] < index[place]]
    for step in range(steps):
        for (x, y) in places:
            near = [(x, y), (x + 1, y), (x - 1, y), (x, y + 1), (x, y - 1)]
            clauses.append([-name(step, (x, y))] + [name(step + 1, place) for place in near if place in index])
    return (steps + 1) * len(places), clauses


def chain(length):
    """Implications in a row between a fact and its negation."""
    return length, [[1]] + [[-n, n + 1] for n in range(1, length)] + [[-length]]


def wide(length):
    """One clause of all atoms, each of which is false."""
    return length, [list(range(1, length + 1))] + [[-n] for n in range(1, length + 1)]


def table():
    """For each kind its problems: a name, and what makes it."""
    return {
        "random": [(f"random {n} at 4.26, seed {s}", lambda n=n, s=s: random_clauses(n, 4.26, s))
                   for n in (50, 100, 150, 200, 250) for s in (1, 2, 3)],
        "large": [(f"random {n} at 3", lambda n=n: random_clauses(n, 3, 1)) for n in (6666, 22000, 66000)],
        "pigeonhole": [(f"pigeonhole {n}", lambda n=n: pigeonhole(n)) for n in range(5, 11)],
        "parity": [(f"parity {n}", lambda n=n: parity(n, 1)) for n in (10, 15, 20, 25)],
        "planning": [(f"planning {w} by {w}, {s} steps", lambda w=w, s=s: planning(w, s, 1))
                     for (w, s) in ((4, 5), (5, 7), (6, 9), (6, 12), (8, 13))],
        "chain": [(f"chain {n}", lambda n=n: chain(n)) for n in (1000, 10000, 100000)],
        "wide": [(f"one clause of {n}", lambda n=n: wide(n)) for n in (1000, 10000, 100000)],
    }


def write_tptp(path, clauses):
    with open(path, "w", encoding="ascii") as out:
        for number, clause in enumerate(clauses, 1):
            literals = " | ".join(f"p{n}" if n > 0 else f"~p{-n}" for n in clause)
            out.write(f"cnf(c{number},axiom,{literals}).\n")


def write_dimacs(path, atoms, clauses):
    with open(path, "w", encoding="ascii") as out:
        out.write(f"p cnf {atoms} {len(clauses)}\n")
        for clause in clauses:
            out.write(" ".join(map(str, clause)) + " 0\n")


def verdict(text):
    first = text.split(b"\n", 1)[0]
    for word in (b"Unsatisfiable", b"Satisfiable"):
        if b"status " + word in first:
            return word.decode()
    if b"UNSATISFIABLE" in text:
        return "Unsatisfiable"
    if b"SATISFIABLE" in text:
        return "Satisfiable"
    return "?"


def main():
    given = beginning(__doc__, list(table()), 60, add=lambda parser: parser.add_argument(
        "--sat", action="store_true", help="run the command sat on the clauses in the DIMACS form"))
    command, ending = ("sat", ".cnf") if given.sat else ("prove", ".p")
    other = shutil.which("minisat")
    print(f"{'problem':34} {'clauses':>8} {'verdict':>14} {'instgen':>9} {'minisat':>9} {'ratio':>7}", flush=True)
    for name, make in (row for kind in given.kinds for row in table()[kind]):
        atoms, clauses = make()
        stem = os.path.join(given.folder, name.replace(" ", "-").replace(",", "").replace(".", "-"))
        write_tptp(stem + ".p", clauses)
        write_dimacs(stem + ".cnf", atoms, clauses)
        ours, text = timed([given.program, command, stem + ending], given.limit)
        theirs, said = timed([other, "-verb=0", stem + ".cnf"], given.limit) if other else (None, b"")
        ratio = f"{ours / theirs:.1f}" if ours and theirs else "-"
        found = verdict(text)
        if other and theirs is not None and ours is not None and verdict(said) != found:
            found += " !"
        print(f"{name:34} {len(clauses):8} {found:>14} {shown(ours):>9} {shown(theirs):>9} {ratio:>7}", flush=True)


if __name__ == "__main__":
    main()
