#!/usr/bin/env python3
"""Makes formulas of circuits, each in five orders of its names, clauses and literals, and compares `sat` with minisat without its
preprocessing, minisat and cadical. A multiplier's says that a prime number has two factors above 1, an adder's that two ways to add
give different sums; so none can be true."""

import os
import random
import shutil

from begin import beginning
from run import verdict, write_dimacs
from table import compare

PRIMES = {12: 4093, 14: 16381, 16: 65521, 18: 262139}
WIDTHS = (32, 64, 128, 256)
ORDERS = range(1, 6)


class Circuit:
    """Gates as clauses (Tseitin): each gives its output a name of its own."""

    def __init__(self):
        self.names = 0
        self.clauses = []

    def name(self):
        self.names += 1
        return self.names

    def both(self, a, b):
        out = self.name()
        self.clauses += [[-out, a], [-out, b], [out, -a, -b]]
        return out

    def either(self, a, b):
        return -self.both(-a, -b)

    def differ(self, a, b):
        out = self.name()
        self.clauses += [[-out, a, b], [-out, -a, -b], [out, -a, b], [out, a, -b]]
        return out

    def half_adder(self, a, b):
        return self.differ(a, b), self.both(a, b)

    def full_adder(self, a, b, c):
        part = self.differ(a, b)
        return self.differ(part, c), self.either(self.both(a, b), self.both(part, c))


def product_columns(circuit, first, second):
    """The bits of the product by their weights: sums of columns, whose carries go into the next."""
    columns = [[] for _ in range(len(first) + len(second) + 1)]
    for i, a in enumerate(first):
        for j, b in enumerate(second):
            columns[i + j].append(circuit.both(a, b))
    for weight, column in enumerate(columns[:-1]):
        while len(column) > 1:
            add = circuit.full_adder if len(column) > 2 else circuit.half_adder
            bits, column[:3] = column[:3], []
            total, carry = add(*bits)
            column.append(total)
            columns[weight + 1].append(carry)
    return columns


def multiplier(bits):
    """Two factors above 1 of a prime number of so many bits."""
    circuit = Circuit()
    first, second = ([circuit.name() for _ in range(bits - 1)] for _ in range(2))
    columns = product_columns(circuit, first, second)
    circuit.clauses += [[column[0] if PRIMES[bits] >> weight & 1 else -column[0]] for weight, column in enumerate(columns) if column]
    circuit.clauses += [first[1:], second[1:]]
    return circuit.names, circuit.clauses


def sum_by_gates(circuit, first, second):
    """The sum by half and full adders."""
    total, carry = circuit.half_adder(first[0], second[0])
    bits = [total]
    for a, b in zip(first[1:], second[1:]):
        total, carry = circuit.full_adder(a, b, carry)
        bits.append(total)
    return bits + [carry]


def sum_by_majority(circuit, first, second):
    """The sum whose carries are what two of three bits say."""
    bits, carry = [circuit.differ(second[0], first[0])], circuit.both(second[0], first[0])
    for a, b in zip(first[1:], second[1:]):
        bits.append(circuit.differ(a, circuit.differ(b, carry)))
        pairs = circuit.either(circuit.both(a, b), circuit.both(b, carry))
        carry = circuit.either(pairs, circuit.both(a, carry))
    return bits + [carry]


def adders(width):
    """Two sums of the same numbers that differ in some bit."""
    circuit = Circuit()
    first, second = ([circuit.name() for _ in range(width)] for _ in range(2))
    pairs = zip(sum_by_gates(circuit, first, second), sum_by_majority(circuit, first, second))
    circuit.clauses.append([circuit.differ(a, b) for a, b in pairs])
    return circuit.names, circuit.clauses


def shuffled(names, clauses, order):
    """The same clauses under other names, in another order."""
    source = random.Random(order)
    others = list(range(1, names + 1))
    source.shuffle(others)
    changed = [[others[abs(it) - 1] * (1 if it > 0 else -1) for it in clause] for clause in clauses]
    source.shuffle(changed)
    for clause in changed:
        source.shuffle(clause)
    return changed


def steps_and_hints(text):
    """How many steps a derivation has, and how many hints they have together."""
    steps = [line for line in text.splitlines() if line.startswith(b"r ")]
    hints = sum(len(it.split(b" 0 ", 1)[1].split()) - 1 for it in steps)
    return f"{len(steps)} steps, {hints} hints"


def peers():
    found = {"minisat -no-pre": ["minisat", "-no-pre", "-verb=0"], "minisat": ["minisat", "-verb=0"], "cadical": ["cadical", "-q"]}
    return {name: words for name, words in found.items() if shutil.which(words[0])}


def problems(given, others):
    sizes = {"multiplier": [(bits, multiplier) for bits in PRIMES], "adder": [(width, adders) for width in WIDTHS]}

    def of_kind(kind):
        for size, make in sizes[kind]:
            names, clauses = make(size)
            for order in ORDERS:
                path = os.path.join(given.folder, f"{kind}-{size}-{order}.cnf")
                write_dimacs(path, names, shuffled(names, clauses, order))
                commands = {"instgen": [given.program, "sat", path], **{name: [*words, path] for name, words in others.items()}}
                yield f"{kind} {size}, order {order}", "Unsatisfiable", commands, steps_and_hints

    return of_kind


def main():
    given = beginning(__doc__, ["multiplier", "adder"], 60)
    others = peers()
    compare(given, list(others), verdict, problems(given, others))


if __name__ == "__main__":
    main()
