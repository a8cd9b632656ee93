#!/usr/bin/env python3
"""Makes quantified Boolean formulas of known kinds, in several sizes and of both values, runs the program on each, and where
they are installed depqbf and z3, and prints the times, and for each kind and in all the geometric means of the ratios.
`qbf.py --help` lists the kinds."""

import itertools
import os
import random
import shutil

from begin import beginning
from table import checked, compare

# A formula is a list of blocks, each a letter with its variables, and a list of clauses as in run.py.


class Gates:
    """Clauses that define variables from a number on by variables below them."""

    def __init__(self, inputs):
        self.inputs, self.last, self.clauses = inputs, inputs, []

    def put(self, function, *names):
        """A new variable that equals the function of those."""
        self.last += 1
        for values in itertools.product((False, True), repeat=len(names)):
            outer = [-name if value else name for name, value in zip(names, values)]
            self.clauses.append(outer + [self.last if function(*values) else -self.last])
        return self.last

    def equal(self, one, other):
        self.clauses += [[-one, other], [one, -other]]

    def made(self):
        return list(range(self.inputs + 1, self.last + 1))


def odd(*values):
    return sum(values) % 2 == 1


def both(one, other):
    return one and other


def adders(bits, value):
    """For all inputs two adders that make their carries in different ways have equal sums; or one forgets a carry."""
    gates = Gates(2 * bits)
    carry = other = gates.put(lambda: False)
    for one, two in zip(range(1, bits + 1), range(bits + 1, 2 * bits + 1)):
        half = gates.put(odd, one, two)
        gates.equal(gates.put(odd, one, two, carry), gates.put(odd, half, other))
        carry = gates.put(lambda a, b, c: a + b + c >= 2, one, two, carry)
        whole = value or one < bits
        other = gates.put(lambda h, c, a: c if h else a, half, other, one) if whole else gates.put(both, one, two)
    gates.equal(carry, other)
    return [("a", list(range(1, 2 * bits + 1))), ("e", gates.made())], gates.clauses


def copies(count, value):
    """For all values of a row of variables there is a row that equals it; there is none that equals all."""
    blocks = [("a", list(range(1, count + 1))), ("e", list(range(count + 1, 2 * count + 1)))]
    gates = Gates(2 * count)
    for n in range(1, count + 1):
        gates.equal(n, n + count)
    return blocks if value else blocks[::-1], gates.clauses


def steps(count, value):
    """Universal and existential variables by turns, each of the latter the exclusive or of the former so far; or the last is too early."""
    blocks = [("ae"[n % 2], [n + 1]) for n in range(2 * count)]
    clauses = [[-1, 2], [1, -2]]
    for n in range(3, 2 * count, 2):
        clauses += [[-n + 1, -n, -n - 1], [-n + 1, n, n + 1], [n - 1, -n, n + 1], [n - 1, n, -n - 1]]
    return blocks if value else blocks[:-2] + blocks[:-3:-1], clauses


def chosen(parts, ratio):
    """Clauses with so many literals of each block, and so many clauses for each variable of the last one (Chen and Interian, A model
    for generating random quantified Boolean formulas, 2005)."""
    source = random.Random(1)
    blocks, last = [], 0
    for letter, count, _ in parts:
        blocks.append((letter, list(range(last + 1, last + count + 1))))
        last += count
    clauses = []
    for _ in range(ratio * parts[-1][1]):
        names = [name for (_, _, taken), (_, them) in zip(parts, blocks) for name in source.sample(them, taken)]
        clauses.append([name * source.choice((1, -1)) for name in names])
    return blocks, clauses


def two(count, value):
    """A universal and an existential block, with two and three literals of each clause."""
    return chosen([("a", count, 2), ("e", count, 3)], 8 if value else 14)


def three(count, value):
    """An existential, a universal and an existential block, with one, one and two literals."""
    return chosen([("e", count, 1), ("a", count, 1), ("e", count, 2)], 6 if value else 10)


def parity(count, value):
    """Some inputs have a parity that differs from both truth values; or for each of these there are some (Beyersdorff, Chew and
    Janota, Proof complexity of resolution-based QBF calculi, 2015)."""
    gates = Gates(count + 1)
    last = 1
    for name in range(2, count + 1):
        last = gates.put(odd, last, name)
    gates.clauses += [[count + 1, last], [-count - 1, -last]]
    blocks = [("e", list(range(1, count + 1))), ("a", [count + 1])]
    return (blocks[::-1] if value else blocks) + [("e", gates.made())], gates.clauses


def counter(bits, value):
    """A binary counter that stays or goes on comes from zero to all ones in enough steps, or in half of them, by halving the walk."""
    levels = bits if value else bits - 1
    names = itertools.count(1)

    def state():
        return [next(names) for _ in range(bits)]

    begin, end = state(), state()
    blocks, clauses = [("e", begin + end)], [[-name] for name in begin] + [[name] for name in end]
    for _ in range(levels):
        middle, side = state(), next(names)
        first, last = state(), state()
        blocks += [("e", middle), ("a", [side]), ("e", first + last)]
        for sign, ends in ((side, (begin, middle)), (-side, (middle, end))):
            for one, other in zip(first + last, ends[0] + ends[1]):
                clauses += [[sign, -one, other], [sign, one, -other]]
        begin, end = first, last
    carry = next(names)
    gates = Gates(carry)
    for one, other in zip(begin, end):
        gates.equal(other, gates.put(odd, one, carry))
        carry = gates.put(both, one, carry)
    return blocks + [("e", list(range(gates.inputs, gates.last + 1)))], clauses + gates.clauses


KINDS = {
    "adders": (adders, (2, 3, 4, 6)),
    "copies": (copies, (4, 8, 16, 64)),
    "steps": (steps, (4, 8, 16, 64)),
    "two": (two, (6, 10, 14)),
    "three": (three, (6, 10, 14)),
    "parity": (parity, (6, 10, 14, 50)),
    "counter": (counter, (2, 3, 4)),
}


def write_qdimacs(path, blocks, clauses):
    with open(path, "w", encoding="ascii") as out:
        out.write(f"p cnf {sum(len(names) for _, names in blocks)} {len(clauses)}\n")
        for letter, numbers in blocks + [("", clause) for clause in clauses]:
            out.write(" ".join([letter, *map(str, numbers), "0"]).lstrip() + "\n")


def write_smt(path, blocks, clauses):
    with open(path, "w", encoding="ascii") as out:
        out.write("(assert ")
        for letter, names in blocks:
            out.write(f"({'forall' if letter == 'a' else 'exists'} ({' '.join(f'(x{n} Bool)' for n in names)})\n")
        out.write("(and true\n")
        for clause in clauses:
            out.write(f"(or false {' '.join(f'x{n}' if n > 0 else f'(not x{-n})' for n in clause)})\n")
        out.write(")" * (len(blocks) + 2) + "\n(check-sat)\n")


def answer(text):
    """The value in the first line of what a solver printed."""
    first = text.split(b"\n", 1)[0].strip()
    return "true" if first in (b"s TRUE", b"SAT", b"sat") else "false" if first in (b"s FALSE", b"UNSAT", b"unsat") else "?"


def main():
    given = beginning(__doc__, KINDS)
    others = [it for it in ("depqbf", "z3") if shutil.which(it)]

    def problems(kind):
        make, sizes = KINDS[kind]
        for size, value in itertools.product(sizes, (True, False)):
            name = f"{kind} {size} {str(value).lower()}"
            stem = os.path.join(given.folder, name.replace(" ", "-"))
            blocks, clauses = make(size, value)
            write_qdimacs(stem + ".qdimacs", blocks, clauses)
            write_smt(stem + ".smt2", blocks, clauses)
            words = {"depqbf": ["depqbf", stem + ".qdimacs"], "z3": ["z3", stem + ".smt2"]}
            words = {"instgen": [given.program, "qbf", stem + ".qdimacs"], **{it: words[it] for it in others}}

            def look(text, stem=stem, small=size == sizes[0]):
                return checked(given.program, text, stem + ".txt") if small else ""

            yield name, str(value).lower(), words, look

    compare(given, others, answer, problems)


if __name__ == "__main__":
    main()
