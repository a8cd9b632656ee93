#!/usr/bin/env python3
"""Measures the checker: on certificates that the program printed itself, what `check` takes of what `prove` took, and on
certificates made here, what pairs, covers and hints cost. `check.py --help` lists the kinds. All times are processor
seconds of one run, but for those of `formats`."""

import itertools
import math
import os
import resource
import subprocess
import sys

from begin import beginning
from epr import KINDS, mean, tptp
from run import table as ground_problems, write_tptp

# The certificates made here. A clause is its text; all that stand in one certificate are inputs and members at once, and the
# first literal of each is selected.


def saturation(clauses):
    """The text of a saturation whose members are the given clauses."""
    yield "% SZS status Satisfiable for made\n% SZS output start Saturation for made\n% instgen certificate 1\n"
    yield from (f"cnf(i{n},axiom,{clause},named(n)).\n" for n, clause in enumerate(clauses, 1))
    yield from (f"cnf(m{n},plain,{clause},input({n}),[selected(1)]).\n" for n, clause in enumerate(clauses, 1))
    yield "% SZS output end Saturation for made\n"


def pairs(count):
    """Atoms of one predicate in both signs, none of which unify."""
    half = count // 2
    return saturation([f"p(a{n},X0)" for n in range(half)] + [f"~p(b{n},X0)" for n in range(half)])


def covers(count, heads):
    """One hundred thousand pairs, each covered by a unit; the units have so many predicates."""
    facts, lefts = 20, 5000
    clauses = [f"p(d{n})" for n in range(facts)]
    clauses += [f"~p(X0) | r{n % heads}(c{n})" for n in range(lefts)] + [f"r{n % heads}(c{n})" for n in range(lefts)]
    return saturation(clauses + [f"s(c{n})" for n in range(count - len(clauses))])


def hints(count, width):
    """A chain of so many clauses, walked ten times by steps of so many hints."""
    clauses = ["p0"] + [f"~p{n} | p{n + 1}" for n in range(count - 2)] + [f"~p{count - 2}"]
    yield "% SZS status Unsatisfiable for made\n% SZS output start CNFRefutation for made\n% instgen certificate 1\n"
    yield "% ground constant bot_0\n"
    yield from (f"cnf(i{n},axiom,{clause},named(n)).\n" for n, clause in enumerate(clauses, 1))
    yield from (f"cnf(m{n},plain,{clause},input({n})).\n" for n, clause in enumerate(clauses, 1))
    yield from (f"cnf(g{n},plain,{clause},ground(m{n})).\n" for n, clause in enumerate(clauses, 1))
    number = 0
    for _ in range(10):
        last = "g1"
        for begin in range(0, count - 2, width):
            end = min(begin + width, count - 2)
            number += 1
            used = ",".join([last] + [f"g{n + 2}" for n in range(begin, end)])
            yield f"cnf(r{number},plain,p{end},rup([{used}])).\n"
            last = f"r{number}"
    yield f"cnf(r{number + 1},plain,$false,rup([{last},g{count}])).\n% SZS output end CNFRefutation for made\n"


MADE = {
    "pairs": [("20,000 members, no pair unifies", lambda: pairs(20000))],
    "covers": [("20,000 members, 100,000 covered pairs", lambda: covers(20000, 100)),
               ("the same, all units of one predicate", lambda: covers(20000, 1))],
    "hints": [("100,000 members, 1,000,000 hints", lambda: hints(100000, 20))],
}


def spent():
    """The processor seconds of all commands that have ended."""
    used = resource.getrusage(resource.RUSAGE_CHILDREN)
    return used.ru_utime + used.ru_stime


def measured(words, limit, out=os.devnull):
    """The processor seconds of a command whose output goes to a file, or None where it takes longer than the limit."""
    with open(out, "wb") as to:
        begun = spent()
        try:
            subprocess.run(words, stdout=to, stderr=subprocess.DEVNULL, timeout=limit, check=False)
        except subprocess.TimeoutExpired:
            return None
    return spent() - begun


def line(name, *cells):
    print(f"{name:42}" + "".join(f" {cell:>10}" for cell in cells), flush=True)


def own_problems(kind):
    """Names of problems and what writes each: those without function symbols, or the ground ones."""
    if kind == "ground":
        for name, make in itertools.chain.from_iterable(ground_problems().values()):
            yield name, lambda path, make=make: write_tptp(path, make()[1])
        return

    def write(path, make, size, refuted):
        with open(path, "w", encoding="ascii") as out:
            out.writelines(tptp(make(size, refuted)))

    for name, (make, sizes) in KINDS.items():
        for size, refuted in itertools.product(sizes, (True, False)):
            yield f"{name} {size} {'unsat' if refuted else 'sat'}", lambda path, them=(make, size, refuted): write(path, *them)


def in_old_format(text, path):
    """Writes the same saturation in the first format that can hold it, without covers, and returns which that is, if any."""
    with open(text, "rb") as it:
        lines = it.read().split(b"\n")
    if not any(line.startswith(b"% SZS output start Saturation") for line in lines[:3]):
        return None
    old = 2 if any(b",lemma(" in line for line in lines) else 1
    with open(path, "wb") as out:
        out.write(b"\n".join(line.replace(b"certificate 3", b"certificate %d" % old) for line in lines if not line.startswith((b"cnf(q", b"cnf(c"))))
    return old


def first_format(program, folder, text):
    """The seconds of `check` on the saturation in format 1, and how many more it takes to find, name and write the covers."""
    path, said = os.path.join(folder, "first.txt"), os.path.join(folder, "first.out")
    if in_old_format(text, path) != 1:
        return None
    judged = measured([program, "check", path], None, said)
    rewritten = measured([program, "check", path, "--rewrite"], None, said)
    return judged, max(rewritten - judged, 0)


def own(program, folder, limit, kind):
    """The program's own certificates."""
    line(kind, "bytes", "prove", "check", "check MB/s", "of prove", "format 1", "to name")
    whole = []
    named = []
    problem, text, said = (os.path.join(folder, f"own.{it}") for it in ("p", "txt", "out"))
    for name, write in own_problems(kind):
        write(problem)
        found = measured([program, "prove", problem], limit, text)
        if found is None:
            line(name, "", "over")
            continue
        judged = measured([program, "check", text], limit, said)
        with open(said, "rb") as it:
            mark = "" if it.read().startswith(b"valid") else " !"
        much = os.path.getsize(text)
        whole.append((found, judged))
        first = first_format(program, folder, text)
        if first:
            named.append((found, judged, *first))
        line(name + mark, much, f"{found:.3f}", f"{judged:.3f}", f"{much / max(judged, 0.001) / 1e6:.0f}", f"{judged / max(found, 0.001):.2f}",
             *(f"{it:.3f}" for it in first or ()))
    line("mean (geometric) where prove takes 0.05 s", "", "", "", "", mean([judged / found for found, judged in whole if found >= 0.05]))
    line("all together", "", f"{sum(it for it, _ in whole):.2f}", f"{sum(it for _, it in whole):.2f}", "",
         f"{sum(it for _, it in whole) / max(sum(it for it, _ in whole), 0.001):.2f}")
    long = [it for it in named if it[0] >= 0.05]
    if long:
        line("check in format 3 of that in format 1", "", "", "", "", mean([judged / max(first, 0.001) for _, judged, first, _ in long]))
        line("prove of prove without naming, at most", "", "", "", "", mean([found / max(found - more, 0.001) for found, _, _, more in long]))


def spent_by(words):
    """The processor seconds of one command, which has to end well: a refused certificate takes no time worth telling."""
    with open(os.devnull, "wb") as to:
        process = subprocess.Popen(words, stdout=to, stderr=subprocess.DEVNULL)
        _, status, used = os.wait4(process.pid, 0)
        process.returncode = status  # it was waited for here
    if status:
        sys.exit(f"{' '.join(words)} did not end well")
    return used.ru_utime + used.ru_stime


def by_turns(commands, seconds=1, least=15):
    """Of each command the processor seconds that a quarter of its runs stay below, where they run by turns."""
    times = [[] for _ in commands]
    while len(times[0]) < least or sum(map(sum, times)) < seconds:
        for words, them in zip(commands, times):
            them.append(spent_by(words))
    return [sorted(them)[len(them) // 4] for them in times]


def beside_old(program, name, old, text):
    """One line: `check` of a saturation in the first format that can hold it, of the same once more, and in format 3."""
    number = in_old_format(text, old)
    if number is None:
        return None
    first, again, third = by_turns([[program, "check", it] for it in (old, old, text)])
    line(name, number, os.path.getsize(old), os.path.getsize(text), f"{1000 * first:.2f}", f"{1000 * third:.2f}", f"{third / first:.3f}",
         f"{again / first:.3f}")
    return first, third


def formats(program, folder, limit):
    """What `check` takes of saturations that name their covers, beside the same in the first format that can hold them."""
    line("check by turns, milliseconds", "format", "bytes", "in 3", "check", "in 3", "ratio", "of itself")
    text, old = (os.path.join(folder, f"turn.{it}") for it in ("txt", "old"))
    rows = []
    for name, write in own_problems("epr"):
        if name.endswith(" sat"):
            write(old)
            if measured([program, "prove", old], limit, text) is not None:
                rows.append(beside_old(program, name, old, text))
    for name, make in itertools.chain(MADE["pairs"], MADE["covers"]):
        with open(old, "w", encoding="ascii") as out:
            out.writelines(make())
        measured([program, "check", old, "--rewrite"], None, text)
        rows.append(beside_old(program, name, old, text))
    rows = [it for it in rows if it]
    line("all together", *[""] * 5, f"{sum(third for _, third in rows) / sum(first for first, _ in rows):.3f}")
    line("mean (geometric)", *[""] * 5, f"{math.exp(sum(math.log(third / first) for first, third in rows) / len(rows)):.3f}")


def made_here(program, name, path):
    """A certificate of format 1, checked, rewritten in format 3, and checked so."""
    taken = measured([program, "check", path], None, path + ".out")
    with open(path + ".out", "rb") as said:
        text = said.read().split(b"\n", 1)[0].decode()
    again = measured([program, "check", path, "--rewrite"], None, path + ".3")
    much = os.path.getsize(path)
    line(name + ("" if text.startswith("valid") else f" ({text})"), much, f"{taken:.2f}", f"{again:.2f}", f"{much / taken / 1e6:.0f}")
    judged = measured([program, "check", path + ".3"], None, path + ".out")
    more = os.path.getsize(path + ".3")
    line("  the same, rewritten", more, f"{judged:.2f}", "", f"{more / max(judged, 0.001) / 1e6:.0f}")


def main():
    given = beginning(__doc__, ["epr", "ground", "formats", *MADE, "stress"], 20)
    kinds, folder = given.kinds, given.folder
    for kind in ("epr", "ground"):
        if kind in kinds:
            own(given.program, folder, given.limit, kind)
    if "formats" in kinds:
        formats(given.program, folder, given.limit)
    if set(kinds) & set(MADE):
        line("made here, format 1, then rewritten", "bytes", "check", "--rewrite", "check MB/s")
    for name, make in itertools.chain.from_iterable(MADE.get(kind, []) for kind in kinds):
        path = os.path.join(folder, "made.txt")
        with open(path, "w", encoding="ascii") as out:
            out.writelines(make())
        made_here(given.program, name, path)
    if "stress" in kinds:
        line("stress", "seconds")
        for size in (1000, 10000, 100000):
            line(f"{size} links", f"{measured([given.program, 'stress', str(size)], None):.2f}")


if __name__ == "__main__":
    main()
