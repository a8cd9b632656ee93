#!/usr/bin/env python3
"""Builds crates/speed, runs its part of the index, and prints what storing atoms in the tree and asking for them costs. Each time is the
least of some runs, less that of a run that does all but the work that is measured."""

import resource
import subprocess

from begin import beginning, built_speed

RUNS = 5


def seconds(program, *words):
    """The least processor seconds of some runs, and how many entries were given."""
    least = None
    for _ in range(RUNS):
        before = resource.getrusage(resource.RUSAGE_CHILDREN)
        run = subprocess.run([program, 'index', *map(str, words)], capture_output=True, text=True, check=True)
        after = resource.getrusage(resource.RUSAGE_CHILDREN)
        spent = after.ru_utime + after.ru_stime - before.ru_utime - before.ru_stime
        least = spent if least is None else min(least, spent)
    return least, int(run.stdout)


def main():
    program = beginning(__doc__, build=built_speed).program
    for kind, constants, stored, rounds, what in [
        ('first', 317, 100000, 100, 'e(ci,X0) on atoms e(ci,cj)'),
        ('second', 317, 100000, 10, 'e(X0,cj) on atoms e(ci,cj)'),
        ('unary', 100000, 100000, 10, 'p(ci) on atoms p(ci)'),
    ]:
        terms, _ = seconds(program, kind, constants, 0, 0)
        storing, _ = seconds(program, kind, constants, stored, 0)
        asking, given = seconds(program, kind, constants, stored, rounds)
        print('%d atoms stored in %.3f s' % (stored, storing - terms))
        print('%d queries %s: %d entries in %.3f s' % (constants * rounds, what, given, asking - storing))


if __name__ == '__main__':
    main()
