#!/usr/bin/env python3
"""Builds crates/speed, runs the engine alone on generated problems, and prints for each how the run ended, its members,
solves and appended entries, the seconds, the members a second, and the bytes of memory a member. `engine.py --help` lists the kinds."""

import itertools
import math
import os
import random
import resource
import sys

from begin import beginning, built_speed


def chain(length, reached=True):
    """Reachability along a path; the goal is its end, or a constant beside it."""
    yield 'r(c1)'
    for i in range(1, length):
        yield 'e(c%d,c%d)' % (i, i + 1)
    yield '~ r(X) | ~ e(X,Y) | r(Y)'
    yield '~ r(c%d)' % length if reached else '~ r(d)'


def pigeonhole(holes, pigeons):
    for i in range(pigeons):
        yield ' | '.join('in(p%d,h%d)' % (i, j) for j in range(holes))
    for i in range(pigeons):
        for k in range(i):
            yield '~ in(p%d,H) | ~ in(p%d,H)' % (k, i)


def counter(bits, reached=True):
    """All states of a counter, from zero on; the goal is the last state, or one of a value that no bit has."""
    variables = ['X%d' % i for i in range(bits)]
    yield 's(%s)' % ','.join(['o'] * bits)
    for i in range(bits):
        old = ['o'] + ['i'] * i
        new = ['i'] + ['o'] * i
        rest = variables[i + 1:]
        yield '~ s(%s) | s(%s)' % (','.join(rest + old), ','.join(rest + new))
    yield '~ s(%s)' % ','.join(['i' if reached else 'u'] * bits)


def latin(size, seed=1):
    """A latin square; with a seed below zero one whose first row is to repeat a value."""
    for i in range(size):
        for j in range(size):
            yield ' | '.join('cell(a%d,b%d,v%d)' % (i, j, k) for k in range(size))
    yield '~ cell(R,C,V) | ~ cell(R,C,W) | ~ other_value(V,W)'
    yield '~ cell(R,C,V) | ~ cell(R,D,V) | ~ other_column(C,D)'
    yield '~ cell(R,C,V) | ~ cell(S,C,V) | ~ other_row(R,S)'
    for name, letter in [('value', 'v'), ('column', 'b'), ('row', 'a')]:
        for i in range(size):
            for j in range(size):
                if i != j:
                    yield 'other_%s(%s%d,%s%d)' % (name, letter, i, letter, j)
    if seed < 0:
        for j in range(size):
            yield '~ cell(a%d,b%d,v0)' % (size - 1, j)


def clauses(seed, constants, count):
    """Random clauses of three literals over binary predicates, with variables and constants."""
    draw = random.Random(seed)
    for _ in range(count):
        literals = []
        for _ in range(3):
            places = [draw.choice(['X', 'Y', 'Z', 'c%d' % draw.randrange(constants)]) for _ in range(2)]
            literals.append('%sp%d(%s)' % (draw.choice(['', '~ ']), draw.randrange(6), ','.join(places)))
        yield ' | '.join(literals)


def tower(height, reached=True):
    """Naturals by a successor, which count beyond the height; the goal is at the height, or off the track."""
    term = 'z'
    for _ in range(height):
        term = 's(%s)' % term
    yield 'n(z)'
    yield '~ n(X) | n(s(X))'
    yield '~ n(%s)' % term if reached else '~ n(w)'


# for each kind its problems: the size, and the literals of each clause
KINDS = {
    'chain': lambda: [row for size in (1000, 10000, 100000) for row in (('%d' % size, chain(size)), ('%d, sat' % size, chain(size, False)))],
    'pigeonhole': lambda: [('%d' % holes, pigeonhole(holes, holes + 1)) for holes in range(6, 10)] + [('9, sat', pigeonhole(9, 9))],
    'counter': lambda: [('%d' % bits, counter(bits)) for bits in (4, 6, 8, 10, 12, 14, 16)] + [('10, sat', counter(10, False))],
    'latin': lambda: [row for size in range(5, 8) for row in (('%d, sat' % size, latin(size)), ('%d' % size, latin(size, -1)))],
    'clauses': lambda: [('%d, seed %d' % row, clauses(row[1], 4, row[0])) for row in itertools.product((30, 45, 60, 90), range(2))],
    'tower': lambda: [('%d' % height, tower(height)) for height in (100, 200)] + [('sat', tower(1, False))],
}


def write(path, literals):
    with open(path, 'w') as file:
        for i, clause in enumerate(literals):
            file.write('cnf(k%d,plain,%s).\n' % (i, clause))


def measured(program, path, budget, limit):
    """What the program tells, its processor seconds, and the bytes that it held at most."""
    read, write_end = os.pipe()
    child = os.fork()
    if child == 0:
        os.dup2(write_end, 1)
        resource.setrlimit(resource.RLIMIT_CPU, (limit, limit))
        os.execv(program, [program, 'engine', path, str(budget)])
    os.close(write_end)
    with os.fdopen(read) as pipe:
        told = pipe.read().split()
    _, _, used = os.wait4(child, 0)
    return told, used.ru_utime + used.ru_stime, used.ru_maxrss * 1024


def words(parser):
    parser.add_argument('--budget', type=int, default=20000, help='symbols, where there are function symbols')


def main():
    given = beginning(__doc__, KINDS, 20, built_speed, words)
    print('%-12s %-12s %-10s %8s %7s %8s %8s %9s %6s' % ('kind', 'size', 'status', 'members', 'solves', 'appended', 'seconds', 'members/s', 'bytes'))
    for kind, size, literals in ((kind, *row) for kind in given.kinds for row in KINDS[kind]()):
        path = os.path.join(given.folder, '%s_%s.p' % (kind, size.replace(', ', '_').replace(' ', '_')))
        write(path, literals)
        told, seconds, held = measured(given.program, path, given.budget, math.ceil(given.limit))
        if not told:
            print('%-12s %-12s %-10s %8s %7s %8s %8.2f' % (kind, size, 'none', '', '', '', seconds))
            continue
        counts = dict(word.split('=') for word in told[1:])
        members = int(counts['members'])
        print('%-12s %-12s %-10s %8d %7s %8s %8.3f %9.0f %6.0f' % (
            kind, size, told[0], members, counts['solves'], counts['appended'], seconds, members / max(seconds, 0.001), held / members))
        sys.stdout.flush()


if __name__ == '__main__':
    main()
