#!/usr/bin/env python3
"""Runs the program on inputs as long as it reads, in a quarter of the length, a half, and the whole, and on large jobs in little
memory. Prints the seconds and the memory of each: the time is to grow with the bytes, memory is to stay below 2 GiB, and in little
memory each run is to end with its answer or with MemoryOut, and none by a signal. A certificate of one term of many levels is
checked. Words choose tables: long, deep, little."""

import os
import sys
import tempfile

import runs

WHOLE = 16777216
INCLUDES = 16


def padded(text, length):
    """The text with blanks to that length."""
    return text + b' ' * (length - len(text))


def repeated(make, length):
    """Pieces in a row, as many as there is room for."""
    pieces, size, number = [], 0, 0
    while True:
        piece = make(number)
        if size + len(piece) > length:
            return b''.join(pieces)
        pieces.append(piece)
        size += len(piece)
        number += 1


def one_clause(literal):
    def made(length):
        head, end = b'cnf(a,axiom,$false', b').'
        return head + repeated(literal, length - len(head) - len(end)) + end
    return made


def deep_terms(length):
    term = b'f(' * 253 + b'c' + b')' * 253
    return repeated(lambda n: b'cnf(k%d,axiom,p(%s)).\n' % (n, term), length)


def units(length):
    count = 300000 * length // WHOLE
    room = length // count - 1
    return b''.join((b'cnf(k%d,axiom,' % n + b'p%d).' % n).ljust(room) + b'\n' for n in range(count))


def one_name(length):
    head, end = b'cnf(a,axiom,', b').'
    return head + b'p' * (length - len(head) - len(end)) + end


def alone(make):
    return lambda folder, length: runs.write(folder, 'long.p', padded(make(length), length))


def over_includes(folder, length):
    """The units, spread over a file and sixteen levels of includes, each file but the last with an include at its end."""
    part = length // (INCLUDES + 1)
    for level in range(INCLUDES + 1):
        more = b"include('level%d.p').\n" % (level + 1) if level < INCLUDES else b''
        text = repeated(lambda n, level=level: b'cnf(k%d_%d,axiom,q%d_%d).\n' % (level, n, level, n), part - len(more))
        runs.write(folder, 'level%d.p' % level, padded(text + more, part))
    return 'level0.p'


KINDS = [
    ('one clause, one literal again and again', alone(one_clause(lambda n: b'|q'))),
    ('one clause, a literal for each place', alone(one_clause(lambda n: b'|q%d' % n))),
    ('terms of 255 levels', alone(deep_terms)),
    ('300,000 units', alone(units)),
    ('one name', alone(one_name)),
    ('over 16 levels of includes', over_includes),
]


def table_of_lengths(program, limit):
    bad = 0
    print('%-42s %10s %8s %9s %8s  %s' % ('input', 'bytes', 'ended', 'seconds', 'MB', 'first line'))
    for what, make in KINDS:
        for length in (WHOLE // 4, WHOLE // 2, WHOLE):
            with tempfile.TemporaryDirectory() as folder:
                name = make(folder, length)
                found = runs.ended([program, 'prove', name], folder, limit)
            wrong = found.status not in (0, 1) or found.bytes_held >= 2 ** 31
            bad += wrong
            print('%-42s %10d %8s %9.2f %8.0f  %s%s' % (
                what, length, found.how(), found.seconds, found.bytes_held / 1e6, found.first_line()[:40], '   WRONG' if wrong else ''), flush=True)
    with tempfile.TemporaryDirectory() as folder:
        runs.write(folder, 'long.p', padded(b'', WHOLE + 1))
        found = runs.ended([program, 'prove', 'long.p'], folder, limit)
        print('%-42s %10d %8s %9.2f %8.0f  %s' % ('a byte more than is read', WHOLE + 1, found.how(), found.seconds, found.bytes_held / 1e6, found.first_line()[:40]))
        bad += found.status != 2
    return bad


def deep_certificate(levels):
    """A saturation with one member, whose atom has so many levels."""
    clause = b'p(' + b'f(' * levels + b'c' + b')' * levels + b')'
    head = b'% SZS status Satisfiable for deep.p\n% SZS output start Saturation for deep.p\n% instgen certificate '
    end = b'% SZS output end Saturation for deep.p\n'
    i, m, q = (b'cnf(i1,axiom,' + clause + b',named(a)).\n', b'cnf(m1,plain,' + clause + b',input(1),[selected(1)]).\n',
               b'cnf(q1,plain,' + clause + b',part(m1,[])).\n')
    return {1: head + b'1\n' + i + m + end, 3: head + b'3\n' + i + m + q + end}


def table_of_levels(program, limit):
    bad = 0
    print('%-42s %10s %8s %9s %8s  %s' % ('certificate', 'levels', 'ended', 'seconds', 'MB', 'first line'))
    for levels in (25000, 50000, 100000, 1000000):
        for form, text in deep_certificate(levels).items():
            with tempfile.TemporaryDirectory() as folder:
                runs.write(folder, 'deep.c', text)
                found = runs.ended([program, 'check', 'deep.c'], folder, limit)
            wrong = found.status != 0 or found.first_line() != 'valid Saturation'
            bad += wrong
            print('%-42s %10d %8s %9.2f %8.0f  %s%s' % (
                'check, format %d' % form, levels, found.how(), found.seconds, found.bytes_held / 1e6, found.first_line()[:40], '   WRONG' if wrong else ''), flush=True)
    return bad


def copies(count):
    """For all values of a row of variables there is a row that equals them."""
    rows = ['p cnf %d %d' % (2 * count, 2 * count)]
    rows += ['%s %s 0' % (letter, ' '.join(map(str, range(first, first + count)))) for letter, first in (('a', 1), ('e', count + 1))]
    rows += ['%d -%d 0\n-%d %d 0' % (n, n + count, n, n + count) for n in range(1, count + 1)]
    return '\n'.join(rows) + '\n'


JOBS = [
    ('stress 100000', ['stress', '100000']),
    ('a saturation of 100,000 members', ['prove', 'chain.p']),
    ('qbf, 600 variables of each kind', ['qbf', 'copies.cnf']),
    ('fmodel, 786,432 cells', ['fmodel', '64', 'wide.p']),
    ('core, 3 clauses of 60,003', ['core', 'many.p']),
]


def table_of_memory(program, limit):
    """Large jobs under a limit of memory, from 64 MiB on, until each has its answer."""
    bad = 0
    print('%-42s %8s %10s %9s  %s' % ('job', 'MiB', 'ended', 'seconds', 'first line'))
    with tempfile.TemporaryDirectory() as folder:
        chain = ['cnf(k0,axiom,r(c1)).', 'cnf(goal,axiom,~r(d)).', 'cnf(rule,axiom,~r(X) | ~e(X,Y) | r(Y)).']
        chain += ['cnf(k%d,axiom,e(c%d,c%d)).' % (n, n, n + 1) for n in range(1, 33334)]
        runs.write(folder, 'chain.p', '\n'.join(chain) + '\n')
        runs.write(folder, 'copies.cnf', copies(600))
        runs.write(folder, 'wide.p', 'cnf(a,axiom,p(X,Y,Z) | q(X,Y,Z)). cnf(b,axiom,~q(X,Y,X) | r(X,X,Y)).')
        many = ['cnf(k%d,axiom,p(c%d)).' % (n, n) for n in range(60000)]
        runs.write(folder, 'many.p', '\n'.join(many + ['cnf(a,axiom,q(c)). cnf(b,axiom,~q(X) | r(X)). cnf(d,axiom,~r(c)).']))
        for what, words in JOBS:
            for mib in (64, 96, 128, 192, 256, 384, 512, 768, 1024, 1536, 2048, 3072):
                found = runs.ended([program, *words], folder, limit, mib * 2 ** 20)
                line = '%% SZS status MemoryOut for %s' % ('stress' if words[0] == 'stress' else words[-1])
                wrong = found.status not in (0, 6, 10) or (found.status == 6 and found.first_line() != line)
                bad += wrong
                print('%-42s %8d %10s %9.2f  %s%s' % (what, mib, found.how(), found.seconds, found.first_line()[:44], '   WRONG' if wrong else ''), flush=True)
                if found.status in (0, 10):
                    break
            else:
                bad += 1
    return bad


TABLES = {'long': table_of_lengths, 'deep': table_of_levels, 'little': table_of_memory}


def main():
    parser = runs.words_of(__doc__)
    parser.add_argument('tables', nargs='*', metavar='TABLE', help=', '.join(TABLES) + '; all if none')
    parser.add_argument('--limit', type=int, default=120, help='seconds of a processor for each run')
    given = parser.parse_args()
    unknown = [it for it in given.tables if it not in TABLES]
    if unknown:
        parser.error('no table is %s; the tables are %s' % (', '.join(unknown), ', '.join(TABLES)))
    program = runs.built(given)
    bad = sum(TABLES[it](program, given.limit) for it in given.tables or TABLES)
    return runs.judgement(bad, '%d wrong' % bad)


sys.exit(main())
