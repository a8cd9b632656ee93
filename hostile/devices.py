#!/usr/bin/env python3
"""Runs the program on files and outputs that fail: folders, files without permission, pipes, names that are no text, an output that
is closed, full or no longer read. Each run must end with its exit status and first line, and none by a signal."""

import os
import shutil
import subprocess
import sys
import tempfile
import threading

import runs
from runs import TWO

NOBODY = ['setpriv', '--reuid=65534', '--regid=65534', '--clear-groups', '--no-new-privs']


def told(status, name):
    return '%% SZS status %s for %s' % (status, name)


class Table:
    def __init__(self, program, folder, limit):
        self.program, self.folder, self.limit, self.rows, self.bad = program, folder, limit, 0, 0
        print('%-46s %-14s %-10s %s' % ('run', 'ended', 'wanted', 'first line'))

    def row(self, what, found, status, line=None):
        """Notes a run: `line` is the first line that is wanted, or any where it is None."""
        good = found.status == status and (line is None or found.first_line() == line)
        self.rows += 1
        self.bad += not good
        print('%-46s %-14s %-10s %s%s' % (what, found.how(), 'exit %d' % status, found.first_line()[:60], '' if good else '   WRONG'), flush=True)

    def run(self, words, before=(), most=1 << 26, **how):
        """The words behind the program, with an output of their own where one is given; of another so many bytes are read."""
        how = {'cwd': self.folder, 'stdin': subprocess.DEVNULL, 'stdout': subprocess.PIPE, 'stderr': subprocess.DEVNULL, **how}
        with runs.begun([*before, self.program, *words], self.limit, **how) as process:
            text = b''
            if process.stdout:
                text = process.stdout.read(most)
                process.stdout.close()
        return runs.Ended(process.returncode, text)


def files_that_fail(table):
    folder, as_user = table.folder, NOBODY if os.geteuid() == 0 else []
    os.mkdir(os.path.join(folder, 'folder.p'))
    os.symlink('loop.p', os.path.join(folder, 'loop.p'))
    closed = os.path.join(folder, runs.write(folder, 'closed.p', TWO))
    os.chmod(closed, 0)
    inner = os.path.join(folder, runs.write(folder, 'inner.p', "include('folder.p')."))
    os.chmod(inner, 0o644)
    for words in (['prove'], ['sat'], ['qbf'], ['fmodel', '2'], ['core'], ['check'], ['ask']):
        more = ['p(a)'] if words == ['ask'] else []
        table.row('%s, a folder as the file' % words[0], table.run([*words, 'folder.p', *more]), 4, told('OSError', 'folder.p'))
        table.row('%s, an absent file' % words[0], table.run([*words, 'absent.p', *more]), 2, told('InputError', 'absent.p'))
    for words in (['prove'], ['fmodel', '2'], ['core']):
        table.row('%s, an include that is a folder' % words[0], table.run([*words, 'inner.p']), 4, told('OSError', 'inner.p'))
    table.row('no permission', table.run(['prove', 'closed.p'], as_user), 4, told('OSError', 'closed.p'))
    table.row('a link to itself', table.run(['prove', 'loop.p']), 4, told('OSError', 'loop.p'))
    table.row('a file below a file', table.run(['prove', 'two.p/two.p']), 4, told('OSError', 'two.p/two.p'))
    table.row('a name of 300 bytes', table.run(['prove', 'n' * 300]), 4, told('OSError', 'n' * 300))
    table.row('a device without an end', table.run(['prove', '/dev/zero']), 2, told('InputError', '/dev/zero'))
    table.row('a file of more than 64 KiB', table.run(['prove', 'long.p']), 0, told('Satisfiable', 'long.p'))
    table.row('an empty device', table.run(['prove', '/dev/null']), 0, told('Satisfiable', '/dev/null'))


def pipes(table):
    path = os.path.join(table.folder, 'pipe.p')
    os.mkfifo(path)

    def feed(pieces):
        with open(path, 'wb', buffering=0) as pipe:
            for piece in pieces:
                pipe.write(piece.encode())

    for what, pieces, status, word in [
        ('a pipe as the file, in two pieces', [TWO[:20], TWO[20:]], 0, 'Unsatisfiable'),
        ('a pipe that ends in a statement', [TWO[:30]], 2, 'SyntaxError'),
        ('a pipe without a byte', [], 0, 'Satisfiable'),
    ]:
        feeder = threading.Thread(target=feed, args=(pieces,), daemon=True)  # it waits for a reader, who may not come
        feeder.start()
        table.row(what, table.run(['prove', 'pipe.p']), status, told(word, 'pipe.p'))
        feeder.join(10)


def names(table):
    odd = b'odd\xff.p'
    runs.write(table.folder, 'odd.p', TWO)
    os.rename(os.path.join(table.folder, 'odd.p'), os.path.join(os.fsencode(table.folder), odd))
    table.row('a file whose name is no text', table.run([b'prove', odd]), 3, '')
    table.row('a command word that is no text', table.run([b'\xff', b'two.p']), 3, '')
    inside = os.path.join(os.fsencode(table.folder), b'in\xff')
    os.mkdir(inside)
    shutil.copy(os.fsencode(os.path.join(table.folder, 'two.p')), inside)
    table.row('a folder whose name is no text', table.run(['prove', 'two.p'], cwd=inside), 0, told('Unsatisfiable', 'two.p'))


def outputs(table):
    closed = ['sh', '-c', 'exec "$@" >&-', 'sh']
    for words, what in ((['prove', 'two.p'], 'prove'), (['prove', 'bad.p'], 'a refusal'), (['sat', 'yes.cnf'], 'sat'), (['qbf', 'switches.cnf'], 'qbf'),
                        (['fmodel', '2', 'turn.p'], 'fmodel'), (['fmodel', '1', 'turn.p'], 'fmodel, no tables'), (['core', 'spare.p'], 'core'), (['check', 'tie.c'], 'check'),
                        (['ask', 'tie.c', 'p(c,a)'], 'ask'), (['stress', '5'], 'stress'), ([], 'no words')):
        table.row('%s, the output is closed' % what, table.run(words, closed), 5)
        with open('/dev/full', 'wb') as full:
            table.row('%s, the output is full' % what, table.run(words, stdout=full), 5)
    table.row('a reader that goes away at once', table.run(['prove', 'long.p'], most=0), 5)
    table.row('a reader that goes away after 1,000 bytes', table.run(['prove', 'long.p'], most=1000), 5)
    table.row('all of the three streams are closed', table.run(['prove', 'two.p'], ['sh', '-c', 'exec "$@" <&- >&- 2>&-', 'sh']), 5)
    table.row('the input is closed', table.run(['prove', 'two.p'], ['sh', '-c', 'exec "$@" <&-', 'sh']), 0, told('Unsatisfiable', 'two.p'))


def main():
    parser = runs.words_of(__doc__)
    parser.add_argument('--limit', type=float, default=60, help='seconds for each run, which is killed behind them')
    given = parser.parse_args()
    with tempfile.TemporaryDirectory() as folder:
        os.chmod(folder, 0o755)
        program = os.path.join(folder, 'instgen')
        shutil.copy(runs.built(given), program)
        os.chmod(program, 0o755)
        runs.write(folder, 'two.p', TWO)
        runs.write(folder, 'bad.p', 'fof(a,axiom,p).')
        runs.write(folder, 'tie.c', runs.TIE)
        runs.write(folder, 'yes.cnf', 'p cnf 2 2\n1 2 0\n-1 0\n')
        runs.write(folder, 'switches.cnf', runs.SWITCHES)
        runs.write(folder, 'turn.p', runs.TURN)
        runs.write(folder, 'spare.p', runs.SPARE)
        runs.write(folder, 'long.p', ''.join('cnf(k%d,axiom,p(c%d)).\n' % (n, n) for n in range(20000)))
        table = Table(program, folder, given.limit)
        files_that_fail(table)
        pipes(table)
        names(table)
        outputs(table)
    return runs.judgement(table.bad, '%d runs, %d wrong' % (table.rows, table.bad))


sys.exit(main())
