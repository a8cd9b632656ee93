#!/usr/bin/env python3
"""Refuses the Nth allocation of the program, for N from 1 on until a run meets no refusal, on small problems of each command. Each
run must give the answer that it gives undisturbed, or end with status 6 and the line MemoryOut. Once the words are read, that line is
there and names the file; before, it names `instgen`, or, where the words themselves have no room, there is none. The same status and
first line with another certificate behind it is an answer too: a search that did without a piece of memory may come by other steps.
With --onward all allocations from the Nth on are refused. It needs a C compiler (cc) and glibc."""

import os
import subprocess
import sys
import tempfile

import runs

SHIM = r'''
#include <errno.h>
#include <fcntl.h>
#include <stdarg.h>
#include <stddef.h>
#include <stdlib.h>
#include <unistd.h>

extern void *__libc_malloc(size_t);
extern void *__libc_calloc(size_t, size_t);
extern void *__libc_realloc(void *, size_t);
extern void *__libc_memalign(size_t, size_t);

static long at;
static int onward, mark = -1;

__attribute__((constructor)) static void begin(void) {
    const char *number = getenv("REFUSE_AT"), *to = getenv("REFUSE_MARK");
    onward = getenv("REFUSE_ONWARD") != NULL;
    mark = to ? atoi(to) : -1;
    at = number ? atol(number) : 0;
}

static void tell(const char *what) {
    if (mark >= 0 && write(mark, what, 1) < 0) mark = -1;
}

static int refused(void) {
    if (at == 0 || --at != 0) return 0;
    if (onward) at = 1;
    tell("x");
    errno = ENOMEM;
    return 1;
}

int open(const char *path, int flags, ...) {
    va_list more;
    va_start(more, flags);
    mode_t mode = flags & O_CREAT ? va_arg(more, mode_t) : 0;
    va_end(more);
    tell("o");
    return openat(AT_FDCWD, path, flags, mode);
}

void *malloc(size_t size) { return refused() ? NULL : __libc_malloc(size); }
void *calloc(size_t count, size_t size) { return refused() ? NULL : __libc_calloc(count, size); }
void *realloc(void *old, size_t size) { return refused() ? NULL : __libc_realloc(old, size); }
void *memalign(size_t align, size_t size) { return refused() ? NULL : __libc_memalign(align, size); }
void *aligned_alloc(size_t align, size_t size) { return memalign(align, size); }
int posix_memalign(void **to, size_t align, size_t size) {
    void *made = memalign(align, size);
    if (made == NULL) return ENOMEM;
    *to = made;
    return 0;
}
'''

ROWS = [
    ('a refutation', {'two.p': 'cnf(one,axiom,p(X)). cnf(two,axiom,~p(c)).'}, ['prove', 'two.p']),
    ('a saturation', {'rule.p': 'cnf(one,axiom,p(X) | ~q(X)). cnf(two,axiom,q(Y)).'}, ['prove', 'rule.p']),
    ('an include with a selection', {
        'm.p': "include('ax.p',[b]). cnf(g,negated_conjecture,~p(c)).",
        'ax.p': 'cnf(a,axiom,q(c)). cnf(b,axiom,p(X)).'}, ['prove', 'm.p']),
    ('a budget that runs out', {
        'deep.p': 'cnf(a,axiom,p(f(X))). cnf(b,axiom,~p(f(f(c)))). cnf(d,axiom,~p(f(g(c)))).'}, ['prove', 'deep.p', '--budget', '3']),
    ('equality', {'equal.p': 'cnf(a,axiom,a = b). cnf(b,axiom,p(f(a))). cnf(c,axiom,~p(f(b))).'}, ['prove', 'equal.p']),
    ('check of a saturation', {'tie.c': runs.TIE}, ['check', 'tie.c']),
    ('check with its problem', {
        'tie.c': runs.TIE, 'tie.p': 'cnf(one,axiom,p(X,a) | q(X)). cnf(two,axiom,~p(b,X) | s(X)).'}, ['check', 'tie.c', '--problem', 'tie.p']),
    ('its rewriting', {'tie.c': runs.TIE}, ['check', 'tie.c', '--rewrite']),
    ('an atom', {'tie.c': runs.TIE}, ['ask', 'tie.c', 'p(c,a)']),
    ('sat, satisfiable', {'yes.cnf': 'p cnf 2 2\n1 2 0\n-1 0\n'}, ['sat', 'yes.cnf']),
    ('sat, unsatisfiable', {'no.cnf': 'p cnf 3 8\n' + ''.join(
        '%d %d %d 0\n' % (a, 2 * b, 3 * c) for a in (1, -1) for b in (1, -1) for c in (1, -1))}, ['sat', 'no.cnf']),
    ('qbf, true', {'switches.cnf': runs.SWITCHES}, ['qbf', 'switches.cnf']),
    ('qbf, false', {'early.cnf': 'p cnf 2 2\ne 2 0\na 1 0\n1 -2 0\n-1 2 0\n'}, ['qbf', 'early.cnf']),
    ('fmodel, tables', {'turn.p': runs.TURN}, ['fmodel', '2', 'turn.p']),
    ('fmodel, no tables', {'turn.p': runs.TURN}, ['fmodel', '1', 'turn.p']),
    ('core', {'spare.p': runs.SPARE}, ['core', 'spare.p']),
    ('core, none', {'rule.p': 'cnf(one,axiom,p(X) | ~q(X)). cnf(two,axiom,q(Y)).'}, ['core', 'rule.p']),
    ('core, a function', {'deep.p': 'cnf(a,axiom,p(c)). cnf(b,axiom,~p(f(c))).'}, ['core', 'deep.p']),
    ('a chain', {}, ['stress', '5']),
    ('a refusal', {'bad.p': 'cnf(one,axiom,p(X)). fof(two,axiom,p).'}, ['prove', 'bad.p']),
]


def compiled(folder):
    source, shim = os.path.join(folder, 'refuse.c'), os.path.join(folder, 'refuse.so')
    with open(source, 'w', encoding='ascii') as file:
        file.write(SHIM)
    subprocess.run([os.environ.get('CC', 'cc'), '-shared', '-fPIC', '-O1', '-fno-builtin', '-o', shim, source], check=True)
    return shim


def refused(program, words, folder, shim, number, onward):
    """The status, the output, and what happened in order: `o` where a file was opened, `x` where an allocation was refused."""
    read, mark = os.pipe()
    env = dict(os.environ, LD_PRELOAD=shim, REFUSE_AT=str(number), REFUSE_MARK=str(mark))
    if onward:
        env['REFUSE_ONWARD'] = '1'
    how = {'cwd': folder, 'stdin': subprocess.DEVNULL, 'stdout': subprocess.PIPE, 'stderr': subprocess.DEVNULL, 'env': env, 'pass_fds': [mark]}
    with os.fdopen(read, 'rb') as pipe:
        with runs.begun([program, *words], 60, **how) as run:
            os.close(mark)
            out = run.stdout.read()
            run.stdout.close()
        return run.returncode, out, pipe.read().decode()


class Row:
    """The runs of one command. `begun` says that the words have been read at the present N: at an N before, a file had been opened when
    memory was refused, or the line named the file."""

    def __init__(self, what, name, status, text):
        self.what, self.name, self.undisturbed = what, name, (status, text.split(b'\n', 1)[0])
        self.begun, self.counts = False, dict.fromkeys(('answer', 'named', 'unnamed', 'none', 'wrong'), 0)

    def kind(self, code, out, happened):
        if (code, out.split(b'\n', 1)[0]) == self.undisturbed:
            return 'answer'
        line = b'%% SZS status MemoryOut for %s\n'
        self.begun = self.begun or 'o' in happened.partition('x')[0]
        if code == 6 and out == line % self.name:
            self.begun = True
            return 'named'
        if code == 6 and not self.begun and out in (b'', line % b'instgen'):
            return 'unnamed' if out else 'none'
        return 'wrong'

    def note(self, number, code, out, happened):
        kind = self.kind(code, out, happened)
        self.counts[kind] += 1
        if kind == 'wrong':
            print('  %s, N = %d: status %d, %r%s' % (self.what, number, code, out[:80], ', the words were read' if self.begun else ''))

    def fails(self):
        """Where nothing was refused, or no refusal was told under the name, or the program fails undisturbed, nothing is shown."""
        return bool(self.counts['wrong']) or not self.counts['named'] or self.undisturbed[0] not in (0, 1, 2, 10, 20)

    def show(self):
        print('| %-28s | %7d | %6d | %9d | %7d | %7d | %5d |%s' % (
            self.what, sum(self.counts.values()), *self.counts.values(), ' <- fails' if self.fails() else ''), flush=True)


def tried(program, folder, shim, given, what, files, words):
    """One command at each N."""
    for name, text in files.items():
        runs.write(folder, name, text)
    name = next((word for word in words if word in files), 'stress').encode()
    status, text, _ = refused(program, words, folder, shim, 0, False)
    row = Row(what, name, status, text)
    for number in range(1, given.most + 1):
        found = refused(program, words, folder, shim, number, given.onward)
        if 'x' not in found[2]:
            break
        row.note(number, *found)
    row.show()
    return row


def main():
    parser = runs.words_of(__doc__)
    parser.add_argument('--onward', action='store_true', help='refuse all allocations from the Nth on')
    parser.add_argument('--most', type=int, default=100000, help='the greatest N')
    given = parser.parse_args()
    program = runs.built(given)
    print('| Run | Refused | Answer | MemoryOut | Instgen | No line | Wrong |')
    print('|---|---|---|---|---|---|---|', flush=True)
    with tempfile.TemporaryDirectory() as room:
        shim = compiled(room)
        rows = []
        for place, (what, files, words) in enumerate(ROWS):
            folder = os.path.join(room, str(place))
            os.mkdir(folder)
            rows.append(tried(program, folder, shim, given, what, files, words))
    failing = sum(row.fails() for row in rows)
    return runs.judgement(failing, '%d commands, %d refusals, %d commands fail' % (len(rows), sum(sum(row.counts.values()) for row in rows), failing))


sys.exit(main())
