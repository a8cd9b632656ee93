#!/usr/bin/env python3
"""Proves the crates that the program stands on, side by side, builds the program, and says how many minutes are left.

usage: prove.py TOP LOG PROCESSORS <LINES, the lines of crates.txt that are needed

Each library is proved by the kit's `rattle build`, which keeps its statements: the crates above read these and not its proofs, as
they do under `rt ci`. The crate with the longest chain of others behind it goes first, and has the processors that no other waits
for. What is proved stays in TOP/out with the sum of all that it was made from, and is taken as it is where that is the same.

The status is 0 where all is proved and TOP/out/instgen.built is the program, 1 where a crate is not proved, which is then named and
of which the log LOG has what rattle said, 3 where the kit does not look as this script knows it, and 4 where a crate's sources were
changed while it was proved: what was made of it is then not kept.
"""

import contextlib
import hashlib
import os
import shutil
import signal
import subprocess
import sys
import tempfile
import time

HERE = os.path.dirname(os.path.abspath(__file__))
PARTS = ('src', 'specs', 'proofs')
PROGRAM = 'instgen'
# How many times as fast a crate is proved by so many processors, in the estimates alone.
SPEED = {1: 1.0, 2: 1.6, 3: 2.0, 4: 2.3}
LINES_A_MINUTE = 700
UNKNOWN_KIT = 3
CHANGED = 4


def tell(text):
    print('instgen: %s' % text, file=sys.stderr, flush=True)


def counted(minutes):
    whole = max(1, round(minutes))
    return 'a minute' if whole == 1 else '%d minutes' % whole


class Kit:
    """The parts of the Rattle kit that are called, beside its command rt."""

    def __init__(self):
        command = os.path.realpath(shutil.which('rt') or '')
        self.top = os.path.dirname(os.path.dirname(command))
        self.rattle = self.at('bin', 'rattle')
        self.link = self.at('bin', 'rattle-link')
        self.project = self.at('rattle', 'logic', 'antt-project.json')
        self.logic = self.at('logic_built')
        self.toolchain = self.at('toolchain')
        self.c_libraries = [self.at('c', 'libos_c.a'), self.at('c', 'liblibc_c.a')]

    def at(self, *parts):
        return os.path.join(self.top, *parts)

    def library(self, name):
        return self.at('rlibs', name + '.rlib')

    def is_known(self):
        parts = [self.rattle, self.link, self.project, self.logic, self.toolchain, self.library('std'), *self.c_libraries]
        if not all(os.path.exists(it) for it in parts):
            return False
        said = subprocess.run([self.rattle, 'build', '--help'], stdout=subprocess.PIPE, stderr=subprocess.DEVNULL, check=False).stdout
        return all(it in said for it in (b'--statements', b'--logic-built', b'--toolchain', b'--jobs'))

    def identity(self):
        return subprocess.run(['rt', 'version'], stdout=subprocess.PIPE, stderr=subprocess.DEVNULL, check=False).stdout


class Crate:
    def __init__(self, name, line, uses):
        self.name = name
        self.line = line
        self.uses = uses
        self.below = []
        self.minutes = 0.0
        self.chain = 0.0
        self.sum = ''

    def is_program(self):
        return self.name == PROGRAM

    def files_in(self, top):
        """The files that a check reads, by their names below the crate's folder, in order."""
        folder = os.path.join(top, 'crates', self.name)
        found = []
        for part in PARTS:
            for at, _, names in os.walk(os.path.join(folder, part)):
                found += [os.path.join(at, name) for name in names]
        return sorted((os.path.relpath(it, folder), it) for it in found)

    def read(self, top, identity):
        """The sum of what the crate is made from, given those of the crates below, and how many lines it has."""
        total, lines = hashlib.sha256(identity + self.line.encode()), 0
        for name, path in self.files_in(top):
            with open(path, 'rb') as file:
                text = file.read()
            total.update(b'%s %d\n' % (os.fsencode(name), len(text)) + text)
            lines += text.count(b'\n')
        for it in self.below:
            total.update(it.sum.encode())
        return total.hexdigest(), lines


def known_minutes():
    """The minutes of one processor that crates took when they were timed."""
    found = {}
    with open(os.path.join(HERE, 'minutes'), encoding='utf-8') as file:
        for line in file:
            words = line.split('#')[0].split()
            if len(words) == 2:
                found[words[0]] = float(words[1])
    return found


def crates_of(top, text, identity):
    """The crates that the lines name, those below a crate before it, each with its sum, its minutes and those of the longest chain of
    crates from it on."""
    crates = {}
    for line in text.splitlines():
        name, _, uses = line.partition(':')
        crates[name.split()[0]] = Crate(name.split()[0], line, uses.split())
    known = known_minutes()
    ordered = []
    while len(ordered) < len(crates):
        ready = [it for it in crates.values() if it not in ordered and all(crates.get(use) in ordered for use in it.uses if use in crates)]
        if not ready:
            raise SystemExit('crates.txt has a ring of crates')
        for crate in ready:
            crate.below = [crates[use] for use in crate.uses if use in crates]
            crate.sum, lines = crate.read(top, identity)
            crate.minutes = known.get(crate.name) or max(0.3, lines / LINES_A_MINUTE)
            ordered.append(crate)
    for crate in reversed(ordered):
        crate.chain = crate.minutes + max([it.chain for it in ordered if crate in it.below], default=0.0)
    return ordered


def next_of(left, done, running, processors):
    """The crate that is to be begun, and by how many processors; nothing where none can be."""
    idle = processors - sum(running.values())
    ready = sorted((it for it in left if all(below in done for below in it.below)), key=lambda it: -it.chain)
    if not ready or idle <= 0:
        return None
    first = ready[0]
    leads = all(first.chain >= it.chain for it in running)
    return first, max(1, min(idle, 4, max(idle // len(ready), 2 if leads else 1)))


def minutes_left(left, done, running, spent, processors):
    """How long all that is left would take at the known minutes; spent: the minutes of those that run."""
    left, done, running = set(left), set(done), dict(running)
    work = {it: max(it.minutes - spent[it] * SPEED[jobs], 0.1) for it, jobs in running.items()}
    total = 0.0
    while left or running:
        begun = next_of(left, done, running, processors)
        if begun:
            crate, jobs = begun
            left.remove(crate)
            running[crate], work[crate] = jobs, crate.minutes
            continue
        step = min(work[it] / SPEED[jobs] for it, jobs in running.items())
        total += step
        for it, jobs in list(running.items()):
            work[it] -= step * SPEED[jobs]
            if work[it] <= 1e-9:
                done.add(it)
                del running[it]
    return total


class Made:
    """What is made of the crates, in a folder: the libraries and the program."""

    def __init__(self, top, kit):
        self.top, self.kit, self.identity = top, kit, kit.identity()
        self.out = os.path.join(top, 'out')
        self.libraries = os.path.join(self.out, 'libraries')
        self.program = os.path.join(self.out, PROGRAM + '.built')
        os.makedirs(self.libraries, exist_ok=True)

    def library(self, crate):
        return os.path.join(self.libraries, crate.name + '.rlib')

    def target(self, crate):
        return self.program + '.o' if crate.is_program() else self.library(crate)

    def sum_file(self, crate):
        return os.path.join(self.libraries, crate.name + '.sum')

    def has(self, crate):
        if not os.path.exists(self.program if crate.is_program() else self.library(crate)):
            return False
        with contextlib.suppress(OSError), open(self.sum_file(crate), encoding='ascii') as file:
            return file.read() == crate.sum
        return False

    def forget(self, crate):
        with contextlib.suppress(FileNotFoundError):
            os.remove(self.sum_file(crate))
        target = self.target(crate)
        if os.path.isdir(target):
            shutil.rmtree(target)

    def note(self, crate):
        with open(self.sum_file(crate), 'w', encoding='ascii') as file:
            file.write(crate.sum)

    def words(self, crate, jobs):
        """The command that proves the crate, and makes its library or the program's object file."""
        kit, names = self.kit, {it.name for it in crate.below}
        words = [kit.rattle, 'build', '--crate-name', crate.name, 'src/main.rt' if crate.is_program() else 'src/lib.rt']
        for name in ['std', *crate.uses]:
            library = os.path.join(self.libraries, name + '.rlib') if name in names else kit.library(name)
            words += ['--extern', '%s=%s' % (name, library)]
        words += ['-L', 'dependency=' + os.path.dirname(kit.library('std')), '-L', 'dependency=' + self.libraries]
        words += ['--antt-project', kit.project, '--logic-built', kit.logic, '--links', crate.name + '=']
        words += ['--jobs', str(jobs)]
        words += ['--toolchain', kit.toolchain] if crate.is_program() else ['--statements']
        return words + ['-o', self.target(crate)]

    def is_changed(self, crate):
        return crate.read(self.top, self.identity)[0] != crate.sum

    def begin(self, crate, jobs, log):
        self.forget(crate)
        return subprocess.Popen(self.words(crate, jobs), cwd=os.path.join(self.top, 'crates', crate.name), stdin=subprocess.DEVNULL,
                                stdout=log, stderr=log, start_new_session=True)

    def end(self, crate, log):
        """Links the program; gives whether what was to be made of the crate is there."""
        if crate.is_program():
            words = [self.kit.link, '--target', 'x86_64-unknown-linux-gnu', '--toolchain', self.kit.toolchain, '-o', self.program]
            words += [self.target(crate), *self.kit.c_libraries]
            if subprocess.run(words, stdin=subprocess.DEVNULL, stdout=log, stderr=log, check=False).returncode:
                return False
            os.remove(self.target(crate))
        self.note(crate)
        return True


class Run:
    def __init__(self, made, log, processors, crates):
        self.made, self.log, self.processors, self.crates = made, log, processors, crates
        self.done, self.running, self.calls = set(), {}, {}
        for crate in crates:
            if made.has(crate):
                self.done.add(crate)
        self.left = set(crates) - self.done
        self.pace = 1.0
        self.timed = [0.0, 0.0]

    def spent(self):
        now = time.monotonic()
        return {it: (now - call[2]) / 60 / self.pace for it, call in self.calls.items()}

    def say_begin(self):
        minutes = minutes_left(self.left, self.done, {}, {}, self.processors)
        tell('%d of %d crates are to be proved by %d processors: about %s where the machine does nothing else' % (
            len(self.left), len(self.crates), self.processors, counted(minutes)))

    def say(self, crate):
        if not self.left and not self.running:
            tell('all %d crates are proved, and the program is built' % len(self.crates))
            return
        minutes = self.pace * minutes_left(self.left, self.done, self.running, self.spent(), self.processors)
        names = ', '.join(sorted(it.name for it in self.running))
        tell('%d of %d crates are proved (%s); about %s left; at work on %s' % (
            len(self.done), len(self.crates), crate.name, counted(minutes), names))

    def begin_all(self):
        while True:
            begun = next_of(self.left, self.done, self.running, self.processors)
            if not begun:
                return
            crate, jobs = begun
            said = tempfile.TemporaryFile('w+b')
            self.left.remove(crate)
            self.running[crate] = jobs
            self.calls[crate] = self.made.begin(crate, jobs, said), said, time.monotonic()

    def note(self, crate, jobs, seconds):
        """Sets how much slower than the known minutes this machine is."""
        if seconds > 20:
            self.timed[0] += seconds / 60 * SPEED[jobs]
            self.timed[1] += crate.minutes
            self.pace = self.timed[0] / self.timed[1]

    def end(self, crate):
        """Takes over what was made; gives 0 where the crate is proved or is to be tried once more, and else the status to end with."""
        call, said, begun = self.calls.pop(crate)
        jobs = self.running.pop(crate)
        is_changed = self.made.is_changed(crate)
        is_made = call.returncode == 0 and not is_changed and self.made.end(crate, said)
        said.seek(0)
        with open(self.log, 'ab') as log:
            log.write(b'== %s\n' % crate.name.encode() + said.read())
        if call.returncode in (-signal.SIGKILL, 128 + signal.SIGKILL) and self.processors > 1:
            self.processors -= 1
            tell('%s was killed, most likely for memory: once more, and all by %d processors' % (crate.name, self.processors))
            self.left.add(crate)
            return 0
        if is_changed:
            tell('the sources of %s have changed meanwhile' % crate.name)
            return CHANGED
        if not is_made:
            tell('%s is not %s' % (crate.name, 'proved' if call.returncode else 'linked'))
            return 1
        self.note(crate, jobs, time.monotonic() - begun)
        self.done.add(crate)
        self.begin_all()
        self.say(crate)
        return 0

    def stop(self):
        for call, _, _ in self.calls.values():
            with contextlib.suppress(ProcessLookupError):
                os.killpg(call.pid, signal.SIGTERM)
        for call, _, _ in self.calls.values():
            try:
                call.wait(20)
            except subprocess.TimeoutExpired:
                os.killpg(call.pid, signal.SIGKILL)
                call.wait()

    def work(self):
        try:
            self.begin_all()
            while self.running:
                ended = [it for it, call in self.calls.items() if call[0].poll() is not None]
                for crate in ended:
                    status = self.end(crate)
                    if status:
                        return status
                self.begin_all()
                time.sleep(0 if ended else 0.2)
            return 0
        finally:
            self.stop()


def main():
    if len(sys.argv) != 4:
        print(__doc__, file=sys.stderr)
        return 2
    top, log, processors = os.path.abspath(sys.argv[1]), sys.argv[2], int(sys.argv[3])
    kit = Kit()
    if not kit.is_known():
        return UNKNOWN_KIT
    made = Made(top, kit)
    run = Run(made, log, processors, crates_of(top, sys.stdin.read(), made.identity))
    for number in (signal.SIGTERM, signal.SIGHUP, signal.SIGINT):
        signal.signal(number, lambda *_: sys.exit(1))
    run.say_begin()
    return run.work()


if __name__ == '__main__':
    sys.exit(main())
