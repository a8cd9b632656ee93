"""Runs of the program for the scripts beside: each is started in a folder of its own, and told by its status or its signal, what it
wrote, its seconds and its memory."""

import argparse
import contextlib
import os
import resource
import signal
import subprocess
import sys
import tempfile
import threading
import time

TOP = os.path.dirname(os.path.dirname(os.path.abspath(__file__)))
TIE = '''% SZS status Satisfiable for tie.p
% SZS output start Saturation for tie.p
% instgen certificate 1
cnf(i1,axiom,p(X0,a) | q(X0),named(one)).
cnf(i2,axiom,~p(b,X0) | s(X0),named(two)).
cnf(m1,plain,p(X0,a) | q(X0),input(1),[selected(1)]).
cnf(m2,plain,~p(b,X0) | s(X0),input(2),[selected(1)]).
cnf(m3,plain,p(b,a) | q(b),inst(m1,1,m2,1),[selected(2)]).
cnf(m4,plain,~p(b,a) | s(a),inst(m2,1,m1,1),[selected(2)]).
% SZS output end Saturation for tie.p
'''
TWO = 'cnf(one,axiom,p(X)). cnf(two,axiom,~p(c)).'
SWITCHES = 'p cnf 2 2\na 1 0\ne 2 0\n1 -2 0\n-1 2 0\n'  # true; with the two lines of quantifiers exchanged, false
TURN = 'cnf(turn,axiom,f(X) != X). cnf(back,axiom,f(f(X)) = X).'  # a model with two elements, and none with one
SPARE = 'cnf(a,axiom,p(c)). cnf(b,axiom,q(c)). cnf(d,axiom,~p(X) | r(X)). cnf(e,axiom,~r(c)).'  # a core of all but the second


def words_of(description):
    """The words of the command line: --program, and what the caller adds."""
    signal.signal(signal.SIGTERM, lambda number, _: sys.exit(128 + number))  # a script that is ended ends what it began
    parser = argparse.ArgumentParser(description=description)
    parser.add_argument('--program', default=os.path.join(TOP, 'out', 'instgen'), help='the built program; ./instgen builds it')
    return parser


def built(words):
    """The program's path, built where it is the repository's own and is not there."""
    if not os.path.isfile(words.program):
        subprocess.run([os.path.join(TOP, 'instgen'), 'prove', os.devnull], stdout=subprocess.DEVNULL, check=False)
    if not os.access(words.program, os.X_OK):
        sys.exit('there is no program %s' % words.program)
    return os.path.abspath(words.program)


def write(folder, name, text):
    path = os.path.join(folder, name)
    os.makedirs(os.path.dirname(path), exist_ok=True)
    with open(path, 'wb') as file:
        file.write(text if isinstance(text, bytes) else text.encode())
    return name


@contextlib.contextmanager
def begun(words, limit=120, **how):
    """A process in a group of its own. The group is killed when its seconds are over, when the process has ended, and where whoever asked
    for it fails. Until then the process is not waited for, so that its number stays that of its group."""
    process = subprocess.Popen(words, start_new_session=True, **how)

    def end():
        with contextlib.suppress(ProcessLookupError):
            os.killpg(process.pid, signal.SIGKILL)

    timer = threading.Timer(limit, end)
    timer.daemon = True
    timer.start()
    try:
        yield process
        os.waitid(os.P_PID, process.pid, os.WEXITED | os.WNOWAIT)
    finally:
        timer.cancel()
        timer.join()
        end()
        process.wait()


def judgement(bad, what):
    """The last line of a script, and its status."""
    print('%s: %s' % ('failed' if bad else 'passed', what))
    return 1 if bad else 0


class Ended:
    """How a run ended: `status` counts from 0 on, and a signal is below 0."""

    def __init__(self, status, text, seconds=0.0, bytes_held=0):
        self.status, self.text, self.seconds, self.bytes_held = status, text, seconds, bytes_held

    def how(self):
        return 'signal %s' % signal.Signals(-self.status).name if self.status < 0 else 'exit %d' % self.status

    def first_line(self):
        return self.text.split(b'\n', 1)[0].decode('ascii', 'replace')


def ended(words, folder, limit=120, bytes_most=None, keep=4096):
    """Runs the words in the folder, for so many seconds and in so much memory at most, and keeps the first bytes of its output."""
    def child():
        resource.setrlimit(resource.RLIMIT_CORE, (0, 0))
        resource.setrlimit(resource.RLIMIT_CPU, (limit, limit + 5))
        if bytes_most:
            resource.setrlimit(resource.RLIMIT_AS, (bytes_most, bytes_most))

    with tempfile.TemporaryFile() as out:
        begun = time.monotonic()
        process = subprocess.Popen(words, cwd=folder, stdin=subprocess.DEVNULL, stdout=out, stderr=subprocess.DEVNULL, preexec_fn=child)
        _, code, used = os.wait4(process.pid, 0)
        process.returncode = os.WEXITSTATUS(code) if os.WIFEXITED(code) else -os.WTERMSIG(code)
        seconds = time.monotonic() - begun
        out.seek(0)
        return Ended(process.returncode, out.read(keep), seconds, used.ru_maxrss * 1024)
