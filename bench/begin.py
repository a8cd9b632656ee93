"""How the scripts begin: their words, a folder for their files, and the program, which is built before anything is timed."""

import argparse
import atexit
import os
import shutil
import subprocess
import sys
import tempfile
import time

TOP = os.path.dirname(os.path.dirname(os.path.abspath(__file__)))


def built():
    """The program. What is timed is not the script `instgen`, which looks at the sources at each call; but it builds the program."""
    done = subprocess.run([os.path.join(TOP, "instgen"), "prove", os.devnull], stdout=subprocess.DEVNULL, check=False)
    if done.returncode:
        sys.exit(f"the program could not be built: status {done.returncode}")
    return os.path.join(TOP, "out", "instgen")


def built_speed():
    """The program of crates/speed."""
    crate = os.path.join(TOP, "crates", "speed")
    if not shutil.which("rt"):
        sys.exit("the Rattle kit's command rt is not on the path; it builds crates/speed")
    subprocess.run(["rt", "run", "--", "index", "unary", "1", "1", "1"], cwd=crate, stdout=subprocess.DEVNULL, check=True)
    return os.path.join(crate, "out", "speed")


def end_quietly(kind, error, trace):
    """A reader that goes away, or an interrupt, ends a script without a word."""
    if kind not in (BrokenPipeError, KeyboardInterrupt):
        sys.__excepthook__(kind, error, trace)
    os.dup2(os.open(os.devnull, os.O_WRONLY), sys.stdout.fileno())


def beginning(text, kinds=(), limit=10, build=built, add=lambda parser: None):
    """The words of the command: all kinds where none is given, a folder for the files, and the program."""
    sys.excepthook = end_quietly
    parser = argparse.ArgumentParser(description=text)
    if kinds:
        parser.add_argument("kinds", nargs="*", metavar="KIND", help=", ".join(kinds) + "; all if none")
        parser.add_argument("--limit", type=float, default=limit, help=f"seconds for each run, else {limit}")
        parser.add_argument("--keep", metavar="FOLDER", help="a folder for the files, which are else removed")
    parser.add_argument("--program", metavar="FILE", help="a program that is built already")
    add(parser)
    given = parser.parse_args()
    if given.program and not shutil.which(given.program):
        parser.error(f"there is no program {given.program}")
    if kinds:
        unknown = [it for it in given.kinds if it not in kinds]
        if unknown:
            parser.error(f"no kind is {', '.join(unknown)}; the kinds are {', '.join(kinds)}")
        given.kinds = given.kinds or list(kinds)
        given.folder = given.keep or tempfile.mkdtemp(prefix="bench")
        os.makedirs(given.folder, exist_ok=True)
        if not given.keep:
            atexit.register(shutil.rmtree, given.folder, ignore_errors=True)
    given.program = given.program or build()
    return given


def timed(words, limit):
    """The seconds that the command takes, and what it prints."""
    begun = time.perf_counter()
    try:
        done = subprocess.run(words, stdout=subprocess.PIPE, stderr=subprocess.DEVNULL, timeout=limit, check=False)
    except subprocess.TimeoutExpired:
        return None, b""
    return time.perf_counter() - begun, done.stdout


def shown(seconds):
    return "-" if seconds is None else f"{seconds:.3f}"
