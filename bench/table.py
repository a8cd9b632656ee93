"""What the scripts share that compare the program with other solvers in a table."""

import subprocess

from begin import shown, timed
from check import line
from epr import mean


def checked(program, text, path):
    """What `check` says of the certificate that stands behind the first line."""
    with open(path, "wb") as out:
        out.write(text.partition(b"\n")[2])
    said = subprocess.run([program, "check", path], stdout=subprocess.PIPE, stderr=subprocess.DEVNULL, check=False).stdout
    return "valid" if said.startswith(b"valid ") else "bad !"


def row(name, wanted, commands, limit, reader, look):
    """One problem's line, and the ratios to the solvers behind the first, where both ended with an answer. A `!` says that an answer
    is not the one that the problem is made for."""
    times, said, texts = {}, {}, {}
    for solver, words in commands.items():
        taken, texts[solver] = timed(words, limit)
        said[solver] = reader(texts[solver])
        times[solver] = None if said[solver] == "?" else taken
    seen = look(texts["instgen"]) if said["instgen"] != "?" else ""
    mark = " !" if set(said.values()) - {wanted, "?"} else ""
    ours, *theirs = times.values()
    ratios = [max(ours, 0.001) / max(it, 0.001) if ours and it else None for it in theirs]
    line(name, said["instgen"] + mark, *map(shown, times.values()), *(f"{it:.2f}" if it else "-" for it in ratios), seen)
    return ratios


def compare(given, others, reader, problems):
    """The table. `problems` gives those of a kind: a name, the answer, a command for each solver, the program's first, and what looks
    at its text."""
    def means(name, found):
        line(name, "", "", *[""] * len(others), *(mean([it for it in them if it]) for them in zip(*found)))

    line("problem", "answer", "instgen", *others, *(f"to {it}" for it in others), "looked at")
    every = []
    for kind in given.kinds:
        found = [row(name, wanted, commands, given.limit, reader, look) for name, wanted, commands, look in problems(kind)]
        means(kind + ", mean", found)
        every += found
    means("all, mean", every)
