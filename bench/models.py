#!/usr/bin/env python3
"""Makes problems of known kinds that are to have a model of so many elements, of both answers, runs the program on each, and
where they are installed cvc5 and z3, and prints the times, and for each kind and in all the geometric means of the ratios.
Tables that the program prints are evaluated here, and proofs that there are none for few elements are checked by it.
`models.py --help` lists the kinds."""

import itertools
import os
import re
import shutil

from begin import beginning
from table import checked, compare

# A problem is a list of texts of clauses, or a function that gives it for a number of elements.
GROUP = ["m(e,X) = X", "m(i(X),X) = e", "m(m(X,Y),Z) = m(X,m(Y,Z))"]
LATIN = ["m(X,Y) != m(X,Z) | Y = Z", "m(Y,X) != m(Z,X) | Y = Z", "m(X,X) = X"]
LATTICE = [f"{f}({f}(X,Y),Z) = {f}(X,{f}(Y,Z))" for f in ("meet", "join")]
LATTICE += [f"{f}(X,Y) = {f}(Y,X)" for f in ("meet", "join")] + ["meet(X,join(X,Y)) = X", "join(X,meet(X,Y)) = X"]
ORDER = ["~less(X,X)", "~less(X,Y) | ~less(Y,Z) | less(X,Z)"]
LINE = ["less(X,Y) | less(Y,X) | X = Y"]
TOURNAMENT = ["beats(X,Y) | beats(Y,X) | X = Y", "~beats(X,Y) | ~beats(Y,X)"]
PARTY = ["~knows(X,X)", "~knows(X,Y) | knows(Y,X)", "~knows(X,Y) | ~knows(Y,Z) | ~knows(X,Z)",
         "knows(X,Y) | knows(Y,Z) | knows(X,Z) | X = Y | Y = Z | X = Z"]


def mycielski(colours):
    """A graph without triangles that wants so many colours (Mycielski, 1955). The elements are the colours."""
    edges, nodes = [(0, 1)], 2
    for _ in range(colours - 2):
        edges += [pair for a, b in edges for pair in ((a, b + nodes), (b, a + nodes))]
        edges += [(n, 2 * nodes) for n in range(nodes, 2 * nodes)]
        nodes = 2 * nodes + 1
    return [f"v{a} != v{b}" for a, b in edges]


def queens(k):
    """A queen in each row of a board, none of which meet."""
    clauses = [f"n{a} != n{b}" for a, b in itertools.combinations(range(k), 2)] + ["q(X) != q(Y) | X = Y"]
    for (a, b), (c, d) in itertools.product(itertools.combinations(range(k), 2), itertools.permutations(range(k), 2)):
        if b - a == abs(c - d):
            clauses.append(f"q(n{a}) != n{c} | q(n{b}) != n{d}")
    return clauses


def row_of(count):
    """A linear order that has a row of so many."""
    return ORDER + LINE + [f"less(c{n},c{n + 1})" for n in range(1, count)]


# for each kind a name, a problem, and the numbers of elements from 2 to 6 with which it has a model
KINDS = {
    "group": [("any", GROUP, (2, 3, 4, 5, 6)), ("not abelian", GROUP + ["m(a,b) != m(b,a)"], (6,)),
              ("of squares", GROUP + ["m(X,X) = e"], (2, 4))],
    "quasigroup": [("idempotent", LATIN, (3, 4, 5, 6)), ("third law", LATIN + ["m(m(X,Y),m(Y,X)) = X"], (4,)),
                   ("fifth law", LATIN + ["m(m(m(Y,X),Y),Y) = X"], (5,))],
    "lattice": [("not distributive", LATTICE + ["meet(a,join(b,c)) != join(meet(a,b),meet(a,c))"], (5, 6)),
                ("Boolean", LATTICE + ["meet(X,join(Y,Z)) = join(meet(X,Y),meet(X,Z))", "meet(X,n(X)) = zero", "join(X,n(X)) = one"],
                 (2, 4))],
    "order": [("row of 4", row_of(4), (4, 5, 6)), ("row of 6", row_of(6), (6,)), ("without end", ORDER + ["less(X,f(X))"], ())],
    "colouring": [(f"mycielski {n}", mycielski(n), range(n, 7)) for n in (3, 4, 5)],
    "cycles": [("twos", ["f(f(X)) = X", "f(X) != X"], (2, 4, 6)), ("threes", ["f(f(f(X))) = X", "f(X) != X"], (3, 6)),
               ("into a part", ["g(f(X)) = X", "f(X) != a"], ())],
    "puzzle": [("queens", queens, (4, 5, 6)), ("party", PARTY, (2, 3, 4, 5)),
               ("tournament", TOURNAMENT + ["beats(f(X),X)"], (3, 4, 5, 6)),
               ("tournament of pairs", TOURNAMENT + ["beats(f(X,Y),X)", "beats(f(X,Y),Y)"], ())],
}


# A term or an atom is the name of a variable, or a pair of a name and a tuple of terms; a literal is a sign and an atom.

def parsed(text):
    """The literals of a clause."""
    tokens = re.findall(r"\w+|!=|[^\s\w]", text)[::-1]

    def term():
        name, terms = tokens.pop(), []
        if tokens and tokens[-1] == "(":
            while tokens.pop() != ")":
                terms.append(term())
        return name if name[0].isupper() else (name, tuple(terms))

    literals = []
    while tokens:
        sign = tokens[-1] != "~"
        if not sign:
            tokens.pop()
        atom = term()
        if tokens and tokens[-1] in ("=", "!="):
            sign = tokens.pop() == "="
            atom = ("=", (atom, term()))
        literals.append((sign, atom))
        if tokens:
            tokens.pop()
    return literals


def parts(it):
    """All terms in a term or an atom, with itself."""
    return [it] if isinstance(it, str) else [it] + [part for term in it[1] for part in parts(term)]


def variables(clause):
    return sorted({it for _, atom in clause for it in parts(atom) if isinstance(it, str)})


def symbols(clauses):
    """The names of predicates, and those of functions, with the number of their arguments."""
    atoms = [atom for clause in clauses for _, atom in clause]
    functions = {(it[0], len(it[1])) for atom in atoms for it in parts(atom)[1:] if not isinstance(it, str)}
    return sorted({(name, len(terms)) for name, terms in atoms if name != "="}), sorted(functions)


def smt_term(it):
    return it if isinstance(it, str) else f"({it[0]} {' '.join(map(smt_term, it[1]))})" if it[1] else it[0]


def write_smt(path, clauses, head):
    with open(path, "w", encoding="ascii") as out:
        out.write(head)
        for names, sort in zip(symbols(clauses), ("Bool", "U")):
            out.writelines(f"(declare-fun {name} ({' '.join(['U'] * count)}) {sort})\n" for name, count in names)
        for clause in clauses:
            text = " ".join(smt_term(atom) if sign else f"(not {smt_term(atom)})" for sign, atom in clause)
            bound = " ".join(f"({name} U)" for name in variables(clause))
            out.write(f"(assert (forall ({bound}) (or {text})))\n" if bound else f"(assert (or {text}))\n")
        out.write("(check-sat)\n")


def heads(k):
    """A sort of k elements, by its cardinality for cvc5, and by their names for z3."""
    names = [f"k{n}" for n in range(1, k + 1)]
    constants = "".join(f"(declare-const {name} U)\n" for name in names)
    apart = f"(assert (distinct {' '.join(names)}))\n"
    return {"cvc5": f"(set-logic UFC)\n(declare-sort U 0)\n{constants}{apart}(assert (_ fmf.card U {k}))\n",
            "z3": f"(declare-datatypes ((U 0)) (({' '.join(f'({name})' for name in names)})))\n"}


def value(it, tables, elements):
    """The element that a term is, or whether an atom is true."""
    if isinstance(it, str):
        return elements[it]
    terms = tuple(value(term, tables, elements) for term in it[1])
    return terms[0] == terms[1] if it[0] == "=" else tables[it[0], terms]


def is_model(text, clauses, k):
    """Whether the tables in the text have all their cells, and make each clause true for all elements."""
    tables = {}
    for sign, name, terms, cell in re.findall(r"^(~?)(\w+)(?:\(([\d,]+)\))?(?: = (\d+))?$", text, re.M):
        tables[name, tuple(map(int, terms.split(","))) if terms else ()] = int(cell) if cell else not sign
    predicates, functions = symbols(clauses)
    elements = range(1, k + 1)
    for name, count in predicates + functions:
        for terms in itertools.product(elements, repeat=count):
            if tables.get((name, terms)) not in ((True, False) if (name, count) in predicates else elements):
                return False
    for clause in clauses:
        names = variables(clause)
        for them in itertools.product(elements, repeat=len(names)):
            if not any(value(atom, tables, dict(zip(names, them))) == sign for sign, atom in clause):
                return False
    return True


def answer(text):
    """Whether there is a model, by the first line of what a solver printed."""
    first = text.split(b"\n", 1)[0]
    return "model" if re.match(rb"sat$|% tables ", first) else "none" if re.match(rb"unsat$|% no tables ", first) else "?"


def main():
    given = beginning(__doc__, KINDS)
    others = [it for it in ("cvc5", "z3") if shutil.which(it)]

    def problems(kind):
        for (title, made, models), k in itertools.product(KINDS[kind], range(2, 7)):
            texts = made(k) if callable(made) else made
            clauses = list(map(parsed, texts))
            name = f"{kind}, {title}, {k}"
            stem = os.path.join(given.folder, name.replace(", ", "-").replace(" ", "-"))
            with open(stem + ".p", "w", encoding="ascii") as out:
                out.writelines(f"cnf(c{n},axiom,{text}).\n" for n, text in enumerate(texts, 1))
            for solver, head in heads(k).items():
                write_smt(f"{stem}.{solver}.smt2", clauses, head)
            words = {"cvc5": ["cvc5", "--finite-model-find", stem + ".cvc5.smt2"], "z3": ["z3", stem + ".z3.smt2"]}
            words = {"instgen": [given.program, "fmodel", str(k), stem + ".p"], **{it: words[it] for it in others}}

            def look(text, stem=stem, clauses=clauses, k=k):
                if answer(text) == "model":
                    return "true" if is_model(text.decode(), clauses, k) else "bad !"
                return checked(given.program, text, stem + ".txt") if k < 4 else ""

            yield name, "model" if k in models else "none", words, look

    compare(given, others, answer, problems)


if __name__ == "__main__":
    main()
