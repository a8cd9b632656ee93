#!/usr/bin/env python3
"""Makes problems with function symbols, of which most are refuted, runs `prove` on each, and E and z3 where they are installed, and prints
the seconds, for each kind and in all the geometric means of the ratios, and how many the program decides. `functions.py --help` lists the
kinds."""

import itertools
import os
import re
import shutil

from begin import beginning
from models import parsed, write_smt
from table import compare

# A problem is a name, whether its clauses have a model, and their texts.


def number(n):
    return "s(" * n + "o" + ")" * n


def row(items):
    """A list of items."""
    return "".join(f"cons({it}," for it in items) + "nil" + ")" * len(items)


PLUS = ["plus(o,X,X)", "~plus(X,Y,Z) | plus(s(X),Y,s(Z))"]
TIMES = ["times(o,X,o)", "~times(X,Y,Z) | ~plus(Y,Z,W) | times(s(X),Y,W)"]
SUM = ["add(o,X) = X", "add(s(X),Y) = s(add(X,Y))"]
PRODUCT = ["mul(o,X) = o", "mul(s(X),Y) = add(Y,mul(X,Y))"]
LESS = ["less(o,s(X))", "~less(X,Y) | less(s(X),s(Y))"]


def relations():
    for n, m in ((2, 2), (4, 3), (8, 8), (16, 16), (40, 5)):
        yield f"{n} and {m}", False, PLUS + [f"~plus({number(n)},{number(m)},X)"]
    for n, m in ((3, 1), (8, 3), (16, 7)):
        yield f"{n} without {m}", False, PLUS + [f"~plus({number(m)},X,{number(n)})"]
        yield f"{m} before {n}", False, PLUS + [f"~plus(X,{number(m)},{number(n)})"]
    for n, m in ((2, 2), (3, 3), (4, 4), (5, 6)):
        yield f"{n} times {m}", False, PLUS + TIMES + [f"~times({number(n)},{number(m)},X)"]
    for n, m in ((6, 2), (12, 3), (9, 3)):
        yield f"{n} by {m}", False, PLUS + TIMES + [f"~times({number(m)},X,{number(n)})"]
    for n in (4, 9):
        yield f"root of {n}", False, PLUS + TIMES + [f"~times(X,X,{number(n)})"]
    for n in (3, 10, 30):
        yield f"half of {2 * n}", False, PLUS + [f"~plus(X,X,{number(2 * n)})"]
    for n in (3, 9):
        yield f"between {n} and {n + 2}", False, LESS + [f"~less({number(n)},X) | ~less(X,{number(n + 2)})"]


def functions():
    for n, m in ((1, 1), (2, 2), (3, 2), (4, 4), (7, 1)):
        yield f"{n} and {m}", False, SUM + [f"add({number(n)},{number(m)}) != {number(n + m)}"]
    for n, m in ((1, 1), (2, 2), (2, 3), (3, 3)):
        yield f"{n} times {m}", False, SUM + PRODUCT + [f"mul({number(n)},{number(m)}) != {number(n * m)}"]
    for n in (1, 2, 4):
        yield f"{n} and what", False, SUM + [f"add({number(n)},X) != {number(n + 2)}"]
    yield "step", False, SUM + ["add(a,o) = a", "add(s(a),o) != s(a)"]
    yield "commuting step", False, SUM + ["add(X,s(Y)) = s(add(X,Y))", "add(a,b) = add(b,a)", "add(s(a),b) != add(b,s(a))"]


GROUP = ["p(e,X,X)", "p(i(X),X,e)", "p(X,Y,m(X,Y))", "~p(X,Y,U) | ~p(Y,Z,V) | ~p(U,Z,W) | p(X,V,W)", "~p(X,Y,U) | ~p(Y,Z,V) | ~p(X,V,W) | p(U,Z,W)"]
MONOID = ["m(e,X) = X", "m(m(X,Y),Z) = m(X,m(Y,Z))"]
EQUAL = MONOID + ["m(i(X),X) = e"]


def groups():
    yield "solution of a X", False, GROUP + ["~p(X,a,b)"]
    yield "solution of X a", False, GROUP + ["~p(a,X,b)"]
    yield "right neutral", False, GROUP + ["~p(a,e,a)"]
    yield "right inverse", False, GROUP + ["~p(a,i(a),e)"]
    yield "some right inverse", False, GROUP + ["~p(a,X,e)"]
    yield "some right neutral", False, GROUP + ["~p(s(X),X,s(X))"]
    yield "squares", False, GROUP + ["p(X,e,X)", "p(X,i(X),e)", "p(X,X,e)", "p(a,b,c)", "~p(b,a,c)"]
    yield "inverse twice", False, GROUP + ["p(X,e,X)", "p(X,i(X),e)", "~p(i(i(a)),e,a)"]
    yield "sub-group", False, GROUP + ["p(X,e,X)", "p(X,i(X),e)", "~h(X) | ~h(Y) | ~p(X,i(Y),Z) | h(Z)", "h(b)", "~h(e)"]
    yield "sub-group inverse", False, GROUP + ["p(X,e,X)", "p(X,i(X),e)", "~h(X) | ~h(Y) | ~p(X,i(Y),Z) | h(Z)", "h(b)", "~h(i(b))"]
    yield "equations, left", False, EQUAL + ["m(i(a),m(a,b)) != b"]
    yield "equations, right inverse", False, EQUAL + ["m(a,i(a)) != e"]
    yield "equations, right neutral", False, EQUAL + ["m(X,i(X)) = e", "m(a,e) != a"]
    yield "equations, squares", False, EQUAL + ["m(X,X) = e", "m(X,e) = X", "m(a,b) != m(b,a)"]
    yield "equations, neutral alone", False, MONOID + ["m(X,d) = X", "d != e"]
    yield "equations, cancelled", False, EQUAL + ["m(a,b) = m(a,c)", "b != c"]
    yield "equations, not abelian", True, MONOID + ["m(X,e) = X", "m(a,b) != m(b,a)"]


APPEND = ["app(nil,X,X)", "~app(X,Y,Z) | app(cons(U,X),Y,cons(U,Z))"]
REVERSE = ["rev(nil,nil)", "~rev(X,Y) | ~app(Y,cons(U,nil),Z) | rev(cons(U,X),Z)"]
TURN = ["turn(nil,X,X)", "~turn(X,cons(U,Y),Z) | turn(cons(U,X),Y,Z)"]
MEMBER = ["in(U,cons(U,X))", "~in(U,X) | in(U,cons(V,X))"]


def lists():
    for n in (2, 5, 12, 30):
        names = [f"a{k}" for k in range(n)]
        yield f"append {n}", False, APPEND + [f"~app({row(names)},{row(names)},X)"]
        yield f"split {n}", False, APPEND + [f"~app(X,{row(names[n // 2:])},{row(names)})"]
        yield f"turn {n}", False, TURN + [f"~turn({row(names)},nil,X)"]
        yield f"member {n}", False, MEMBER + [f"~in(a{n - 1},{row(names)})"]
    for n in (2, 3, 5):
        names = [f"a{k}" for k in range(n)]
        yield f"reverse {n}", False, APPEND + REVERSE + [f"~rev({row(names)},X)"]
        yield f"last of {n}", False, APPEND + [f"~app(X,cons(a{n - 1},nil),{row(names)})"]
    for n in (2, 4, 7):
        names = [f"a{k}" for k in range(n)]
        yield f"common of {n}", False, MEMBER + [f"~in(X,{row(names)}) | ~in(X,{row(['b'] * n + names[-1:])})"]


DETACH = ["~p(i(X,Y)) | ~p(X) | p(Y)"]
K, S, N = "p(i(X,i(Y,X)))", "p(i(i(X,i(Y,Z)),i(i(X,Y),i(X,Z))))", "p(i(i(n(X),n(Y)),i(Y,X)))"
LUKASIEWICZ = ["p(i(i(X,Y),i(i(Y,Z),i(X,Z))))", "p(i(i(n(X),X),X))", "p(i(X,i(n(X),Y)))"]


def detachment():
    yield "identity", False, DETACH + [K, S, "~p(i(a,a))"]
    yield "weakened", False, DETACH + [K, S, "~p(i(b,i(a,a)))"]
    yield "chain", False, DETACH + [K, S, "p(i(a,b))", "p(i(b,c))", "~p(i(a,c))"]
    yield "long chain", False, DETACH + [K, S, "p(i(a,b))", "p(i(b,c))", "p(i(c,d))", "~p(i(a,d))"]
    yield "exchange", False, DETACH + [K, S, "p(i(a,i(b,c)))", "~p(i(b,i(a,c)))"]
    yield "contradiction", False, DETACH + [K, S, N, "p(n(a))", "~p(i(a,b))"]
    yield "three axioms", False, DETACH + LUKASIEWICZ + ["~p(i(a,a))"]
    yield "three axioms, chain", False, DETACH + LUKASIEWICZ + ["p(i(a,b))", "p(i(b,c))", "~p(i(a,c))"]
    yield "two of three", False, DETACH + ["p(i(i(X,Y),i(i(Y,Z),i(X,Z))))", "p(i(a,b))", "p(i(b,c))", "p(i(c,d))", "~p(i(a,d))"]
    yield "no detachment", True, [K, S, "~p(i(a,a))"]


def jugs(large, small, wanted):
    """Two jugs: fill one, empty one, pour from one into the other until that is full or the first is empty."""
    clauses = ["at(o,o)", f"~at(X,Y) | at({number(large)},Y)", f"~at(X,Y) | at(X,{number(small)})", "~at(X,Y) | at(o,Y)", "~at(X,Y) | at(X,o)"]
    for n, m in itertools.product(range(large + 1), range(small + 1)):
        before, both = f"~at({number(n)},{number(m)})", n + m
        clauses.append(f"{before} | at({number(max(0, both - small))},{number(min(small, both))})")
        clauses.append(f"{before} | at({number(min(large, both))},{number(max(0, both - large))})")
    return clauses + [f"~at({number(wanted)},X)"]


def river():
    """The farmer with a wolf, a goat and a cabbage, with the way as a term. No state is reached in which the goat is left with another."""
    clauses, other = ["at(l,l,l,l,start)"], {"l": "r", "r": "l"}
    for f, w, g, c in itertools.product("lr", repeat=4):
        crossings = [("alone", (w, g, c))]
        crossings += [("wolf", (other[w], g, c))] * (w == f) + [("goat", (w, other[g], c))] * (g == f) + [("cabbage", (w, g, other[c]))] * (c == f)
        for name, (x, y, z) in crossings:
            if y == other[f] or y not in (x, z):
                clauses.append(f"~at({f},{w},{g},{c},X) | at({other[f]},{x},{y},{z},{name}(X))")
    return clauses + ["~at(r,r,r,r,X)"]


def towers(count):
    """Discs from one peg to another by the third, with the moves as a list."""
    return ["moves(o,X,Y,Z,L,L)", "~moves(N,X,Z,Y,cons(step(X,Y),K),L) | ~moves(N,Z,Y,X,M,K) | moves(s(N),X,Y,Z,M,L)", f"~moves({number(count)},a,b,c,nil,L)"]


def blocks(count):
    """A tower is taken down block by block: a state is a list of what stands and one of what lies."""
    names = row([f"b{n}" for n in range(count)])
    return [f"state({names},nil)", "~state(cons(U,X),Y) | state(X,cons(U,Y))", f"~state(nil,{row([f'b{n}' for n in reversed(range(count))])})"]


def puzzles():
    yield "river", False, river()
    for large, small, wanted in ((3, 2, 1), (4, 3, 2), (5, 3, 4)):
        yield f"jugs of {large} and {small}", False, jugs(large, small, wanted)
    for count in (1, 2, 3, 4):
        yield f"towers of {count}", False, towers(count)
    for count in (3, 10, 25):
        yield f"blocks, {count}", False, blocks(count)
    yield "barber", False, ["~shaves(b,X) | ~shaves(X,X)", "shaves(b,X) | shaves(X,X)"]
    yield "drinker", False, ["drinks(X)", "~drinks(f(X))"]
    yield "no greatest", True, ["above(f(X),X)", "~above(X,g(X))"]
    yield "crocodiles", True, ["~loves(X,f(X))", "loves(X,Y) | loves(Y,X)"]
    yield "grandparents", False, ["parent(X,p(X))", "~parent(X,Y) | ~parent(Y,Z) | grand(X,Z)", "~grand(a,X)"]
    yield "ancestors", False, ["parent(X,p(X))", "~parent(X,Y) | anc(X,Y)", "~parent(X,Y) | ~anc(Y,Z) | anc(X,Z)", "~anc(a,p(p(p(p(p(a))))))"]
    yield "tree of three", False, ["~t(X) | t(l(X))", "~t(X) | t(r(X))", "t(a)", "~t(l(r(l(X))))"]
    yield "binary", False, ["even(o)", "~even(X) | odd(s(X))", "~odd(X) | even(s(X))", f"~even({number(20)})"]
    yield "never both", True, ["even(o)", "~even(X) | odd(s(X))", "~odd(X) | even(s(X))", "~even(X) | ~odd(X)"]
    yield "loves someone", True, ["loves(X,f(X))", "~loves(X,X)"]
    yield "order without end", True, ["less(X,f(X))", "~less(X,X)", "~less(X,Y) | ~less(Y,Z) | less(X,Z)"]


SETS = ["~in(X,u(Y,Z)) | in(X,Y) | in(X,Z)", "~in(X,Y) | in(X,u(Y,Z))", "~in(X,Z) | in(X,u(Y,Z))", "~in(X,n(Y,Z)) | in(X,Y)", "~in(X,n(Y,Z)) | in(X,Z)",
        "~in(X,Y) | ~in(X,Z) | in(X,n(Y,Z))", "~sub(Y,Z) | ~in(X,Y) | in(X,Z)", "in(k(Y,Z),Y) | sub(Y,Z)", "~in(k(Y,Z),Z) | sub(Y,Z)"]


def sets():
    for name, goal in (("reflexive", ["~sub(a,a)"]), ("transitive", ["sub(a,b)", "sub(b,c)", "~sub(a,c)"]), ("union", ["~sub(a,u(a,b))"]),
                       ("union turned", ["~sub(u(a,b),u(b,a))"]), ("section", ["~sub(n(a,b),a)"]), ("section turned", ["~sub(n(a,b),n(b,a))"]),
                       ("distributed", ["~sub(n(a,u(b,c)),u(n(a,b),n(a,c)))"]), ("gathered", ["~sub(u(n(a,b),n(a,c)),n(a,u(b,c)))"]),
                       ("joined", ["~sub(u(u(a,b),c),u(a,u(b,c)))"]), ("monotone", ["sub(a,b)", "~sub(n(a,c),n(b,c))"]),
                       ("monotone union", ["sub(a,b)", "~sub(u(a,c),u(b,c))"]), ("absorbed", ["~sub(u(a,n(a,b)),a)"]),
                       ("four", ["sub(a,b)", "sub(b,c)", "sub(c,d)", "~sub(a,d)"])):
        yield name, False, SETS + goal


COMBINE = ["a(a(a(s,X),Y),Z) = a(a(X,Z),a(Y,Z))", "a(a(k,X),Y) = X"]


def combinators():
    yield "identity", False, COMBINE + ["a(a(a(s,k),k),c) != c"]
    yield "some identity", False, COMBINE + ["a(X,c) != c"]
    yield "identity by f", False, COMBINE + ["a(X,f(X)) != f(X)"]
    yield "fixed point", False, ["a(a(a(b,X),Y),Z) = a(X,a(Y,Z))", "a(m,X) = a(X,X)", "a(c,X) != X"]
    yield "mocking bird", True, ["a(m,X) = a(X,X)", "a(a(b,X),Y) = a(X,Y)", "a(m,X) != X"]
    yield "turned", False, ["a(a(t,X),Y) = a(Y,X)", "a(a(t,c),d) != a(d,c)"]


KINDS = {"relations": relations, "functions": functions, "groups": groups, "lists": lists, "detachment": detachment, "puzzles": puzzles, "sets": sets,
         "combinators": combinators}


def answer(text):
    """Unsatisfiable or Satisfiable, as TPTP and SMT solvers say it."""
    if re.search(rb"^(unsat$|.*SZS status (Unsatisfiable|ContradictoryAxioms))", text, re.M):
        return "refuted"
    return "model" if re.search(rb"^(sat$|.*SZS status Satisfiable)", text, re.M) else "?"


def main():
    given = beginning(__doc__, KINDS, limit=2)
    others = [it for it, name in (("E", "eprover"), ("z3", "z3")) if shutil.which(name)]

    made, decided = [], []

    def look(text):
        decided.append(text)
        return ""

    def problems(kind):
        for title, model, texts in KINDS[kind]():
            made.append(title)
            name = f"{kind}, {title}"
            stem = os.path.join(given.folder, name.replace(", ", "-").replace(" ", "-"))
            with open(stem + ".p", "w", encoding="ascii") as out:
                out.writelines(f"cnf(c{n},{'negated_conjecture' if n == len(texts) else 'axiom'},({text})).\n" for n, text in enumerate(texts, 1))
            write_smt(stem + ".smt2", list(map(parsed, texts)), "(set-logic UF)\n(declare-sort U 0)\n")
            words = {"E": ["eprover", "--auto", "--silent", stem + ".p"], "z3": ["z3", stem + ".smt2"]}
            words = {"instgen": [given.program, "prove", stem + ".p"], **{it: words[it] for it in others}}
            yield name, "model" if model else "refuted", words, look

    compare(given, others, answer, problems)
    print(f"{len(decided)} of {len(made)} are decided")


if __name__ == "__main__":
    main()
