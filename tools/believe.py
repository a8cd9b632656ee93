#!/usr/bin/env python3
"""Writes docs/BELIEVE.md: the definitions that the answers rest on, in an order in which each is read after those that it names.

usage: tools/believe.py [--check]     --check: ends with the status 1 where the page is not what the sources give

They are found from the sources: from some definitions on, each name in a definition's text is looked up among those of its file and
of its lines `use`. What the kit's library defines is named and not followed."""

import os
import re
import sys

TOP = os.path.dirname(os.path.dirname(os.path.abspath(__file__)))
PAGE = os.path.join(TOP, 'docs', 'BELIEVE.md')
OPENS = ('pub', 'abbrev', 'unfoldable', 'record', 'data', 'mutual')
USE = re.compile(r'(?:pub )?use Rattle\.(\w+)\.(specs|proofs)\.([\w.]+?)(?:\.\{([^}]*)\})?(?: as (\w+))?$')
WORD = re.compile(r'[^\s(){}\[\];,.]+')


class Definition:
    def __init__(self, crate, file, name, text, comment, line):
        self.crate, self.file, self.name, self.text, self.comment, self.line = crate, file, name, text, comment, line


class Module:
    """A file of definitions: its own by name, and where a name from elsewhere stands."""

    def __init__(self, crate, place):
        self.crate, self.place, self.own, self.uses = crate, place, {}, {}
        self.path = os.path.join('crates', crate, 'specs', *place.split('.')) + '.antt'
        with open(os.path.join(TOP, self.path), encoding='utf-8') as file:
            self.read(file.read().split('\n'))

    def read(self, lines):
        comment, item = [], None
        for number, line in enumerate(lines, 1):
            if USE.match(line):
                self.use(line)
            elif line.startswith('--'):
                comment.append(line.lstrip('- ').strip())
            elif line.startswith(OPENS):
                item = self.open(line, ' '.join(comment), number)
                comment = []
            elif line.strip():
                comment = []
                if item and not line.strip().startswith('--'):
                    item.text.append(line)
                    self.name_within(item, line)
            else:
                comment = []

    def open(self, line, comment, number):
        """Begins a definition at its first line. One of several that name each other has its name from the first of them."""
        words = line.split()
        while len(words) > 1 and words[0] in OPENS:
            words.pop(0)
        item = Definition(self.crate, self.path, words[0].split('(')[0], [line], comment, number)
        if item.name != 'mutual':
            self.own[item.name] = item
        return item

    def name_within(self, item, line):
        """Notes the cases of a type of data, and the names of definitions that stand together."""
        found = re.match(r'\s+(?:pub )?(?:(?:data|record) )?([^\s:(]+)(?: |$)', line)
        together = 'mutual' in item.text[0].split()
        if not found or ' record ' in ' ' + item.text[0] and not together:
            return
        if together and re.match(r'\s+pub ', line) or re.match(r'\s+[^\s:]+ :', line):
            if item.name == 'mutual':
                item.name = found.group(1)
            self.own.setdefault(found.group(1), item)

    def use(self, line):
        crate, part, place, names, alias = USE.match(line).groups()
        if names is None:
            self.uses[alias or place.split('.')[-1]] = (crate, part, place, None)
            return
        for item in names.split(','):
            name, _, other = item.strip().partition(' as ')
            self.uses[other or name] = (crate, part, place, name)

    def named_in(self, definition):
        """What the words of a definition name: a definition of this file, or one of another."""
        text = '\n'.join(it.split(' -- ')[0] for it in definition.text)
        words = WORD.findall(text)
        for at, word in enumerate(words):
            if word in self.own and self.own[word] is not definition:
                yield self.crate, 'specs', self.place, word
            elif word in self.uses:
                crate, part, place, name = self.uses[word]
                if name is not None:
                    yield crate, part, place, name
                elif at + 1 < len(words):
                    yield crate, part, place, words[at + 1]
            for operator, target in self.uses.items():
                if '◌' in operator and word == operator.strip('◌'):
                    yield target


class Reader:
    def __init__(self):
        self.modules, self.order, self.met, self.library, self.types = {}, [], set(), {}, []

    def module(self, crate, place):
        if (crate, place) not in self.modules:
            self.modules[crate, place] = Module(crate, place)
        return self.modules[crate, place]

    def visit(self, crate, part, place, name):
        """Adds a definition behind all that it names."""
        if (crate, place, name) in self.met:
            return
        self.met.add((crate, place, name))
        if not os.path.isdir(os.path.join(TOP, 'crates', crate)):
            self.library.setdefault(name, crate)
        elif place.startswith('declared.'):
            self.declared(crate, place, name)
        elif part == 'specs':
            module = self.module(crate, place)
            definition = module.own.get(name)
            if definition is None and name in module.uses:
                self.visit(*module.uses[name][:3], module.uses[name][3] or name)
                return
            if definition is None or definition in self.met:
                return
            self.met.add(definition)
            for target in module.named_in(definition):
                self.visit(*target)
            self.order.append(definition)

    def declared(self, crate, place, name):
        """A type of the program: its text stands in src/."""
        parts = place.split('.')[1:]
        if 'TheVariants' in parts:
            return
        path = os.path.join('crates', crate, 'src', *parts[:-1]) + '.rt'
        type_name = parts[-1]
        if (path, type_name) not in self.types:
            self.types.append((path, type_name))


# Each part of the page, with the definitions that it begins from.
ROOTS = [
    ('shows', [('cert_format', 'Certifies', 'Shows')]),
    ('loads', [('tptp_load', 'Problems', 'Loads')]),
    ('text', [('cert_format', 'Text', 'certificate_text')]),
    ('decided', [('szs_prove', 'Answered', 'WritesCertificate')]),
    ('verdict', [('szs_prove', 'Answered', 'IsLoaded'), ('szs_prove', 'Answered', 'WantsOfProblem'), ('szs_prove', 'Answered', 'Yields')]),
    ('solved', [('szs_prove', 'Answered', 'WritesSolved'), ('szs_prove', 'Written', 'IsWritten')]),
    ('formula', [('szs_prove', 'Answered', 'WritesFormula')]),
    ('model', [('szs_prove', 'Answered', 'WritesModel')]),
    ('core', [('szs_prove', 'Answered', 'WritesCore')]),
    ('exact', [('szs_prove', 'Answered', 'IsExact')]),
]


WORDS = """
# What there is to believe

The kit checks the proofs. What you must check by eye is that the statements say what they seem to say. This page lists the definitions behind them, each after those that it names, and after the parts of the page before it. `tools/believe.py` writes it from the sources, and `tools/believe.py --check` compares the two. A line number is that of the definition's first line, below `crates/`.

## The headline

If `prove` writes Unsatisfiable, the ground instances it writes are instances of the problem's clauses and of its equality axioms, and no valuation makes them all true. If it writes Satisfiable, the certificate describes a model, and every ground instance of those clauses is true in it. A readable problem without function symbols always gets one of the two verdicts (constants don't count as function symbols; it may take very long), unless memory runs out or a file can't be read or written.

These are clauses of `run` in `szs_prove/src/command.rt`, the call that `main` makes. `decided` says that a verdict is written only with a certificate that shows what its status says, for the problem of the file. `exact` says that there is always a verdict. Read in this order:

1. **What a verdict shows**: the {shows count} definitions of the first table, up to `Shows`. They are the heart, and speak of trees, lists and numbers alone: no bank, solver, index or file occurs in them.
2. **Which problem is meant**: `Loads`, over {loads count} more. They are the grammar of TPTP's clauses and the rules of includes, as in `docs/FORMATS.md`. If you trust the reader, skip them: the certificate has the clauses as they were read.
3. **Which bytes say it**: `certificate_text`, over {text count} more, the lines of a certificate. If you read the certificate by eye, skip them too.
4. **The clause `decided`**: `WritesCertificate`, over {decided count} more: the words, what makes a certificate valid, and the run of the calculus from which it comes. None of them weakens what stands before: the clause says all of it together.
5. **That there is always a verdict**: {verdict count} more.

The other commands come after that: `sat`, `qbf`, `fmodel` and `core`, and last the clause `exact` for all of them.

## What a verdict shows

{shows table}

`Shows` holds of an empty list of instances too: a problem without clauses is not refuted, since any valuation makes all of no clauses true. A saturation speaks of every ground instance, over whatever symbols. For a finite list of clauses it gives a Herbrand model, in which equality is a congruence, by the axioms among the clauses. That a congruence gives a structure with true equality is the textbook's step, and not proved.

## Which problem is meant

{loads files}

## Which bytes say it

{text files}

## The clause `decided`

{decided files}

## That there is always a verdict

The headline's last sentence is the clause `exact`, read for `prove`. Where the library (what files are read from) tells its files, the words ask one question, and the files answer it in one way: `IsLoaded` has the problem, or why there is none. The exit is then the one that `WantsOfProblem` names: Decided where the problem has no function symbols with arguments, Decided or ResourceOut where it has some, Refused where the file gives no problem. Only the three exits of `Yields` may come in its place: a read that failed, a write that failed, or out of memory.

{verdict table}

The last part of this page has `IsExact` itself, which says this of every command.

## `sat`: the clause `solved`

The clauses are those that the file's text spells, `IsDimacs`. `s SATISFIABLE` comes with a value for each variable, and these make every clause true. `s UNSATISFIABLE` comes only where no values do, and with a derivation whose steps each follow from the clauses and steps that they cite, and whose last step is empty. `IsWritten`, of the clause `answered`, says what the output has for any answer: the whole of it, or a proper prefix of it where writing failed or the output ran out of memory.

{solved table}

## `qbf`: the clause `formula`

`s TRUE` and `s FALSE` are the value of the formula by its meaning, `value`: `s TRUE` where some values of the variables without a quantifier make it true, `s FALSE` where none do. The line comes with a certificate of the formula's `translation` to clauses. That both say the same is a theorem (`qbf_logic`), so you need not believe the translation for the line, only for reading the certificate.

{formula table}

## `fmodel`: the clause `model`

The tables that are written give each function symbol an element and each predicate symbol a truth value at all arguments. They make every clause true under every assignment of elements, with equality as identity (`IsModel`). `% no tables` comes only where no such tables exist, and with a refutation of the `flattened` form. That the two forms say the same is a theorem (`finite_model`).

{model table}

## `core`: the clause `core`

The places that are written are those of a core (`IsCore`): the clauses there are refuted, and without any one of them the rest are satisfiable. The text has a refutation, and for each place a saturation. `% no core` comes only where the clauses are satisfiable, with their saturation.

{core table}

## `exact`: every question has its answer

Where the library tells its files, some situation stands: a question with what it finds in the files, or words that aren't read. The exit is one that is wanted there, or one of the three of `Yields`. What `check` and `ask` find of a certificate is here too: that it is valid and one of the problem, the first complaint, or the first bad line.

{exact table}

## Below these

Types of the program: {types}.

Words of the kit's library, among them all of `clap` that is cited: {library}.

## What no definition says

- **That the proofs were checked.** You have the kit's word for it, on your machine: `./instgen` proves each crate before it builds the program.
- **What `main` does.** It has no clause. It reads the words, makes the real library of files and the real output, calls `run`, and ends with the number of the exit. If an argument is not UTF-8, nothing is printed and the status is 3. Read `instgen/src/main.rt` and `words.rt` beside it; they are short.
- **That the real devices are honest.** `exact` holds where the library tells its files, and what was written is known where the output tells its bytes. Those in memory do, and the real ones don't: their contracts say nothing of bytes. Tests compare them with real folders and a real output.
- **That the compiler is right.** The gate runs the program as two compilers build it.
- **That memory is there.** Out of memory is an answer without a cause: a contract can't exclude a program that always gives it. Tests do.
- **Where `Memory` means that room ended.** Many tables keep numbers in four bytes, and answer out of memory when no number is left, though memory may be there: after 2,147,483,647 clauses or steps of a search, for example, or 4,294,967,295 literals. README has these limits, and `docs/PROMISES.md` has them crate by crate. A small input comes to one of them: a certificate with a variable `X4294967296` or above.
- **That the stack suffices**, and how long anything takes.
"""

def cell(text):
    return text.replace('|', '\\|')


def sentence(definition):
    """The comment above the definition, or its text where there is none."""
    lines = [' '.join(it.split()) for it in definition.text]
    if definition.comment:
        return cell(definition.comment)
    equations = [it for it in lines[1:] if it.startswith(definition.name + ' ') and '=' in it] or lines[1:] or lines
    return cell('; '.join('`%s`' % it for it in equations[:3])) + (' ..' if len(equations) > 3 else '')


def table(found):
    out = ['| | Definition | What it says | File, line |', '|---|---|---|---|']
    return out + ['| %d | `%s` | %s | `%s`, %d |' % (number, cell(it.name), sentence(it), it.file[len('crates/'):], it.line) for number, it in enumerate(found, 1)]


def by_file(found):
    """The names of definitions, by the files in which they stand."""
    files = {}
    for it in found:
        files.setdefault(it.file[len('crates/'):], []).append('`%s`' % cell(it.name))
    return ['- `%s`: %s' % (file, ', '.join(names)) for file, names in files.items()]


def page():
    text, reader, begun = WORDS.strip(), Reader(), 0
    for mark, roots in ROOTS:
        for crate, place, name in roots:
            if name not in reader.module(crate, place).own:
                sys.exit('%s: no definition %s' % (reader.module(crate, place).path, name))
            reader.visit(crate, 'specs', place, name)
        found, begun = reader.order[begun:], len(reader.order)
        text = text.replace('{%s count}' % mark, str(len(found)))
        text = text.replace('{%s table}' % mark, '\n'.join(table(found))).replace('{%s files}' % mark, '\n'.join(by_file(found)))
    types = ', '.join('`%s` (`%s`)' % (name, path[len('crates/'):]) for path, name in sorted(reader.types, key=lambda it: it[1]))
    library = ', '.join('`%s`' % cell(it) for it in sorted(reader.library))
    return text.replace('{types}', types).replace('{library}', library) + '\n'


def main():
    text = page()
    if '--check' in sys.argv[1:]:
        with open(PAGE, encoding='utf-8') as file:
            same = file.read() == text
        print('docs/BELIEVE.md is what the sources give' if same else 'docs/BELIEVE.md is not what the sources give: run tools/believe.py')
        return 0 if same else 1
    with open(PAGE, 'w', encoding='utf-8') as file:
        file.write(text)
    return 0


sys.exit(main())
