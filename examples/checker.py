#!/usr/bin/env python3
"""Checks a certificate without the program: this file was written from docs/FORMATS.md alone, by somebody who had not read the program's checker.

CERT is a certificate of any format, or the whole answer of `qbf`, or that of `fmodel` where there is no model. What is printed is what `instgen check`
prints: `valid` and the form; `invalid:` and the first complaint; or why a file is refused. The exit status is 0, 7, or that of the refusal.

With --problem, the clauses of the certificate must be those of FILE, which is what the program was asked about: a problem, or a quantified formula, whose
clauses are made here. Where CERT begins with `% no tables K for NAME`, they must be those that say that FILE's clauses have a model with K elements."""
import argparse
import itertools
import re
import sys

class Misread(Exception):
    """a place of a text that its rules do not allow"""
class Ended(Exception):
    """the word of a refusal, or none for a complaint; the line that says why; and the exit status"""
def demand(holds):
    if not holds:
        raise Misread
def refuse(word, line, holds=True, status=2):
    if holds:
        raise Ended(word, line, status)
def complain(words, holds):
    refuse('', f'invalid: {words}', holds, 7)

# Terms, atoms and literals are tuples of what is read from left to right: of symbols, which have a kind, a name and how many arguments follow, and of
# variables, which are numbers in canonical clauses. A negative literal begins with NOT. A clause is a tuple of literals.
NOT, EQUAL, TRUE, FALSE = ('not', '~', 1), ('equality', '=', 2), ('dollar', '$true', 0), ('dollar', '$false', 0)
def is_variable(part):
    return not isinstance(part, tuple)
def complement(literal):
    return literal[1:] if literal[0] == NOT else (NOT, *literal)
def item(items, number):
    return items[number - 1] if 1 <= number <= len(items) else None
def subterm(term, place):
    end, missing = place, 1
    while missing:
        missing += -1 if is_variable(term[end]) else term[end][2] - 1
        end += 1
    return term[place:end]
def variables(clause):
    """the different variables, by first occurrence"""
    return list(dict.fromkeys(part for literal in clause for part in literal if is_variable(part)))
def replaced(term, bindings):
    return tuple(new for part in term for new in bindings.get(part, (part,)))
def instance(clause, bindings):
    return tuple(dict.fromkeys(replaced(literal, bindings) for literal in clause))
def under_terms(clause, terms):
    """the clause under terms, or None where they are not as many as its variables"""
    places = variables(clause)
    return instance(clause, dict(zip(places, terms))) if len(places) == len(terms) else None
def canonical(clause):
    """equal literals once, and the variables numbered by first occurrence"""
    return instance(clause, {part: (number,) for number, part in enumerate(variables(clause))})
def is_tautology(clause):
    return not {complement(literal) for literal in clause}.isdisjoint(clause)
def symbols(clauses, kind):
    """the different symbols of a kind, by first occurrence"""
    return list(dict.fromkeys(part for clause in clauses for literal in clause for part in literal if not is_variable(part) and part[0] == kind))
def axioms(clauses):
    same = [((EQUAL, 0, 0),), ((NOT, EQUAL, 0, 1), (EQUAL, 1, 0)), ((NOT, EQUAL, 0, 1), (NOT, EQUAL, 1, 2), (EQUAL, 0, 2))]
    others = [congruence(symbol) for kind in ('function', 'predicate') for symbol in symbols(clauses, kind) if symbol[2]]
    return same + others if symbols(clauses, 'equality') else []
def congruence(symbol):
    ones, others = range(0, 2 * symbol[2], 2), range(1, 2 * symbol[2], 2)
    last = [(EQUAL, symbol, *ones, symbol, *others)] if symbol[0] == 'function' else [(NOT, symbol, *ones), (symbol, *others)]
    return (*((NOT, EQUAL, one, other) for one, other in zip(ones, others)), *last)

def unifier(first, second):
    """a most general unifier of two literals without common variables, or None"""
    bindings = {}
    while first != second:
        place = next(place for place, (one, other) in enumerate(zip(first, second)) if one != other)
        one, other = sorted((subterm(first, place), subterm(second, place)), key=lambda term: not is_variable(term[0]))
        if not is_variable(one[0]) or one[0] in other:
            return None
        step = {one[0]: other}
        first, second = replaced(first, step), replaced(second, step)
        bindings = {**{part: replaced(term, step) for part, term in bindings.items()}, **step}
    return bindings

def meeting(left, left_place, right, right_place):
    """the instance of each side for whose literal at its place the unifier is proper; None where there is no unifier or no such literal"""
    one, other = item(left, left_place), item(right, right_place)
    start = 1 + (one is not None and one[0] != NOT)
    if None in (one, other) or complement(one)[:start] != other[:start]:
        return None
    right = instance(right, {part: (-1 - part,) for part in variables(right)})
    bindings = unifier(complement(one), right[right_place - 1])
    sides = ('left', left, left_place), ('right', right, right_place)
    return None if bindings is None else {side: canonical(instance(clause, bindings)) for side, clause, place in sides if any(
        not is_variable(bindings.get(part, (part,))[0]) for part in variables([clause[place - 1]]))}
def has_instance_within(clause, target):
    """whether an instance of the clause has all its literals in the target, whose variables are held fixed"""
    fixed, work = instance(target, {part: (('fixed', part, 0),) for part in variables(target)}), [clause]
    while work and work[-1]:
        first, *rest = work.pop()
        found = [unifier(first, literal) for literal in fixed]
        work += [instance(rest, bindings) for bindings in found if bindings is not None]
    return bool(work)

# Statements. The lines of a certificate are statements too, but must be spelled in one way.
LOWER, QUOTED, INTEGER = '[a-z][A-Za-z0-9_]*', r"'(?:[\x20-&(-\[\]-~]|\\['\\])+'", '[+-]?[0-9]+'
PRINTED = f"(?:{LOWER}|(?!'{LOWER}'){QUOTED})"
BLANK = re.compile(r'(?:[\t-\r ]+|%[^\n]*|/\*.*?\*/)*', re.DOTALL)
KINDS = {'real': rf'{INTEGER}(?:\.[0-9]+(?:[eE]{INTEGER})?|[eE]{INTEGER})', 'rational': rf'{INTEGER}/[0-9]+', 'integer': INTEGER, 'lower': LOWER,
         'variable': '[A-Z][A-Za-z0-9_]*', 'dollar': rf'\$\$?{LOWER}', 'quoted': QUOTED, 'distinct': r'"(?:[\x20!#-\[\]-~]|\\["\\])*"',
         'mark': r'!=|[()\[\],.|~=:]'}
TOKEN = re.compile('|'.join(f'(?P<{kind}>{spelling})' for kind, spelling in KINDS.items()))
WORDS = [kind for kind in KINDS if kind != 'mark']
LANGUAGES, ROLES = 'fof tff tcf thf tpi'.split(), 'axiom hypothesis definition assumption lemma theorem corollary negated_conjecture plain'.split()
def content(word):
    return re.sub(r'\\(.)', r'\1', word[1:-1]) if word.startswith("'") else word

class Statement:
    """the tokens from a place up to the first full stop, each a kind and a text, and how many are read"""
    def __init__(self, text, end=0, where=None, place=1):
        self.tokens, self.end, self.place, self.truths, self.loose, self.where = [('mark', ' ')], end, place, set(), False, where
        while self.tokens[-1][1] != '.':
            found = TOKEN.match(text, BLANK.match(text, self.end).end())
            demand(found)
            self.tokens.append((found.lastgroup, found[0]))
            self.end = found.end()
            word = self.tokens[1][1]
            refuse('Inappropriate', f'% language {word}: {where}', word in LANGUAGES and len(self.tokens) == 3 and found[0] == '(')
    def has(self, word):
        found = self.tokens[self.place % len(self.tokens)][1] == word
        self.place += found
        return found
    def expect(self, *words):
        demand(all(self.has(word) for word in words))
    def take(self, *kinds):
        kind, text = self.tokens[self.place % len(self.tokens)]
        demand(kind in kinds)
        self.place += 1
        return kind, content(text)
    def name(self):
        return self.take('lower', 'quoted', 'integer')[1]
    def listed(self, part):
        parts = self.expect('[') or []
        while not self.has(']'):
            self.expect(*[','] * bool(parts))
            parts.append(part())
        return parts
    def leaf(self):
        if self.has('['):
            return 'list', '['
        kind, name = self.take(*WORDS)
        is_number = kind == 'variable' and re.fullmatch('X(0|[1-9][0-9]{0,19})', name) and int(name[1:]) < 2 ** 64
        return 'function' if kind in ('lower', 'quoted') else kind, int(name[1:]) if is_number else name
    def term(self):
        """a general term, as terms are; a list has the name `[`, and of `a:b` both stand one behind the other"""
        parts, open_places = [], []
        while True:
            kind, name = self.leaf()
            parts.append(name if kind == 'variable' else (kind, name, 0))
            if kind == 'list' and not self.has(']') or kind in ('function', 'dollar') and self.has('('):
                open_places.append(len(parts) - 1)
                parts[-1] = kind, name, 1
                continue
            while kind == 'list' or not self.has(':'):
                if not open_places:
                    return tuple(parts)
                kind, name, size = parts[open_places[-1]]
                if self.has(','):
                    parts[open_places[-1]] = kind, name, size + 1
                    break
                open_places.pop()
                self.expect(']' if kind == 'list' else ')')
    def opened(self):
        level = sum(iter(lambda: self.has('('), False))
        self.loose |= level > 0
        return level
    def literal(self):
        negative = self.has('~')
        level, begin, atom = self.opened() if negative else 0, self.place, self.term()
        unequal = not negative and self.has('!=')
        if unequal or self.has('='):
            atom, self.loose = (EQUAL, *atom, *self.term()), self.loose or negative
        else:
            demand(not is_variable(atom[0]) and atom[0][0] in ('function', 'dollar'))
            atom = (('predicate', *atom[0][1:]) if atom[0][0] == 'function' else atom[0], *atom[1:])
            self.truths |= {begin} if atom in ((TRUE,), (FALSE,)) else set()
        self.expect(*')' * level)
        return complement(atom) if negative or unequal else atom
    def disjunction(self):
        literals, level, begin = [], 0, self.place
        while not literals or self.has('|'):
            level += self.opened()
            literals.append(self.literal())
            while level and self.has(')'):
                level -= 1
        demand(not level and not any(text in ('[', ':') for _, text in self.tokens[begin:self.place]))
        return tuple(literals)
    def said(self):
        """a name and a clause, None where it always holds; or the name of an include, its selection or None, and None"""
        steps = ((text in ('(', '[')) - (before in (')', ']')) for (_, before), (_, text) in zip(self.tokens, self.tokens[1:]))
        refuse('InputError', f'% limit nesting: {self.where}', max(itertools.accumulate(steps)) > 256)
        if self.has('include'):
            self.expect('(')
            name, selection = self.take('quoted')[1], self.listed(self.name) if self.has(',') else None
            demand(selection != [] and self.has(')') and self.has('.'))
            return name, selection, None
        self.expect('cnf', '(')
        name, _, (_, role), _ = self.name(), self.expect(','), self.take('lower'), self.expect(',')
        begin, literals, end = self.place, self.disjunction(), self.place
        demand(not self.has(',') or self.term() and (not self.has(',') or self.term()[0][0] == 'list'))
        self.expect(')', '.')
        refuse('Inappropriate', f'% role {role}: {self.where}', role not in ROLES)
        for kind, text in (self.tokens[place] for place in range(begin, end) if place not in self.truths):
            refuse('Inappropriate', f'% feature {text}: {self.where}', kind in ('integer', 'rational', 'real', 'distinct', 'dollar'))
        refuse('InputError', f'% limit arity: {self.where}', any(part[2] > 1024 for literal in literals for part in literal if not is_variable(part)))
        refuse('InputError', f'% limit variables: {self.where}', len(variables(literals)) > 10_000)
        literals = [literal for literal in literals if literal not in ((FALSE,), (NOT, TRUE))]
        return name, None if (TRUE,) in literals or (NOT, FALSE) in literals else canonical(literals)
    def spelled(self, begin):
        """the tokens from one on to the place as a certificate has them"""
        tokens = self.tokens[begin:self.place]
        demand(not self.loose and all(kind in ('variable', 'mark') or re.fullmatch(PRINTED, text) for kind, text in tokens))
        return ''.join(f' {text} ' if text in ('|', '=', '!=') else text for _, text in tokens)

# The text of a certificate.
TITLE, NUMBER = '[ -~\x80-\xff]{1,4096}', '(?:0|[1-9][0-9]{0,19})'
HEAD = f'(s TRUE|s FALSE|% no tables ([1-9]|[1-5][0-9]|6[0-4]) for ({TITLE}))'
def line_forms(form, version):
    """for the letter of each group, in order, what stands behind the clause of its lines"""
    parents = f'm({NUMBER}),({NUMBER}),m({NUMBER}),({NUMBER})'
    lemma = rf'|(lemma)\({parents}(,\[(?:{NUMBER}(?:,{NUMBER})*)?\])(,\[(?:m{NUMBER}(?:,m{NUMBER})*)?\])\)' if version > 1 else ''
    reason = rf'(?:(tautology)|(variant)\(m({NUMBER})\)|(part)\(m({NUMBER}),(\[.*\])\))'
    forms = {'i': rf'named\({PRINTED}\)', 'e': 'equality', 'm': rf'(?:(input)\(({NUMBER})\)|(inst)\({parents}\){lemma})'}
    if form == 'CNFRefutation':
        forms['g'] = rf'ground\(m({NUMBER})\)' if version == 1 else rf'ground\(({NUMBER}),(\[.*\])\)'
        return {**forms, 'r': rf'rup(\(\[[gr]{NUMBER}(?:,[gr]{NUMBER})*\])\)'}
    forms['m'] += rf',\[selected\(({NUMBER})\)\]'
    return {**forms, 'q': reason, 'c': rf'cover\(m({NUMBER}),m({NUMBER}),(left|right)\),\[{reason}\]'} if version == 3 else forms

def read_part(text):
    """a word, a number, a list of numbers, of hints or of terms"""
    if text[0] == '[':
        statement = Statement(text + '.')
        terms = statement.listed(statement.term)
        strange = any(mark in ('[', ':') for _, mark in statement.tokens[2:]) or any(isinstance(part, str) for term in terms for part in term)
        demand(not strange and statement.spelled(1) == text)
        return terms
    found = [(letter, int(digits)) for letter, digits in re.findall('([gr]?)([0-9]+)', text)]
    demand(all(number < 2 ** 64 for _, number in found))
    values = found if text[0] == '(' else [number for _, number in found]
    return text if text[0].isalpha() else values if text[0] in '(,' else values[0]

def require(word, entries, holds=lambda one, other: one == other):
    """a complaint with the number of the first entry that does not hold"""
    for number, entry in enumerate(entries, 1):
        complain(f'{word} {number}', not holds(*entry))

class Certificate:
    """groups has for each letter a list of lines: the clause and what stands behind it; clauses are those of the inputs and axioms"""
    def __init__(self, text, name):
        *self.lines, self.rest = text.split('\n')
        self.number, self.clauses, self.members, self.steps = 0, [], [], []
        try:
            self.read_beginning()
            self.read_groups(line_forms(self.form, self.version))
        except Misread:
            refuse('SyntaxError', f'% syntax: line {self.number} of {name}')
    def line(self, pattern):
        """the next line, which must be as the pattern says"""
        self.number += 1
        found = self.number <= len(self.lines) and re.fullmatch(pattern, self.lines[self.number - 1])
        demand(found)
        return found
    def read_beginning(self):
        self.head = self.line(HEAD) if self.lines and re.fullmatch(HEAD, self.lines[0]) else None
        status, title = self.line(f'% SZS status (Satisfiable|Unsatisfiable) for ({TITLE})').groups()
        demand(not self.head or (self.head[1] == 's TRUE') == (status == 'Satisfiable') and self.head[3] in (None, title))
        self.form = 'Saturation' if status == 'Satisfiable' else 'CNFRefutation'
        self.end = f'% SZS output end {self.form} for {title}'
        self.line(re.escape(self.end.replace('end', 'start', 1)))
        self.version = int(self.line('% instgen certificate ([1-9][0-9]{0,17})')[1])
        refuse('InputError', f'% version: {self.version}', self.version > 3)
        if self.form == 'CNFRefutation':
            self.constant = 'function', content(self.line(f'% ground constant ({PRINTED})')[1]), 0
    def read_groups(self, forms):
        letters, self.groups = list(forms), {letter: [] for letter in forms}
        while (text := self.line('.*')[0]) != self.end:
            letter = text[4:5]
            demand(letter in letters and (letter != 'c' or len(self.groups['q']) == len(self.clauses)))
            letters = letters[letters.index(letter):]
            self.read_entry(text, letter, forms[letter])
        demand('q' not in forms or len(self.groups['q']) == len(self.clauses))
        self.number += 1
        demand(self.number > len(self.lines) and not self.rest)
    def read_entry(self, text, letter, form):
        group, begin = self.groups[letter], f'cnf({letter}{len(self.groups[letter]) + 1},{"axiom" if letter in "ie" else "plain"},'
        demand(text.startswith(begin))
        statement = Statement(text, place=7)
        clause = statement.disjunction()
        begin, clause = (begin + '$false', ()) if clause == ((FALSE,),) else (begin + statement.spelled(7), clause)
        found = re.fullmatch(rf',{form}\)\.', text[len(begin):])
        demand(text.startswith(begin) and found and clause == canonical(clause))
        entry = [clause, *map(read_part, filter(None, found.groups()))]
        demand((letter != 'q' or self.clauses[len(group):len(group) + 1] == [clause]) and (letter != 'g' or self.version > 1 or entry[1] == len(group) + 1))
        group.append(entry)
        self.clauses += [clause] * (letter in 'ie')
    def check(self, wanted):
        """the checks in their order; wanted are the clauses of the problem, or None"""
        inputs, given = ([clause for clause, *_ in self.groups[letter]] for letter in 'ie')
        require('problem', itertools.zip_longest(inputs, inputs if wanted is None else wanted))
        require('axiom', itertools.zip_longest(given, axioms(inputs)))
        require('member', self.groups['m'], self.member_holds)
        (self.check_refutation if 'r' in self.groups else self.check_saturation)()
    def member_holds(self, clause, word, first, *more):
        """whether the clause is what its origin gives; if so, it becomes a member"""
        left, right = (item(self.members, number) or () for number in (first, *more, 0, 0)[:3:2])
        wanted = item(self.clauses, first) if word == 'input' else (meeting(left, more[0], right, more[2]) or {}).get('left')
        if word == 'lemma' and wanted is not None:
            places, givers = more[3:5]
            rising = all(low < high for low, high in zip([0, *places], [*places, len(wanted) + 1])) and len(places) < len(wanted)
            given = all(1 <= giver <= len(self.members) for giver in givers)
            wanted = canonical([wanted[place - 1] for place in places]) if rising and given else None
        self.members.append(clause)
        return clause == wanted
    def check_refutation(self):
        if self.version == 1:
            owed = [instance(member, dict.fromkeys(variables(member), (self.constant,))) for member in self.members]
            require('ground', itertools.zip_longest([clause for clause, _ in self.groups['g']], owed))
        else:
            require('ground', self.groups['g'], self.ground_holds)
        self.known = {('g', number): set(clause) for number, (clause, *_) in enumerate(self.groups['g'], 1)}
        require('step', self.groups['r'], self.step_holds)
        complain('no empty clause', not self.steps or self.steps[-1])
    def ground_holds(self, clause, number, terms):
        owner = item(self.clauses, number)
        return owner is not None and not variables(terms) and under_terms(owner, terms) == clause
    def step_holds(self, clause, hints):
        """whether the step is shown by its hints; if so, it becomes a step"""
        false, (*hints, last) = set(clause), [self.known.get(hint, {'no', 'clause'}) for hint in hints]
        for hint in hints:
            left = hint - false
            if len(left) != 1:
                return False
            false.update(map(complement, left))
        self.steps.append(clause)
        self.known['r', len(self.steps)] = set(clause)
        return last <= false
    def check_saturation(self):
        places, owed, known = [entry[-1] for entry in self.groups['m']], [], set(self.members)
        require('place', zip(self.members, places), lambda clause, place: item(clause, place) is not None)
        if self.version == 3:
            require('input', self.groups['q'], lambda clause, word, *reason: word != 'variant' and self.shows(clause, word, *reason))
        else:
            require('input', zip(self.clauses), lambda clause: is_tautology(clause) or self.has_part(clause))
        for (left, one), (right, other) in itertools.combinations(enumerate(zip(self.members, places), 1), 2):
            found = meeting(*one, *other)
            dues = [(clause, left, right, side, one[0] if side == 'left' else other[0]) for side, clause in (found or {}).items()]
            covered = self.version == 3 or all(is_tautology(due[0]) or due[0] in known or self.has_part(due[0], due[4]) for due in dues)
            complain(f'pair {left} {right}', found is not None and not (dues and covered))
            owed += dues
        require('cover', itertools.zip_longest(owed, self.groups['c']) if self.version == 3 else (), self.cover_holds)
    def cover_holds(self, due, cover):
        return None not in (due, cover) and list(due[:4]) == cover[:4] and self.shows(due[0], *cover[4:], owner=due[4])
    def shows(self, clause, word, number=0, terms=(), owner=None):
        """whether the reason shows that the members make true the clause, which is an instance of its owner if it has one"""
        if word == 'tautology':
            return is_tautology(clause)
        member = item(self.members, number)
        if member is None or word == 'variant':
            return member == clause
        part = under_terms(member, terms)
        return (owner is None or len(member) < len(owner)) and part is not None and set(part) <= set(clause)
    def has_part(self, clause, owner=None):
        return any((owner is None or len(member) < len(owner)) and has_instance_within(member, clause) for member in self.members)

# The clauses of a file.
LIMIT = 16_777_216
TRUTH, FORMULA = ('predicate', 'v', 1), re.compile(r'(?:(?:c.*|[\t-\r ]*)\n)*[\t-\r ]*p[\t-\r ]+cnf[\t-\r ]')

def contents(names, most, shown):
    """the text of the first file that is there, a character for a byte, and its name"""
    for name in names:
        try:
            with open(name.encode('latin-1'), 'rb') as file:
                text = file.read(most + 1).decode('latin-1')
            refuse('InputError', '% limit bytes', len(text) > most)
            return text, name
        except FileNotFoundError:
            pass
        except OSError:
            refuse('OSError', '% read fault', status=4)
    return refuse('InputError', f'% absent: {shown}')

def statements(text, name):
    found, end = [], BLANK.match(text).end()
    while end < len(text):
        where = f'statement {len(found) + 1} of {name}'
        try:
            statement = Statement(text, end, where)
            found.append(statement.said())
        except Misread:
            refuse('SyntaxError', f'% syntax: {where}')
        end = BLANK.match(text, statement.end).end()
    return found
def expanded(names, root, left, level, shown):
    """the name and the clause of each statement of a file and its includes, None for one that always holds; left are the bytes that may be read"""
    refuse('InputError', f'% limit include depth: {shown}', level > 16)
    (text, name), found = contents(names, left[0], shown), []
    left[0] -= len(text)
    for named, said, *include in statements(text, name):
        if include:
            tried = [named] if named[0] == '/' else [name[:name.rfind('/') + 1] + named] + [f'{root}/{named}'] * (root is not None)
            inner = expanded(tried, root, left, level + 1, named)
            for listed in said or ():
                refuse('InputError', f'% not selected: {listed} in {named}', listed not in dict(inner))
        found += [pair for pair in inner if said is None or pair[0] in said] if include else [(named, said)]
    return found

def flattened(clauses, size):
    """the clauses that have a model where these have one with so many elements"""
    elements = [('function', f'k{number}', 0) for number in range(1, size + 1)]
    numbers = {symbol: number for kind in ('function', 'predicate') for number, symbol in enumerate(symbols(clauses, kind), 1)}
    pairs = [(('predicate', 'id', 2), one, other) for one in elements for other in elements]
    result = [(atom if atom[1] == atom[2] else complement(atom),) for atom in pairs]
    for symbol in symbols(clauses, 'function'):
        cells = [(('predicate', f'f{numbers[symbol]}', symbol[2] + 1), *range(symbol[2]), element) for element in elements]
        result += [tuple(cells)] + [(complement(one), complement(other)) for one, other in itertools.combinations(cells, 2)]
    return result + [flat_clause(clause, numbers) for clause in clauses]
def flat_clause(clause, numbers):
    """the clause without terms in terms; stands has the variable for each term, whose arguments are variables already"""
    stands, literals, own = {}, [], []
    for literal in clause:
        work = []
        for part in literal[literal[0] == NOT:]:
            work.append([part])
            while len(work) > 1 and (is_variable(work[-1][0]) or len(work[-1]) > work[-1][0][2]):
                symbol, *arguments = term = tuple(work.pop())
                if not is_variable(symbol) and term not in stands:
                    stands[term] = f'value {len(stands)}'
                    literals.append((NOT, ('predicate', f'f{numbers[symbol]}', symbol[2] + 1), *arguments, stands[term]))
                work[-1].append(stands.get(term, symbol))
        symbol, *arguments = work[0]
        flat = ('predicate', 'id' if symbol == EQUAL else f'p{numbers[symbol]}', symbol[2]), *arguments
        own.append(complement(flat) if literal[0] == NOT else flat)
    return canonical(literals + own)

def formula_clauses(text):
    lines = itertools.takewhile(lambda line: line[:1] != '%', text.split('\n'))
    header, *rows = filter(None, [re.findall(r'[^\t-\r ]+', line) for line in lines if line[:1] != 'c'])
    quantified, universal, atoms, literals = list(itertools.takewhile(lambda row: row[0] in 'ae', rows)), [], {}, []
    demand(all(re.fullmatch('[ae]|-?[0-9]{1,10}', word) for row in rows for word in row) and all(row[-1] == '0' for row in quantified))
    for letter, *words, _ in quantified:
        universal += words if letter == 'a' else []
        atoms.update((int(word), (TRUTH, word) if letter == 'a' else (('predicate', f'e{int(word)}', len(universal)), *universal)) for word in words)
    result = [((TRUTH, ('function', 't', 0)),), ((NOT, TRUTH, ('function', 'f', 0)),)]
    for number in [int(word) for row in rows[len(quantified):] for word in row]:
        atom = atoms.get(abs(number), (('predicate', f'e{abs(number)}', 0),))
        literals.append(atom if number > 0 else complement(atom))
        if not number:
            result.append(canonical(literals[:-1]))
            literals = []
    numbers = [abs(int(word)) for row in rows for word in row[row in quantified:]]
    demand(not literals and max([0, *numbers]) <= int(header[2]) and [len(result) - 2] == list(map(int, header[3:])))
    return result

# The words and the answer.
def wanted_clauses(head, name, root):
    text, size = contents([name], LIMIT, name)[0], head and head[2]
    if size or not (head or FORMULA.match(text)):
        clauses = [clause for _, clause in expanded([name], root, [LIMIT], 0, name) if clause is not None]
        return flattened(clauses, int(size)) if size else clauses
    try:
        return formula_clauses(text)
    except (Misread, ValueError, IndexError):
        return refuse('SyntaxError', f'% syntax: {name}')
def read_words(arguments):
    parser = argparse.ArgumentParser(description=__doc__, formatter_class=argparse.RawDescriptionHelpFormatter, allow_abbrev=False)
    parser.add_argument('certificate', metavar='CERT')
    parser.add_argument('--problem', metavar='FILE', help='what the program was asked about')
    parser.add_argument('--root', metavar='DIR', help='the folder under which includes are looked for too')
    parser.error = lambda _: demand(False)
    words = parser.parse_args([argument.encode().decode('latin-1') for argument in arguments])
    demand(all(word is None or re.fullmatch(TITLE, word) for word in vars(words).values()))
    return words
def answer(arguments):
    """what is printed, and the exit status"""
    try:
        words = read_words(arguments)
        name = words.certificate
        certificate = Certificate(contents([name], 268_435_456, name)[0], name)
        certificate.check(words.problem and wanted_clauses(certificate.head, words.problem, words.root))
        return f'valid {certificate.form}\n', 0
    except (Misread, UnicodeError) as fault:
        return '% SZS status UsageError for instgen\n% usage\n' if isinstance(fault, Misread) else '', 3
    except Ended as ended:
        word, line, status = ended.args
        return (f'% SZS status {word} for {name}\n' if word else '') + f'{line}\n', status

if __name__ == '__main__':
    printed, code = answer(sys.argv[1:])
    try:
        with open(1, 'wb', buffering=0, closefd=False) as output:
            output.write(printed.encode('latin-1'))
    except OSError:
        code = 5
    if code == 3:
        print('usage: checker.py CERT [--problem FILE] [--root DIR]', file=sys.stderr)
    sys.exit(code)
