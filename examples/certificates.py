"""What the scripts of this folder share: they call the program, read certificates as docs/FORMATS.md has them, and end with a sentence where
something is wrong. Which lines a certificate has is judged by `instgen check`; here its lines are only taken apart."""
import argparse
import collections
import contextlib
import pathlib
import re
import signal
import subprocess
import sys
import tempfile

PROGRAM = pathlib.Path(__file__).resolve().parent / 'program'
USAGE, REFUSED, UNREAD = 3, 2, 4  # exit statuses, as the program has them
UNWRITTEN, UNBUILT, INTERRUPTED = 5, 70, 130
SATURATION = '% SZS status Satisfiable for '  # what a certificate begins with
REFUTATION = '% SZS status Unsatisfiable for '
ENDS = '% SZS output end '
PIECE = re.compile(r"'(?:[^'\\]|\\.)*'|[()\[\],]| \| | != | = |~|[^'()\[\],~ ]+| ")
VARIABLE = re.compile(r'X[0-9]+')

# one line of a certificate: its label, as `g4`, its clause as printed, and the fields behind the clause
Line = collections.namedtuple('Line', 'label clause fields')
# an application of a symbol to terms, and a variable, which has a name alone
Term = collections.namedtuple('Term', 'name arguments')
Literal = collections.namedtuple('Literal', 'positive atom')


class Failure(Exception):
    """a sentence for the user, and the exit status"""

    def __init__(self, sentence, status=REFUSED):
        super().__init__(sentence)
        self.status = status


class Words(argparse.ArgumentParser):
    """a script's words: its help is the text at its head, which begins with them and a colon; words that are not read end with 3"""

    def __init__(self, text):
        super().__init__(allow_abbrev=False)
        self.text = text

    def format_help(self):
        return f'usage: {self.text}\n'

    def error(self, message):
        self.exit(USAGE, f'usage: {self.text.partition(": ")[0]}\n{self.prog}: {message}\n')


def run_script(words, main):
    """Reads the words and runs main on them; its result is the exit status. A reader that goes away ends the script without a word."""
    signal.signal(signal.SIGPIPE, signal.SIG_DFL)
    sys.stdout.reconfigure(errors='surrogateescape')
    sys.stderr.reconfigure(errors='surrogateescape')
    script = pathlib.Path(sys.argv[0]).name
    given = words.parse_args()
    try:
        status = main(given)
        sys.stdout.flush()
    except Failure as failure:
        print(f'{script}: {failure}', file=sys.stderr)
        status = failure.status
    except OSError as error:
        print(f'{script}: {error.filename or "standard output"}: {error.strerror}', file=sys.stderr)
        status = UNREAD if error.filename else UNWRITTEN
    except KeyboardInterrupt:
        status = INTERRUPTED
    sys.exit(status)


def warn(sentence):
    """says it on standard error, behind what was printed by then"""
    sys.stdout.flush()
    print(f'{pathlib.Path(sys.argv[0]).name}: {sentence}', file=sys.stderr)


def program_answer(*words):
    """what the program prints for these words, and its exit status"""
    done = subprocess.run([PROGRAM, *words], stdout=subprocess.PIPE, encoding='utf-8', errors='surrogateescape')
    if done.returncode == UNBUILT:
        raise Failure('the program could not be built', UNBUILT)
    return done.stdout, done.returncode


def text_of(path):
    """the text of a file, or of standard input where there is no path or it is -"""
    if path in (None, '-'):
        return sys.stdin.buffer.read().decode('utf-8', 'surrogateescape')
    return pathlib.Path(path).read_bytes().decode('utf-8', 'surrogateescape')


def rows(text):
    """the lines of a text, each with its line feed; no other byte ends one"""
    return re.findall('[^\n]*\n|[^\n]+', text)


def answer_parts(answer):
    """what stands in an answer before its first certificate, and its certificates, each from its line of status to its last"""
    head, certificates, inside = [], [], False
    for line in rows(answer):
        if line.startswith((SATURATION, REFUTATION)):
            certificates.append([])
            inside = True
        if inside:
            certificates[-1].append(line)
        elif not certificates:
            head.append(line)
        inside = inside and not line.startswith(ENDS)
    return ''.join(head), [''.join(lines) for lines in certificates]


def first_certificate(path):
    """the first certificate of an answer, without a line like `s TRUE` or `% core of ..` before it"""
    head, certificates = answer_parts(text_of(path))
    if not certificates:
        raise Failure(f'{path}: there is no certificate in it' + (said_instead(head) or '; it is what `instgen prove FILE >CERT` writes'))
    return certificates[0]


def said_instead(head):
    """what the program says in the place of an answer, behind a colon; nothing where it says no such thing"""
    return f': {" ".join(line.strip() for line in rows(head)[:2])}' if head.startswith('% SZS status ') else ''


def core_places(head):
    """the places in the first line of an answer of `core`"""
    return rows(head)[0].rpartition(':')[2].split()


def saturation(path):
    """the first certificate of an answer, which must be one that has a model"""
    certificate = first_certificate(path)
    if not certificate.startswith(SATURATION):
        raise Failure(f'{path} is a refutation: the clauses have no model')
    return certificate


@contextlib.contextmanager
def file_of(certificate):
    """the name of a file that has the certificate alone"""
    with tempfile.NamedTemporaryFile() as file:
        file.write(certificate.encode('utf-8', 'surrogateescape'))
        file.flush()
        yield file.name


def check_answer(certificate, *options):
    """what `instgen check` says of a certificate, in one line, and its exit status"""
    with file_of(certificate) as name:
        said, status = program_answer('check', name, *options)
    *_, last = rows(said) or ['nothing']
    return last.strip().replace(name, 'the certificate'), status


def refuse_invalid(certificate):
    said, status = check_answer(certificate)
    if status != 0:
        raise Failure(f'the certificate is refused: {said}', status)


def parts(text, separator):
    """the text cut at the separators that stand outside of quotes and brackets"""
    found, begin, depth = [], 0, 0
    for piece in PIECE.finditer(text):
        if piece[0] in '([':
            depth += 1
        elif piece[0] in ')]':
            depth -= 1
        elif depth == 0 and piece[0] == separator:
            found.append(text[begin:piece.start()])
            begin = piece.end()
    return found + [text[begin:]]


def lines_of(certificate, letters):
    """the lines whose labels begin with one of the letters, in their order"""
    for line in rows(certificate):
        if line.startswith('cnf(') and line[4] in letters:
            label, _, clause, *fields = parts(line[4:-3], ',')
            yield Line(label, clause, fields)


def bracket_items(field):
    """the texts within the brackets of a field: of `ground(4,[socrates])` these are `4` and `[socrates]`"""
    content = field[1 if field[0] == '[' else field.index('(') + 1:-1]
    return parts(content, ',') if content else []


def literals(clause):
    """the literals of a printed clause, each its sign and the text of its atom"""
    return [] if clause == '$false' else [literal(text) for text in parts(clause, ' | ')]


def literal(text):
    if text.startswith('~'):
        return Literal(False, text[1:])
    sides = parts(text, ' != ')
    return Literal(True, text) if len(sides) == 1 else Literal(False, ' = '.join(sides))


def term(text):
    """the term or atom of a printed text; an equality is the symbol = of its sides"""
    sides = parts(text, ' = ')
    if len(sides) == 2:
        return Term('=', tuple(map(term, sides)))
    open_terms = [[]]
    for piece in PIECE.findall(text):
        if piece == '(':
            open_terms.append([])
        elif piece == ')':
            arguments = tuple(open_terms.pop())
            open_terms[-1][-1] = Term(open_terms[-1][-1].name, arguments)
        elif piece != ',':
            open_terms[-1].append(Term(piece, ()))
    return open_terms[0][0]


def is_variable(given):
    return VARIABLE.fullmatch(given.name) is not None and not given.arguments


def subterms(given):
    """the term and all terms in it"""
    waiting = [given]
    while waiting:
        found = waiting.pop()
        yield found
        waiting.extend(found.arguments)
