"""Where the functions of a .rt file stand: which one's body a place lies in, and the text that is in none."""
import os
import re

# comments, byte strings and byte characters, which may hold braces
QUIET = re.compile(r'//[^\n]*|b?"(?:\\.|[^"\\])*"|b\'(?:\\.|[^\'\\])\'|/\*.*?\*/', re.S)
HEAD = re.compile(r'\bfn\s+([A-Za-z_]\w*)')
IMPL = re.compile(r'^[ \t]*impl(?:<[^>]*>)?\s+([A-Za-z_]\w*)(?:<[^>]*>)?\s*\{', re.M)
# a clause may have a name, as in `ensures meant { .. }`
CLAUSE = re.compile(r'\s(?:ghost|requires|ensures|measure)(?:\s+[A-Za-z_]\w*)?\s*\{')


def quiet(text):
    """The text with comments and strings blanked, place for place."""
    return QUIET.sub(lambda found: re.sub(r'[^\n]', ' ', found.group()), text)


def closing(text, at, pair):
    """The place after the bracket that closes the one at `at`, or None."""
    depth = 0
    for i in range(at, len(text)):
        depth += (text[i] == pair[0]) - (text[i] == pair[1])
        if depth == 0:
            return i + 1
    return None


def body_start(text, at):
    """Where the body opens of a function whose parameters end at `at`, past its clauses; None where it has none."""
    depth = 0
    while at is not None and at < len(text):
        clause = CLAUSE.match(text, at) if depth == 0 else None
        if clause:
            at = closing(text, clause.end() - 1, '{}')
            continue
        mark = text[at]
        # a `;` in brackets is that of an array's type, as in [u8; 4]
        depth += (mark in '([') - (mark in ')]')
        if depth == 0 and mark in '{;':
            return at if mark == '{' else None
        at += 1
    return None


def bodies(text):
    """[(name, with its type's before it in an impl; start of the body; its end)]; a head that is not understood is left out."""
    text = quiet(text)
    impls = [(found.group(1), found.start(), closing(text, found.end() - 1, '{}')) for found in IMPL.finditer(text)]
    found = []
    for head in HEAD.finditer(text):
        opening = text.find('(', head.end())
        parameters = closing(text, opening, '()') if opening >= 0 else None
        start = body_start(text, parameters) if parameters else None
        end = closing(text, start, '{}') if start else None
        if end:
            types = [name for name, a, b in impls if b and a < head.start() < b]
            found.append(('::'.join(types + [head.group(1)]), start, end))
    return found


def outside(text):
    """(the names of its functions, the text outside their bodies)"""
    found = sorted(bodies(text), key=lambda body: body[1])
    parts, at = [], 0
    for _, start, end in found:
        if start >= at:
            parts.append(text[at:start])
            at = end
    return [name for name, _, _ in found], parts + [text[at:]]


class Source:
    """A file below a crate's src/."""

    def __init__(self, file, text):
        parts = os.path.splitext(file)[0].split('/')
        self.module = parts[:-1] if parts[-1] in ('lib', 'main', 'mod') else parts
        self.text = text
        self.bodies = bodies(text)

    def functions(self):
        return ['::'.join(self.module + [name]) for name, _, _ in self.bodies]

    def function_at(self, start, end):
        """The function strictly inside whose body's braces a place lies, or None."""
        holds = [name for name, a, b in self.bodies if a < start and end < b]
        return '::'.join(self.module + holds) if len(holds) == 1 else None
