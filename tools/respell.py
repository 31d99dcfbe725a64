#!/usr/bin/env python3
"""Brings the repository's own antt names to today's spelling: run once, at the top of the repository, right after port.py.

    python3 tools/respell.py [--table FILE]

camelCase becomes snake_case, a fact is spelled as a type, and a dash stays only before a part that is itself a name. The crate json becomes json_text,
and each root file gets `#![tactic(auto)]`. Names that fall together are printed; the status is 1 if there are any.
"""
import collections, glob, os, re, sys

# Names that the rules below would spell wrong, or the same as another name.
SPECIAL = {
    'everyName': 'EveryName',
    'noName': 'NoName',
    'half-of': 'HalfOf',
    'is64Bit': 'is_64_bit',
    'digit-AF': 'digit_upper_af',
    'digit-af': 'digit_lower_af',
    'not-json': 'is_not_json',
    'array-of': 'array_over',
}

# A lemma that would have its function's name.
SPECIAL.update((t, t.replace('-', '_') + '_lem') for t in '''decimal-in described-by description-in exact-range half-from in-device integer-range is-hex is-in is-json last-is member-at new-device
    no-repeats none-empty number-from of-kind properties-in root-lost undone-to utf8-reach version-is in-range names-of kind-of one-of'''.split())

# The same, for names that port.py respelled and that one crate or one file has: (place, name).
IN_PLACE = {
    ('crates/json_grammar/', 'member_of'): 'member_over',
    ('crates/json_grammar/', 'object_of'): 'object_over',
    ('crates/rules/proofs/Effects.antt', 'is_value'): 'IsValue',
    ('crates/rules/proofs/Order.antt', 'is_refused'): 'IsRefused',
    ('crates/accepted/proofs/Grows.antt', 'field_in'): 'field_in_lem',
    ('crates/entries/', 'all_in'): 'all_in_lem',
    ('crates/fields/proofs/Numbers.antt', 'one_more'): 'one_more_lem',
    ('crates/json_grammar/proofs/Complete.antt', 'is_digit'): 'is_digit_lem',
    ('crates/lines/proofs/RoundTrips.antt', 'is_digit'): 'is_digit_lem',
    ('crates/numbers/', 'is_digit'): 'is_digit_lem',
    ('crates/numbers/', 'all_digits'): 'all_digits_lem',
    ('crates/patch/', 'held_by'): 'held_by_lem',
    ('crates/questions/', 'room_of'): 'room_of_lem',
    ('crates/questions/', 'is_lost'): 'is_lost_lem',
    ('crates/ranges/proofs/Words.antt', 'each_read'): 'each_read_lem',
}
IN_FILE = {}

# Rule names of RFC grammars stay.
RFC = set('JSON-text UTF8-octets UTF8-char UTF8-1 UTF8-2 UTF8-3 UTF8-4 UTF8-tail digit1-9 decimal-point name-separator value-separator begin-array begin-object end-array end-object quotation-mark'.split())

# Words of the library that a dash may join.
LIBRARY = set('''append length take drop set get_or map suc zero add mul sub div mod pow min max nil cons replicate sum some none true false
    pred cond not eqb ltb leb reverse pos negsuc is_some is_none is_ok is_err slice_get slice_index slice_set fold filter swap insert remove
    position find zip scan count_by sum_by unwrap_or ok_or refl'''.split())

# Particles are plain words, whatever they also name.
PLAIN = set('a an are as at by for from had has if in is it its of on or to was with yes no then'.split())

SEP = re.compile(r'''([\s(){}.;,@"\[\]\\«»`]+)''')
KEYWORDS = {'pub', 'abbrev', 'unfoldable', 'record', 'data', 'opaque'}


def declaration(code):
    """(keywords, names, signature) of a line that declares names, or None."""
    left, colon, signature = code.strip().partition(' : ')
    if not colon:
        return None
    w = left.split()
    word = set()
    while w and w[0] in KEYWORDS:
        word.add(w.pop(0))
    if word & {'record', 'data'}:
        whole = code.strip()
        return (word, w[:1], whole[whole.rfind(' : ') + 3:]) if w else None
    # `name {l} : ..` has parameters of levels
    w = re.sub(r'\s*\{[^{}]*\}$', '', ' '.join(w)).split()
    if not w or any(re.search(r'[(){}.;,@"\[\]\\:=→]', x) for x in w):
        return None
    return word, w, signature

GOAL = re.compile(r'\b(tie|reads)\.|lts\b|kinds\b|\bstatement\b|\bgoals?\.')


def read(path):
    with open(path, encoding='utf-8') as f:
        return f.read()


def write(path, text):
    with open(path, 'w', encoding='utf-8') as f:
        f.write(text)


def is_camel(t):
    return bool(re.match(r'[^\W\dA-Z]', t) and re.search(r'[a-z0-9][A-Z]', t))


def is_odd(t):
    return t not in RFC and (is_camel(t) or bool('-' in t and re.match(r"[^\W\d]", t) and '◌' not in t and '#' not in t))


def snake(t):
    if not is_camel(t):
        return t
    return re.sub(r'(?<=[a-z0-9])([A-Z])', r'_\1', t).lower()


def split_comment(line):
    """The code of a line of antt, and its comment."""
    if line.lstrip().startswith('--'):
        return '', line
    shown = re.sub(r'"(\\.|[^"\\])*"', lambda m: '"' + '_' * (len(m.group()) - 2) + '"', line)
    at = shown.find(' -- ')
    return (line, '') if at < 0 else (line[:at], line[at:])


def parts_of(code):
    """The code in pieces: (is a string, text)."""
    out, at = [], 0
    for m in re.finditer(r'"(\\.|[^"\\])*"', code):
        out += [(False, code[at:m.start()]), (True, m.group())]
        at = m.end()
    return out + [(False, code[at:])]


class File:
    def __init__(self, path):
        self.path = path
        self.crate = path.split('/')[1]
        self.text = read(path)
        self.by_hand = '/specs/' in path or bool(re.match(r'crates/[^/]+/proofs/[^/]+\.antt$', path))
        self.library, self.imported, self.alias, self.goals, self.locals = set(), set(), {}, set(), set()
        for m in re.finditer(r'^\s*(?:pub |ghost )*use ([^\s{;]+?)(?:\.\{([^}]*)\}|\s+as (\S+?))?;?\s*$', self.text, re.M):
            own = is_own(m.group(1))
            if m.group(2):
                for x in m.group(2).split(','):
                    (self.imported if own else self.library).add(x.split(' as ')[-1].strip())
            if m.group(3):
                self.alias[m.group(3)] = own


def is_own(path):
    w = path.split('.')
    return w[0] == 'Rattle' and len(w) > 3 and w[1] in CRATES and w[2] in ('specs', 'proofs') and '.'.join(w[1:4]) in MODULES


def is_use(line):
    return re.match(r'\s*(pub |ghost )*use ', line)


def tokens(code):
    """Tokens of code outside strings and paths, as (token, chain head or '', place in the chain)."""
    for string, piece in parts_of(code):
        if string:
            continue
        w = SEP.split(piece)
        head, k = '', 0
        for i in range(0, len(w), 2):
            if i and w[i - 1] == '.' and w[i - 2]:
                k += 1
            else:
                head, k = w[i], 0
            if w[i]:
                yield w[i], head, k


def renames(f, t, head, k):
    """Whether token t of file f is one of the repository's own names."""
    if (f.path, t) in IN_FILE:
        return k == 0
    if t not in TABLE:
        return False
    if k == 0:
        if t in f.goals or t in f.library:
            return False
        if f.by_hand or f.path.endswith('.rt'):
            return True
        return is_camel(t) or t in f.imported or t in f.locals
    if head in f.alias and not f.alias[head]:
        return False
    if head in ('tie', 'reads', 'lts'):
        return False
    return f.by_hand or is_camel(t) or (k == 1 and f.alias.get(head, False))


def new_name(f, t):
    return IN_FILE.get((f.path, t)) or TABLE[t]


def turn_code(f, code):
    out = []
    for string, piece in parts_of(code):
        if string:
            out.append(piece)
            continue
        w = SEP.split(piece)
        head, k, made = '', 0, list(w)
        for i in range(0, len(w), 2):
            if i and w[i - 1] == '.' and w[i - 2]:
                k += 1
            else:
                head, k = w[i], 0
            if w[i] and renames(f, w[i], head, k):
                made[i] = new_name(f, w[i])
        out.append(''.join(made))
    return ''.join(out)


def turn_use(f, line):
    m = re.match(r'(\s*(?:pub |ghost )*use )([^\s{;]+?)(\.\{)([^}]*)(\}.*)$', line, re.S)
    if m:
        if not is_own(m.group(2)):
            return line
        return m.group(1) + m.group(2) + m.group(3) + turn_words(f, m.group(4)) + m.group(5)
    m = re.match(r'(.* as )(\S+)$', line)
    if m and m.group(2) in TABLE and is_camel(m.group(2)):
        return m.group(1) + TABLE[m.group(2)]
    return line


def turn_words(f, text):
    w = SEP.split(text)
    return ''.join(IN_FILE.get((f.path, x)) or TABLE.get(x, x) if i % 2 == 0 else x for i, x in enumerate(w))


def loose(t):
    """The new spelling of a name in prose or in an edit, which port.py left as it was."""
    if t in TABLE:
        return TABLE[t]
    if is_odd(t):
        return LOOSE.get(t.replace('-', '_') if '-' in t and not is_camel(t) else '_'.join(snake(p) for p in t.split('-')), t)
    return t


def turn_comment(text, used):
    """A comment: a name with a dash counts in backticks, or where the code of the file cites it."""
    out = []
    for i, piece in enumerate(text.split('`')):
        w = re.split(r'''([\s(){}.;,:@"\[\]\\«»]+)''', piece)
        out.append(''.join((loose(x) if i % 2 else TABLE.get(x, x) if is_camel(x) or x in used and x.count('-') else x) if j % 2 == 0 else x for j, x in enumerate(w)))
    return '`'.join(out)


def turn_antt(f):
    used = {t for l in f.text.split('\n') for t in re.split(SEP, split_comment(l)[0])}
    out = []
    for line in f.text.split('\n'):
        code, comment = split_comment(line)
        code = turn_use(f, code) if is_use(code) else turn_code(f, code)
        out.append(code + (turn_comment(comment, used) if comment else ''))
    return '\n'.join(out)


CLAUSE = re.compile(r'^\s*(requires|ensures|invariant|decreases|ghost|also_owns|also_shares)\b')


def turn_rt(f):
    used = {t for l in f.text.split('\n') if CLAUSE.match(l) for t in re.split(SEP, l)}
    out = []
    for line in f.text.split('\n'):
        s = line.strip()
        if is_use(line) and s.startswith('ghost'):
            line = turn_use(f, line)
        elif CLAUSE.match(line):
            line = turn_code(f, line)
        elif s.startswith('//'):
            line = turn_comment(line, used)
        elif ' // ' in line and '"' not in line:
            a, b = line.split(' // ', 1)
            line = a + ' // ' + turn_comment(b, used)
        out.append(line)
    return '\n'.join(out)


def turn_edit(text):
    """The lines of an edit but its first comment, its `file:` and its `expected:`."""
    out = []
    for line in text.split('\n'):
        if line.startswith('#'):
            line = turn_comment(line, set())
        elif not re.match(r'(file|expected):', line):
            m = re.match(r'(old: ?|new: ?|)(.*)$', line)
            code, comment = split_comment(m.group(2))
            done = []
            for string, piece in parts_of(code):
                w = SEP.split(piece)
                done.append(piece if string else ''.join(loose(x) if j % 2 == 0 else x for j, x in enumerate(w)))
            line = m.group(1) + ''.join(done) + (turn_comment(comment, set()) if comment else '')
        out.append(line)
    return '\n'.join(out)


def turn_page(text):
    """A page: what stands in backticks, but not in a block of code."""
    out = []
    for line in text.split('\n'):
        w = line.split('`')
        for i in range(1, len(w), 2):
            v = re.split(r'''([\s(){}.;,:@"\[\]\\«»]+)''', w[i])
            w[i] = ''.join(loose(x) if j % 2 == 0 and not re.search(r'[./]$', v[j - 1] if j else '') else x for j, x in enumerate(v))
        out.append('`'.join(w))
    return '\n'.join(out)


# ---- what there is
CRATES = {l.split(':')[0].strip() for l in read('crates.txt').split('\n') if ':' in l and not l.startswith('#')}
PATHS = sorted(glob.glob('crates/**/*.antt', recursive=True))
MODULES = {m.group(1) + '.' + m.group(2) + '.' + m.group(3) for p in PATHS for m in [re.match(r'crates/(\w+)/(specs|proofs)/(\w+)\.antt$', p)] if m}
TABLE, LOOSE = {}, {}
for (place, t), n in IN_PLACE.items():
    for p in PATHS:
        if p.startswith(place) and (place.endswith('.antt') or '/specs/' in p or '/proofs/' in p):
            IN_FILE[p, t] = n
FILES = [File(p) for p in PATHS]
SOURCES = [File(p) for p in sorted(glob.glob('crates/*/src/**/*.rt', recursive=True))]

names, declared_in, every = set(), collections.defaultdict(set), set()
for f in FILES:
    above = []
    for line in f.text.split('\n'):
        code = split_comment(line)[0]
        if not code.strip():
            continue
        indent = len(code) - len(code.lstrip())
        while above and above[-1][0] >= indent:
            above.pop()
        inside = bool(above) and bool(re.match(r'\s*(pub\s+)?(record|data)\b', above[-1][1]))
        above.append((indent, code))
        m = declaration(code)
        if not m or is_use(code) or re.match(r'\s*(let|module|infix|where|unfolding)\b', code):
            continue
        word, ns, signature = m
        for n in ns:
            if f.by_hand:
                every.add(n)
                declared_in[n].add(f.path)
                if inside or word & {'abbrev', 'unfoldable', 'record', 'data'} or re.search(r'(^|→ )Type 0$', signature.strip()):
                    names.add(n)
            elif GOAL.search(signature) or '𝓛' in signature or 'FmC' in signature:
                f.goals.add(n)
            else:
                f.locals.add(n)

NAMES = {snake(SPECIAL.get(n, n)) for n in names} | LIBRARY


def respelled(t):
    if t in SPECIAL:
        return SPECIAL[t]
    if '-' not in t:
        return snake(t)
    parts = t.split('-')
    prime = re.search(r"'*$", t).group()
    out = ''
    for i, p in enumerate(parts):
        q = SPECIAL.get(p, snake('get_or' if p == 'getD' else p))
        known = q.rstrip("'") in NAMES and q.rstrip("'") not in PLAIN and not q[0].isdigit()
        if not known and re.search('[A-Z]', q):
            q = q.lower()
        out += q if i == 0 else ('-' if known else '_') + q
    return out


found = set()
for f in FILES:
    if not f.by_hand:
        found |= {t for t in f.locals if is_odd(t)}
        continue
    for line in f.text.split('\n'):
        code = split_comment(line)[0]
        if is_use(code):
            m = re.match(r'.* as (\S+)$', code)
            if m and is_camel(m.group(1)):
                found.add(m.group(1))
            continue
        for t, head, k in tokens(code):
            if is_odd(t) and t not in f.library and not (k and head in f.alias and not f.alias[head]):
                found.add(t)
for t in found:
    n = respelled(t)
    if n != t:
        TABLE[t] = n
for n in sorted(every, key=lambda n: ('-' in n, n)):
    if '_' in n or '-' in n:
        LOOSE.setdefault(n.replace('-', '_'), TABLE.get(n, n))


# ---- names that fall together
def codes(f):
    """The code of a file, with the tokens of its imports."""
    for line in f.text.split('\n'):
        if f.path.endswith('.rt'):
            if CLAUSE.match(line) or is_use(line):
                yield line
        else:
            yield split_comment(line)[0]


bad = []
olds = collections.defaultdict(list)
for t, n in sorted(TABLE.items()):
    olds[n].append(t)
for n, ts in sorted(olds.items()):
    if len(ts) > 1:
        bad.append('two names become %s: %s' % (n, ', '.join('%s (%s)' % (t, ' '.join(sorted(declared_in[t]))[:120]) for t in ts)))
for f in FILES + SOURCES:
    there, own = set(), {}
    for code in codes(f):
        if is_use(code):
            m = re.search(r'\{(.*)\}|as (\S+?);?\s*$', code)
            path = re.match(r'\s*(?:pub |ghost )*use ([^\s{;]+)', code).group(1).rstrip('.')
            for x in re.split(r'[,\s]+', (m.group(1) or m.group(2)) if m else ''):
                if is_own(path) and ((f.path, x) in IN_FILE or x in TABLE):
                    own[x] = new_name(f, x)
                elif not f.path.endswith('.rt') or 'ghost' in code:
                    there.add(x)
            continue
        for t, head, k in tokens(code):
            if renames(f, t, head, k):
                own[t] = new_name(f, t)
            elif k == 0:
                there.add(t)
    for t, n in sorted(own.items()):
        if n in there:
            bad.append('%s: %s becomes %s, which stands there already' % (f.path, t, n))
for t, n in sorted(TABLE.items()):
    for p in sorted(declared_in[t]):
        for q in sorted(declared_in.get(n, ())):
            if p.split('/')[1:3] == q.split('/')[1:3]:
                bad.append('%s: %s becomes %s, which %s declares' % (p, t, n, q))
# a parameter hides a word of its name
for f in SOURCES:
    fn, params, open_ = '', set(), False
    for line in f.text.split('\n'):
        m = re.match(r'\s*(?:pub )?(?:extern "C" )?fn (\w+)', line)
        if m:
            fn, params, open_ = m.group(1), {'self', 'result'}, True
        if CLAUSE.match(line) and 'ghost use' not in line:
            for t, head, k in tokens(line):
                if t in TABLE and k == 0 and TABLE[t] in params:
                    bad.append('%s: fn %s has a parameter %s, and %s in its clauses' % (f.path, fn, TABLE[t], t))
        elif open_:
            params |= set(re.findall(r'(\w+)\s*:(?!:)', line))
            if line.rstrip().endswith('{') or line.strip() == '{':
                open_ = False

if '--table' in sys.argv:
    write(sys.argv[sys.argv.index('--table') + 1], ''.join('%s\t%s\n' % x for x in sorted(TABLE.items())))
print('%d names' % len(TABLE))
for line in bad:
    print('FALL TOGETHER ' + line)
if '--look' in sys.argv:
    sys.exit(bool(bad))

# ---- the files
for f in FILES:
    write(f.path, turn_antt(f))
for f in SOURCES:
    write(f.path, turn_rt(f))
EDITS = [p for top in ('crates', 'tests') for p in sorted(glob.glob(top + '/**/*.edit', recursive=True))]
PAGES = [p for p in ['README.md'] + sorted(glob.glob('docs/*.md')) if os.path.exists(p)]
for p in EDITS:
    write(p, turn_edit(read(p)))
for p in PAGES:
    write(p, turn_page(read(p)))

# ---- the crate json is json_text: the kit has a library named json
if os.path.isdir('crates/json'):
    def json_text(path, text):
        text = re.sub(r'\bRattle\.json\.', 'Rattle.json_text.', text)
        text = text.replace('crates/json/', 'crates/json_text/').replace('#json·', '#json_text·')
        text = re.sub(r'\bcrate json(?=[ ,.;:)])', 'crate json_text', text)
        if path.endswith('.rt') or path.endswith('.edit') or path.endswith('.md'):
            text = re.sub(r'(?<![\w:.])json::', 'json_text::', text)
        return text

    write('crates.txt', '\n'.join(l if l.startswith('#') else re.sub(r'(?<!\S)json(?=[\s:]|$)', 'json_text', l) for l in read('crates.txt').split('\n')))
    TESTS = [p for p in glob.glob('tests/**/*', recursive=True) if os.path.isfile(p) and not p.startswith('tests/interface/') and not p.endswith(('.edit', '.c', '.h', '.json'))]
    for p in PATHS + [f.path for f in SOURCES] + EDITS + PAGES:
        write(p, json_text(p, read(p)))
    for p in TESTS + ['Makefile']:
        try:
            old = read(p)
        except (UnicodeDecodeError, FileNotFoundError):
            continue
        new = old.replace('crates/json/', 'crates/json_text/')
        if p == 'tests/wrong/test_known.py':
            new = new.replace("'json'", "'json_text'").replace('^json/', '^json_text/').replace('known/json/', 'known/json_text/').replace('crate json ', 'crate json_text ')
        if new != old:
            write(p, new)
    for p in PAGES:
        out = []
        for l in read(p).split('\n'):
            if re.match(r'\| (`\w+`(, )?)+ \| ', l) and '| RFC 8259' in l or re.match(r'\| `\w+` \| .* \|( `\w+`)+ \|$', l) or l.startswith('## JSON: crates'):
                l = l.replace('`json`', '`json_text`')
            l = re.sub(r'(?<=[|;:(] )json(?=, (`|\[)|; )', 'json_text', l) if '../crates/' in l and '"json:' not in l else l
            l = re.sub(r'^- `json`: definitions', '- `json_text`: definitions', l)
            out.append(l)
        write(p, '\n'.join(out))
    os.rename('crates/json', 'crates/json_text')
    if os.path.isdir('tests/wrong/known/json'):
        os.rename('tests/wrong/known/json', 'tests/wrong/known/json_text')

# ---- #![tactic(auto)] in each root file, below its first comment
for p in sorted(glob.glob('crates/*/src/lib.rt') + glob.glob('crates/*/src/main.rt')):
    lines = read(p).split('\n')
    if '#![tactic(auto)]' in lines:
        continue
    k = 0
    while k < len(lines) and lines[k].startswith('//') and not lines[k].startswith('///'):
        k += 1
    lines[k:k] = ['#![tactic(auto)]'] + ([] if k < len(lines) and not lines[k].strip() else [''])
    write(p, '\n'.join(lines))
sys.exit(bool(bad))
