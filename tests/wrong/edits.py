"""Edits that make a wrong program: files of lines `file:`, `old:` and `new:`. Each `new:` replaces the one place of the `old:` before it, in the
file that the last `file:` names."""
import glob
import os


class BadEdit(Exception):
    pass


def read(path):
    with open(path, encoding='utf-8') as file:
        return file.read()


def write(path, text):
    with open(path, 'w', encoding='utf-8') as file:
        file.write(text)


def pairs_of(text):
    """[(file, old, new)]"""
    pairs = []
    file = old = None
    for line in text.split('\n'):
        if line.startswith('file: '):
            file = line[len('file: '):]
        elif line.startswith('old: '):
            old = line[len('old: '):]
        elif line.startswith('new:'):
            if not file or not old:
                raise BadEdit('a `new:` with no `file:` or `old:` before it')
            pairs.append((file, old, line[len('new:'):].removeprefix(' ')))
            old = None
    if not pairs:
        raise BadEdit('it has no `old:` and `new:`')
    return pairs


class Edit:
    """An edit of a crate. `function` is the one whose body alone it changes, or None: a contract, a definition, or two functions."""

    def __init__(self, path, sources):
        self.path = path
        self.label = os.path.basename(path).removesuffix('.edit')
        self.places, self.function, self.fault = None, None, None
        try:
            self.pairs = pairs_of(read(path))
        except BadEdit as bad:
            self.fault = str(bad)
            return
        self.find(sources)

    def find(self, sources):
        """Where it changes the crate's files as they stand."""
        places, functions = [], set()
        for file, old, new in self.pairs:
            source = sources.get(file)
            if source is None or source.text.count(old) != 1:
                return
            at = source.text.index(old)
            functions.add(source.function_at(at, at + len(old)))
            places.append((file, at, at + len(old), new))
        if len(functions) == 1 and None not in functions:
            self.places, self.function = places, functions.pop()

    def apply(self, crate):
        """Changes a copy of the crate."""
        if self.fault:
            raise BadEdit(self.fault)
        for file, old, new in self.pairs:
            path = os.path.join(crate, file)
            if not os.path.isfile(path):
                raise BadEdit('no file %s' % file)
            text = read(path)
            if text.count(old) != 1:
                raise BadEdit('%r stands %d times in %s' % (old, text.count(old), file))
            write(path, text.replace(old, new))


def apply_together(edits, crate):
    """Changes a copy of the crate by edits of bodies, each at its place in the text without them."""
    for file, start, end, new in sorted((place for edit in edits for place in edit.places), reverse=True):
        path = os.path.join(crate, file)
        text = read(path)
        write(path, text[:start] + new + text[end:])


def edits_in(folder, sources):
    return [Edit(path, sources) for path in sorted(glob.glob(os.path.join(folder, '*.edit')))]
