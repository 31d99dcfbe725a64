"""The wrong programs of crates: where they are, the copy of the repository in which others are tried, and which could be tried in one check.
`rt must-fail` tries each by itself."""
import glob
import os
import shutil

import edits
import functions
import verdicts


def tried_by_ci(root, names):
    """[(whether an edit was refused as it must be, the line that says so)], by the logs that are kept of the edits that were tried."""
    results = []
    for name in names:
        for edit in edits.edits_in(os.path.join(root, 'crates', name, 'must-fail'), {}):
            log = os.path.join(root, 'target', 'must-fail', name, edit.label, '.log')
            wrong = verdicts.fault(1, edits.read(log)) if os.path.isfile(log) else 'NOT TRIED: rt ci left no log'
            results.append((wrong is None, '%s/%s: %s' % (name, edit.label, wrong or 'refused by rt ci because a fact fails')))
    return results


def edits_below(root, names):
    """{CRATE/LABEL} of the edits of these crates."""
    return {'%s/%s' % (name, edit.label) for name in names for edit in edits.edits_in(os.path.join(root, 'crates', name, 'must-fail'), {})}


def copy_with(root, folder, place):
    """Copies the repository's crates to a place, with the edits of folder/NAME in the place of their own."""
    for name in ('crates.txt', 'HANDLES'):
        if os.path.isfile(os.path.join(root, name)):
            shutil.copy(os.path.join(root, name), place)
    shutil.copytree(os.path.join(root, 'crates'), os.path.join(place, 'crates'), ignore=shutil.ignore_patterns('out', 'must-fail'))
    for name in os.listdir(folder):
        shutil.copytree(os.path.join(folder, name), os.path.join(place, 'crates', name, 'must-fail'))


class Crate:
    """A crate with its edits, those of the folders below root."""

    def __init__(self, root, name, folders):
        self.name = name
        crate = os.path.join(root, 'crates', name)
        paths = sorted(glob.glob(os.path.join(crate, 'src', '**', '*.rt'), recursive=True))
        self.sources = {os.path.relpath(path, crate): functions.Source(os.path.relpath(path, os.path.join(crate, 'src')), edits.read(path)) for path in paths}
        self.edits = [edit for folder in folders for edit in edits.edits_in(os.path.join(root, folder), self.sources)]
        self.cycles = self.find_cycles(os.path.join(crate, 'proofs'))

    def find_cycles(self, proofs):
        """{function: the folder, below proofs/, of the proof of its cycle}"""
        cycles = {}
        for path in glob.glob(os.path.join(proofs, '**', '+*'), recursive=True):
            folder = os.path.relpath(path, proofs)
            module = os.path.dirname(folder).split('/') if os.path.dirname(folder) else []
            for member in os.path.basename(folder).strip('+').split('+'):
                cycles['::'.join(module + [member])] = folder
        return cycles

    def folder_of(self, function):
        """The folder of a function's proof, below proofs/; its name may have the crate's before it."""
        function = function.removeprefix(self.name + '::')
        return self.cycles.get(function) or function.replace('::', '/')

    def batches(self):
        """Edits to be tried at once: of one function's body each, no two of the same function or cycle. Any other edit is tried alone."""
        rows, alone = {}, []
        for edit in self.edits:
            if edit.function is None:
                alone.append([edit])
            else:
                rows.setdefault(self.folder_of(edit.function), []).append(edit)
        most = max(map(len, rows.values()), default=0)
        return [[row[k] for row in rows.values() if k < len(row)] for k in range(most)] + alone

    def only_bodies(self, crate):
        """Whether nothing outside the bodies of functions differs in a copy of the crate."""
        return all(functions.outside(edits.read(os.path.join(crate, file))) == functions.outside(source.text) for file, source in self.sources.items())

