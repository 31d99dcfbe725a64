"""Edits of crate json_text whose verdicts are known, tried by tests/must-fail with the real prover: known/json_text/LABEL.edit says in a line `expected:` what is due.
Those that keep the program right, or only break a proof's shape, must be reported, whether others are tried with them or not."""
import glob
import os
import re
import shutil
import subprocess
import tempfile
import unittest

HERE = os.path.dirname(os.path.abspath(__file__))
KNOWN = os.path.join(HERE, 'known')


def expected(path):
    with open(path, encoding='utf-8') as file:
        return re.search(r'^expected: (.*)$', file.read(), re.M).group(1)


def verdicts(folder):
    """({label: what tests/must-fail says of it}, its exit status)"""
    done = subprocess.run([os.path.join(HERE, '..', 'must-fail'), '--edits', folder, 'json_text'], stdout=subprocess.PIPE)
    return dict(re.findall(r'^json_text/(\w+): (NOT REFUSED|NO FACT FAILS|refused)', done.stdout.decode('utf-8'), re.M)), done.returncode


class Known(unittest.TestCase):
    def setUp(self):
        self.due = {os.path.basename(path).removesuffix('.edit'): expected(path) for path in glob.glob(os.path.join(KNOWN, 'json_text', '*.edit'))}

    def test_together(self):
        self.assertEqual(verdicts(KNOWN), (self.due, 1))

    def test_by_themselves(self):
        with tempfile.TemporaryDirectory() as folder:
            os.mkdir(os.path.join(folder, 'json_text'))
            for label in ('right', 'shape', 'more_calls'):
                path = shutil.copy(os.path.join(KNOWN, 'json_text', label + '.edit'), os.path.join(folder, 'json_text'))
                self.assertEqual(verdicts(folder), ({label: self.due[label]}, 1))
                os.remove(path)


if __name__ == '__main__':
    unittest.main()
