"""Tests of what stands between an edit and its verdict. Run: python3 -m unittest discover -s tests/wrong"""
import os
import sys
import tempfile
import unittest

sys.path.insert(0, os.path.dirname(os.path.abspath(__file__)))
import edits
import functions
import trials
import verdicts

FILE = '''// fn comment() { }
use a::B;
pub fn first(s: &[u8], n: [u8; 4]) -> [u8; 2]
    requires { ⌜ 0 < n ⌝ }
    ensures { λ r. ⌜ f { r } ⌝ }
    ensures meant { λ r. ⌜ g r ⌝ }
{
    let a = b"}{";
    if s[0] == b'}' { // }
        return [1, 2];
    }
    [3, 4]
}

impl B {
    pub fn read(s: &[u8]) -> u8 {
        7
    }
}
fn declared(x: u8);
'''


class Functions(unittest.TestCase):
    def setUp(self):
        self.source = functions.Source('part/mod.rt', FILE)

    def function_at(self, text):
        at = FILE.index(text)
        return self.source.function_at(at, at + len(text))

    def test_names_have_their_module_and_type(self):
        self.assertEqual(self.source.functions(), ['part::first', 'part::B::read'])
        self.assertEqual(functions.Source('lib.rt', FILE).functions(), ['first', 'B::read'])

    def test_a_body_is_that_of_its_function(self):
        self.assertEqual(self.function_at('[3, 4]'), 'part::first')
        self.assertEqual(self.function_at('return [1, 2]'), 'part::first')
        self.assertEqual(self.function_at('7'), 'part::B::read')

    def test_contracts_heads_and_braces_are_in_no_body(self):
        for text in ('0 < n', 'f { r }', 'g r', 'pub fn read', '{\n    let a', 'use a::B'):
            self.assertIsNone(self.function_at(text), text)

    def test_outside_sees_all_but_bodies(self):
        self.assertEqual(functions.outside(FILE), functions.outside(FILE.replace('[3, 4]', '[5, 6]')))
        for contract, other in (('0 < n', '1 < n'), ('g r', 'h r')):
            self.assertNotEqual(functions.outside(FILE), functions.outside(FILE.replace(contract, other)))
        self.assertNotEqual(functions.outside(FILE), functions.outside(FILE.replace('[3, 4]', '[3, 4] } fn more() { 1')))


class Edits(unittest.TestCase):
    def edit(self, text):
        with tempfile.NamedTemporaryFile('w', suffix='.edit', encoding='utf-8') as file:
            file.write(text)
            file.flush()
            return edits.Edit(file.name, {'src/lib.rt': functions.Source('lib.rt', FILE)})

    def applied(self, *texts):
        with tempfile.TemporaryDirectory() as crate:
            os.mkdir(os.path.join(crate, 'src'))
            edits.write(os.path.join(crate, 'src', 'lib.rt'), FILE)
            made = [self.edit(text) for text in texts]
            if len(made) == 1:
                made[0].apply(crate)
            else:
                edits.apply_together(made, crate)
            return edits.read(os.path.join(crate, 'src', 'lib.rt'))

    def test_the_function_of_an_edit(self):
        self.assertEqual(self.edit('file: src/lib.rt\nold: [3, 4]\nnew: [3, 5]\n').function, 'first')
        for alone in ('old: 0 < n\nnew: 1 < n\n', 'old: g r\nnew: h r\n', 'old: [3, 4]\nnew: [3, 5]\nold:         7\nnew:         8\n', 'old: missing\nnew: x\n'):
            self.assertIsNone(self.edit('file: src/lib.rt\n' + alone).function, alone)
        self.assertIsNone(self.edit('file: specs/Lib.antt\nold: a\nnew: b\n').function)

    def test_one_and_several_are_applied(self):
        one, two = 'file: src/lib.rt\nold: [3, 4]\nnew: [33, 44]\n', 'file: src/lib.rt\nold:         7\nnew:         8\n'
        self.assertEqual(self.applied(one), FILE.replace('[3, 4]', '[33, 44]'))
        self.assertEqual(self.applied(one, two), FILE.replace('[3, 4]', '[33, 44]').replace('        7', '        8'))

    def test_bad_edits_are_told(self):
        for text in ('old: [3, 4]\nnew: x\n', 'file: src/lib.rt\nold: s\nnew: t\n', 'file: src/lib.rt\n', 'file: src/none.rt\nold: a\nnew: b\n'):
            with self.assertRaises(edits.BadEdit, msg=text):
                self.applied(text)


def said(*lines):
    return '\n'.join(lines + ('logic=not-proved functions=3',)) + '\n'


FACT = ('proofs/a/Proof.antt:3:4: error: expected x', '  found y')
FIELD = ('proofs/a/Proof.antt:3:4: error: the record `R`', '  has no field `if2`')
OTHER_NEED = ('proofs/a/Proof.antt:9:5: error: `a-spec`: expected type `tie.Need-count-requires`, but this has type `tie.Need-lane-requires`',)
WAITING = ('proofs/b/Proof.antt:1:1: error: `a` was not admitted (it has holes or undetermined implicits, or was rejected), so this cannot be checked',)
BOTH = {'a': 'crate::a', 'b': 'crate::b'}


class Verdicts(unittest.TestCase):
    def shown(self, edited, *lines):
        return verdicts.shown(edited, 1, said(*lines), {'a', 'b', 'c'}, lambda function: function.removeprefix('crate::'))

    def test_alone(self):
        self.assertIsNone(verdicts.fault(1, said(*FACT)))
        self.assertIn('NO FACT', verdicts.fault(1, said(*FIELD)))
        self.assertIn('NO FACT', verdicts.fault(1, said(*OTHER_NEED)))
        self.assertIsNone(verdicts.fault(1, said(*OTHER_NEED, *FACT)))
        self.assertIn('NOT REFUSED', verdicts.fault(0, 'logic=proved\n'))
        self.assertIn('NOT JUDGED', verdicts.fault(2, 'error: no such thing\n'))

    def test_a_fact_at_its_own_function_is_shown(self):
        self.assertEqual(self.shown(BOTH, *FACT, 'fn crate::a: not proved', 'fn crate::b: proved'), {'a': 'proofs/a/Proof.antt:3:4'})

    def test_a_function_without_a_file_is_shown_by_its_line(self):
        lines = ('fn crate::b: no proof: expected proofs/b; `search` does not close the need',)
        self.assertEqual(list(self.shown(BOTH, *lines)), ['b'])

    def test_shape_and_waiting_show_nothing(self):
        self.assertEqual(self.shown(BOTH, *FIELD, 'fn crate::a: not proved'), {})
        self.assertEqual(self.shown(BOTH, *OTHER_NEED, 'fn crate::a: not proved'), {})
        self.assertEqual(list(self.shown(BOTH, *FACT, *WAITING, 'fn crate::a: not proved', 'fn crate::b: not proved: it calls crate::a')), ['a'])

    def test_what_no_edit_accounts_for_voids_the_run(self):
        self.assertEqual(self.shown({'b': 'crate::b'}, *FACT, 'fn crate::a: not proved'), {})
        self.assertEqual(self.shown(BOTH, *FACT, 'fn crate::a: not proved', 'fn crate::c: not proved'), {})
        self.assertEqual(self.shown(BOTH, *FACT, 'proofs/Laws.antt:1:1: error: expected x', 'fn crate::a: not proved'), {})


REFUSED = 'rt: must-fail k/%s.edit: refused, as it must be%s'
TOLD = '''rt: k: 1 of its 9 must-fail edits were tried by an earlier run on this machine, and nothing that they stand on has changed
rt: must-fail k/gone.edit: BAD EDIT: an 'old:' text is in src/lib.rt 0 times, and not once
rt: must-fail k/type.edit: BAD EDIT: it did not reach the prover; the first lines of what it said:
src/lib.rt:12:5: error[mismatched-types]: expected `usize`, found `bool`
rt: must-fail k/right.edit: NOT REFUSED: the crate is still proved with this edit (one that means the same as before cannot be refused: remove it)
rt: must-fail k/killed.edit: NOT TRIED: its check was killed, most likely for memory, so nothing is known of it: run this again
rt: crates/k/must-fail/further/lost.edit: BAD EDIT: an edit stands right in must-fail/, and its name is of letters, digits, _, - and . and ends in .edit'''


class Told(unittest.TestCase):
    def fault(self, rest):
        [(edit, wrong, line)] = verdicts.said_by_rt(REFUSED % ('some', rest))
        self.assertEqual(edit, 'k/some')
        self.assertIn(wrong or 'refused, as it must be', line)
        return wrong

    def test_facts_refuse(self):
        self.assertIsNone(self.fault(''))
        self.assertIsNone(self.fault(': note: src/lib.rt:12:17: it is not proved that what the function ensures holds when it returns (`returns-then-x-eq3`)'))
        self.assertIsNone(self.fault(': ./proofs/get/Answers.antt:10:116: error: `returns-then-left-n`: as printed, the two types differ only where one has `n`'))

    def test_names_limits_and_the_compiler_do_not(self):
        for rest in (' (only because a proof file names what the edit took away, so this says little of the contract: change a value): ./proofs/a/Answers.antt:1:2: error: x',
                     ': ./proofs/a/Proof.antt:3:4: error: the record `R` has no field `if2`', ': src/lib.rt:3:4: error[mismatched-types]: expected `u8`, found `bool`',
                     ': ./proofs/a/Answers.antt:19:36: error: `returns-then-peek-eq93`: `goal.returns-then-peek-eq93`: module `Rat',
                     ': ./proofs/a/Answers.antt:25:74: error: `loop-v-init`: record `Rattle.k.proofs.a.Lts.View` (nearest: .peek)',
                     ': ./proofs/a/Answers.antt:3:4: error: `b` is not in scope', ': ./proofs/b/Answers.antt:1:1: error: `a` was not admitted (it has holes ..)'):
            self.assertIn('NO FACT', self.fault(rest), rest)
        self.assertIn('NOT JUDGED', self.fault(' (only by a limit of the prover, which gave no verdict): antt ran out of stack'))

    def test_what_is_not_refused_is_told(self):
        told = [(edit, wrong and wrong.split(':')[0]) for edit, wrong, _ in verdicts.said_by_rt(TOLD)]
        self.assertEqual(told, [(None, None), ('k/gone', 'BAD EDIT'), ('k/type', 'BAD EDIT'), (None, None), ('k/right', 'NOT REFUSED'), ('k/killed', 'NOT TRIED'), (None, 'BAD EDIT')])


CRATE = {
    'src/lib.rt': 'mod part;\nfn a() { 1 }\nfn b() { 2 }\nfn c()\n    ensures { ⌜ x ⌝ }\n{\n    3\n}\n',
    'src/part.rt': 'fn d() { 4 }\n',
    'proofs/+a+b/Proof.antt': '',
    'must-fail/contract.edit': 'file: src/lib.rt\nold: ⌜ x ⌝\nnew: ⌜ y ⌝\n',
    'must-fail/in_a.edit': 'file: src/lib.rt\nold: 1\nnew: 7\n',
    'must-fail/in_b.edit': 'file: src/lib.rt\nold: 2\nnew: 7\n',
    'must-fail/in_d.edit': 'file: src/part.rt\nold: 4\nnew: 7\n',
}


class Trials(unittest.TestCase):
    def setUp(self):
        folder = tempfile.TemporaryDirectory()
        self.addCleanup(folder.cleanup)
        self.root = folder.name
        for file, text in CRATE.items():
            self.put(os.path.join('crates/k', file), text)
        self.crate = trials.Crate(self.root, 'k', ['crates/k/must-fail'])

    def put(self, file, text):
        path = os.path.join(self.root, file)
        os.makedirs(os.path.dirname(path), exist_ok=True)
        edits.write(path, text)

    def test_a_cycle_has_one_proof(self):
        self.assertEqual([self.crate.folder_of(function) for function in ('k::a', 'b', 'part::d')], ['+a+b', '+a+b', 'part/d'])

    def test_a_batch_has_no_contract_and_a_cycle_once(self):
        labels = [[edit.label for edit in batch] for batch in self.crate.batches()]
        self.assertEqual(labels, [['in_a', 'in_d'], ['in_b'], ['contract']])

    def test_bodies_and_nothing_else(self):
        copy = os.path.join(self.root, 'crates/k')
        self.assertTrue(self.crate.only_bodies(copy))
        self.put('crates/k/src/part.rt', 'fn d() { 5 }\n')
        self.assertTrue(self.crate.only_bodies(copy))
        self.put('crates/k/src/lib.rt', CRATE['src/lib.rt'].replace('⌜ x ⌝', '⌜ y ⌝'))
        self.assertFalse(self.crate.only_bodies(copy))

    def test_what_rt_ci_left_is_read(self):
        for label, log in (('in_a', said(*FACT)), ('in_b', said(*FIELD)), ('in_d', said(*OTHER_NEED))):
            self.put('target/must-fail/k/%s/.log' % label, log)
        results = dict((line.split(':')[0], refused) for refused, line in trials.tried_by_ci(self.root, ['k']))
        self.assertEqual(results, {'k/contract': False, 'k/in_a': True, 'k/in_b': False, 'k/in_d': False})

    def test_edits_stand_right_in_must_fail(self):
        self.put('crates/k/must-fail/further/lost.edit', '')
        self.assertEqual(trials.edits_below(self.root, ['k']), {'k/contract', 'k/in_a', 'k/in_b', 'k/in_d'})

    def test_a_copy_has_other_edits(self):
        self.put('crates.txt', 'k:\n')
        self.put('crates/k/out/kept', '')
        self.put('others/k/other.edit', '')
        with tempfile.TemporaryDirectory() as place:
            trials.copy_with(self.root, os.path.join(self.root, 'others'), place)
            self.assertEqual(trials.edits_below(place, ['k']), {'k/other'})
            self.assertEqual(sorted(os.listdir(place)), ['crates', 'crates.txt'])
            self.assertEqual(sorted(os.listdir(os.path.join(place, 'crates', 'k'))), ['must-fail', 'proofs', 'src'])


if __name__ == '__main__':
    unittest.main()
