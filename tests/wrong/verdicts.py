"""What the prover's output says of edits."""
import os
import re

ERROR = re.compile(r'^(\S+): error: (.*(?:\n[ \t].*)*)', re.M)
NOTE = re.compile(r'^note: (\S+:\d+:\d+): (.*)$', re.M)
# an error that only waits for another declaration's
WAITS = re.compile(r'was not admitted \(it has holes or undetermined implicits, or was rejected\), so this cannot be checked')
# a function without a proof file whose facts are not proved
NO_PROOF = re.compile(r'^fn (\S+): no proof: expected [^;]*; (`search` does not close .*)$', re.M)
STATE = re.compile(r'^(?:fn|struct|enum) (\S+): (.*)$', re.M)
# a proof that no longer fits the shape of the code: it names what is not there ..
SHAPE = re.compile(r'that can be named from here|record `[^`]*`\s+has no field')
# .. or it answers a need where the code now has another
OTHER_NEED = re.compile(r'expected type `tie\.[^`]*`, but this has type `tie\.')
# what `rt must-fail` and `rt ci` say of an edit, and of what is no edit
TRIED = re.compile(r'^rt: must-fail (\w+/[\w.-]+)\.edit: (.*)$')
NO_EDIT = re.compile(r'^rt: .*: (BAD EDIT: .*)$')
REFUSED = re.compile(r'^refused, as it must be(?: \((only .*?)\))?(?:: (.*))?$')
# the place and the error, or the fact, that such a line names ..
NAMED = re.compile(r'^(?:note: )?(\S+:\d+:\d+): (.*)$')
# .. and no fact: a name that is not there, whose error goes on in a line that is not shown, or what the compiler says before any proof
GONE = r'error: `[^`]+`: (?:`goal\.|(?:`[^`]+`: )?(?:module|record) `)'
NO_FACT = re.compile(r'is not in scope|has no field|has no `|was not admitted|error\[[\w-]+\]|' + GONE)


def is_proved(status, said):
    return status == 0 and re.search(r'^logic=proved', said, re.M) is not None


def is_refused(status, said):
    return status == 1 and re.search(r'^logic=not-proved', said, re.M) is not None


def errors_of(said):
    """[(place, what is wrong there)]"""
    return ERROR.findall(said) or NOTE.findall(said)


def first_place(said):
    found = errors_of(said)
    return found[0][0] if found else 'no place'


def is_shape(errors):
    """Whether these errors show a proof's shape and no fact."""
    return any(SHAPE.search(what) for _, what in errors) or bool(errors) and all(OTHER_NEED.search(what) for _, what in errors)


def fault(status, said):
    """What is wrong with how an edit that was tried alone is refused, or None."""
    if status == 0:
        return 'NOT REFUSED'
    if not is_refused(status, said):
        return 'NOT JUDGED: it did not reach the prover'
    if is_shape(errors_of(said)):
        return 'NO FACT FAILS: a proof does not fit the shape of the code'
    return None


def fault_told(what):
    """What is wrong with what rt tells of an edit, or None."""
    refused = REFUSED.match(what)
    if not refused:
        return what
    only, named = refused.group(1) or '', NAMED.match(refused.group(2) or '')
    if only.startswith('only by a limit'):
        return 'NOT JUDGED: ' + only
    if only or named and (is_shape([named.groups()]) or NO_FACT.search(named.group(2))):
        return 'NO FACT FAILS: a proof does not fit the shape of the code: ' + (only or refused.group(2))
    return None


def said_by_rt(said):
    """[(the edit as CRATE/LABEL, what is wrong with how it is refused, the line that says so)]. What is no edit has None for its name; so has any other line,
    with nothing wrong."""
    results = []
    for line in said.splitlines():
        tried, other = TRIED.match(line), NO_EDIT.match(line)
        if tried:
            edit, what = tried.groups()
            wrong = fault_told(what)
            results.append((edit, wrong, '%s: %s' % (edit, wrong or what)))
        else:
            results.append((None, other and other.group(1), line))
    return results


def own_errors(said, folders, folder_of):
    """{folder of a proof: [(place, what is wrong)]}: the facts that fail, at the function or cycle where they fail; under None those at no
    function's proof. `folders` are those of all proofs below proofs/, `folder_of` finds that of a function."""
    own = {}
    for place, what in ERROR.findall(said):
        if not WAITS.search(what):
            at = os.path.dirname(place) + '/'
            inside = [folder for folder in folders if at.startswith('proofs/%s/' % folder)]
            own.setdefault(max(inside, key=len, default=None), []).append((place, what))
    for function, what in NO_PROOF.findall(said):
        own.setdefault(folder_of(function), []).append(('the proof made of ' + function, what))
    return own


def shown(edited, status, said, folders, folder_of):
    """{folder: the place of its first failing fact}, for those of `edited` ({folder: the function that is edited there}) that one check of all the
    edits shows to be refused: a fact of its own fails there, none only by its shape. Nothing is shown where anything fails that no edit accounts for."""
    if not is_refused(status, said):
        return {}
    own = own_errors(said, folders, folder_of)
    states = dict(STATE.findall(said))
    failing = {folder_of(function) for function, state in states.items() if state != 'proved'}
    waiting = {folder_of(function) for function, state in states.items() if 'it calls' in state}
    if not set(own) <= set(edited) or not failing <= set(own) | waiting:
        return {}
    return {folder: errors[0][0] for folder, errors in own.items() if states.get(edited[folder], 'proved') != 'proved' and not is_shape(errors)}
