"""Tries the edits of crates/*/fence: frauds on the tally, which must be refused, and honest changes, which must pass. They have the
form of the must-fail edits, and a line that says what refuses them:

  refused by: compiler CODE     the compiler rejects the crate with this error
  refused by: check RULE        the crate compiles, and this rule is broken
  refused by: proof             no rule is broken, and the crate is not proved any more
  passes                        the crate compiles and no rule is broken; its proofs are not tried

The tool applies each edit by itself in a copy of the repository, several at a time, below $FRAUDS_COPY or in a temporary folder. It
reads the code of the functions that the edit changes, or that name a constant whose value it changes, and of all others as it stands.
An edit fails if it does not apply, or if something else refuses it, or nothing."""
import concurrent.futures
import os
import pathlib
import queue
import re
import tempfile

import copies
import prints
from mir import Unknown
from prints import Rejected
from rules import RULES, breaches


class Edit:
    def __init__(self, path):
        self.path, self.crate = path, path.parent.parent.name
        self.name = f'{self.crate}/{path.stem}'
        self.changes, self.wanted = [], None
        for line in path.read_text().split('\n'):
            word, _, rest = line.partition(': ')
            if line == 'passes':
                self.wanted = ('nobody', '')
            elif word == 'refused by':
                who, _, why = rest.partition(' ')
                self.wanted = (who, why)
            elif word == 'file':
                file = rest
            elif word == 'old':
                old = rest
            elif line.startswith('new:'):
                self.changes.append((file, old, line[4:].removeprefix(' ')))


def pieces(text):
    """Returns the text of each function of a file by its name, a method's after that of its type, and what stands outside of the
    functions. Comments and layout do not count."""
    text = re.sub(r'//[^\n]*', '', text)
    outside, found, at = '', {}, 0
    for head in re.finditer(r'(?:\bpub(?:\(\w+\))?\s+)?(?:\bextern "C" )?\bfn (\w+)', text):
        if head.start() < at:
            continue
        level, end, is_body = 0, head.end(), False
        # the body is the first brace after the clauses, which have braces of their own
        while end < len(text):
            mark = text[end]
            if mark == '{' and level == 0:
                is_body = not re.search(r'\b(requires|ensures|ghost)\*?(\s+\w+:?)?\s*\Z', text[head.start():end])
            level += {'{': 1, '}': -1}.get(mark, 0)
            end += 1
            if (mark == '}' and level == 0 and is_body) or (mark == ';' and level == 0):
                break
        outside += text[at:head.start()]
        inside = outside.count('{') > outside.count('}')
        owner = re.findall(r'\bimpl(?:<[^>]*>)?\s+(?:[^{]*\sfor\s+)?(\w+)', outside)[-1:] if inside else []
        name = '::'.join([*owner, head[1]])
        found[name] = found.get(name, '') + ' '.join(text[head.start():end].split())
        at = end
    return found, ' '.join((outside + text[at:]).split())


def constants(old, new):
    """Returns the constants of other values in the text outside of functions, or None if this text differs by more than values."""
    form = r'\bconst (\w+)(: \w+ = )([^;]*);'
    if re.sub(form, r'const \1\2;', old) != re.sub(form, r'const \1\2;', new):
        return None
    return {was[0] for was, now in zip(re.findall(form, old), re.findall(form, new)) if was != now}


def touched(root, crate, texts):
    """Returns the functions that the edit changes, by their paths in the crate: those whose text is another, and those that name a
    constant whose value is another, if nothing outside of functions names it. It returns none if the edit changes more outside of
    functions: then any function may be another."""
    top = pathlib.Path(root) / 'crates' / crate
    files = {str(path.relative_to(top)): copies.read(path) for path in top.glob('src/**/*.rt')}
    old = {file: pieces(text) for file, text in files.items()}
    new = {file: pieces(text) for file, text in {**files, **texts}.items() if file.startswith('src/')}
    changed = [constants(old[file][1], new[file][1]) if file in old else None for file in new]
    if None in changed:
        return []
    naming = re.compile('|'.join(rf'\b{name}\b' for name in set().union(*changed)) or r'(?!)')
    if sum(len(naming.findall(outside)) for _, outside in new.values()) > sum(map(len, changed)):
        return []
    names = []
    for file, (functions, _) in new.items():
        module = re.sub(r'^src/|\.rt$', '', file).replace('/', '::')
        own = [name for name, text in functions.items() if text != old[file][0].get(name) or naming.search(text)]
        names += [name if module in ('lib', 'main') else f'{module}::{name}' for name in own]
    return names


def proof(root, crate):
    """Tells what refuses a crate that no rule refuses: a proof, with the first need that is not met, or nobody."""
    status, said = copies.check(root, crate)
    if status != 1 or not re.search('^logic=not-proved', said, re.M):
        return 'nobody', ''
    needs = [line for line in said.split('\n') if 'declaration' not in line]
    found = [m.group() for m in (re.search(r'proofs/\S*: error: `[^`]*`|src/\S*: it is not proved .*', n) for n in needs) if m]
    return 'proof', found[0].replace(' error:', '') if found else 'not proved'


def refused(edit, texts, root, base, printed):
    """Tells what refuses an applied edit, and with which message."""
    try:
        code = prints.of(edit.crate, root, touched(base, edit.crate, texts))
        found = breaches({**printed, edit.crate: {**printed[edit.crate], **code}})
    except Rejected as rejected:
        return 'compiler', str(rejected)
    except Unknown as unknown:
        return 'unknown', str(unknown)
    if found:
        named = [b for b in found if b[0] == edit.wanted[1]]
        return 'check', prints.told((named or found)[0], pathlib.Path(root))
    return proof(root, edit.crate) if edit.wanted[0] == 'proof' else ('nobody', 'passes')


def tried(edit, root, base, printed):
    """Tells whether the edit is refused by what its file names, and what to print."""
    texts, why = copies.edited(os.path.join(base, 'crates'), edit.crate, edit.changes)
    if texts is None or edit.wanted is None:
        return False, f'{edit.name}: DOES NOT APPLY: {why or "it says nothing of what refuses it"}'
    copies.make_root(root, base, edit.crate)
    for file, text in texts.items():
        copies.write(os.path.join(root, 'crates', edit.crate, file), text)
    who, said = refused(edit, texts, root, base, printed)
    good = who == edit.wanted[0] and edit.wanted[1] in said
    return good, f'{edit.name}: {"" if good else "WANTED " + " ".join(edit.wanted) + ": "}{who}: {said}'


def try_in(work, wanted):
    base = copies.make_base(work)
    printed = prints.of_all(base)
    found = breaches(printed)
    for breach in found:
        print(prints.told(breach, pathlib.Path(base)))
    print(f'tally: {len(RULES)} rules, {len(found)} breaches', flush=True)
    if found:
        return 1
    # what a check of each crate keeps is there for its edits
    for crate in {edit.crate for edit in wanted}:
        status, said = copies.check(base, crate, jobs=copies.JOBS)
        if status:
            print(f'{said}\ntally: {crate} is not proved as it stands')
            return 1
    roots, failed = queue.Queue(), []
    for number in range(copies.JOBS):
        roots.put(os.path.join(work, f'tally-{number}'))

    def one(edit):
        root = roots.get()
        try:
            return edit, *tried(edit, root, base, printed)
        finally:
            roots.put(root)

    with concurrent.futures.ThreadPoolExecutor(copies.JOBS) as pool:
        for edit, good, said in pool.map(one, wanted):
            print(said, flush=True)
            failed += [edit.name] * (not good)
    print(f'tally: {len(wanted)} edits, {len(failed)} not as they say')
    return 1 if failed else 0


def run(root, names):
    found = [Edit(path) for path in sorted(root.glob('crates/*/fence/*.edit'))]
    wanted = [e for e in found if not names or e.path.stem in names]
    if not wanted or len(wanted) < len(names):
        print('tally: no such edit')
        return 2
    work = os.environ.get('FRAUDS_COPY')
    if work:
        os.makedirs(work, exist_ok=True)
        return try_in(os.path.abspath(work), wanted)
    with tempfile.TemporaryDirectory(prefix='tally-') as work:
        return try_in(work, wanted)
