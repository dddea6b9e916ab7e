"""Finds the edits that one check can try together: edits of the bodies of distinct functions.

A caller's proof rests on a function's contract alone, and no other proof reads a function's body, nor its answers where it imports
nothing from them. So if an edit changes nothing but the body of one function, and the answers and invariants of this function, it can
change what is met of this function's needs, and of no other's. In one check of several such edits, with no two of the same function, a
need that is not met is thus due to the edit of its own function. Every other edit is tried alone: of a definition, a law, a contract, a
type, or of several functions.

Bodies are found by the layout of rt fmt, which rt ci demands. Where a function's path cannot be told, its body counts as text outside of
functions, and an edit of it is tried alone. So is an edit of a body that holds an item, such as a function with a contract of its own."""
import os
import pathlib
import re

from copies import edited, read

# As many as this are tried in one check.
MOST = 18
HEAD = re.compile(r'( *)(?:pub(?:\(\w+\))? )?(?:extern "C" )?fn (\w+)')
# What begins an item, which would not be the function's alone.
ITEM = re.compile(r'^(?:(?!//).)*\b(?:fn|impl|const|static|struct|enum|trait|type|mod|use|macro_rules)\b', re.M)
IMPL = re.compile(r'impl(?:<[^>]*>)? (?:(.*) for )?(\w+)(?:<[^>]*>)? \{$')


def place(path):
    """Returns the function whose answers stand in a file, or else the file. The kit marks a function that calls itself by a +."""
    function = re.fullmatch(r'proofs/(.*)/(?:Answers|Invariants|Proof)\.antt', path)
    return function[1].replace('/', '::').replace('+', '') if function else re.sub(r'\.antt$', '', path)


def bodies(file, text):
    """Returns the bodies of a file's functions, by their paths as the prover names them, and the text outside of these bodies. A method
    stands below its type; if it is a trait's, the name of the trait follows that of the type."""
    module = re.sub(r'^src/(lib|main)?|\.rt$', '', file).replace('/', '::')
    inside, outside, owner, head, body = {}, [], '', None, None
    for line in text.split('\n'):
        depth, words = len(line) - len(line.lstrip()), line.strip()
        if body is not None and not (depth == head[0] and words.startswith('}')):
            body.append(line)
            continue
        outside.append(line)
        if body is not None:
            # the brace that ends the body stands where the head begins
            path = '::'.join(part for part in (module, owner, head[1]) if part)
            if '?' in path or path in inside:
                outside += body
            else:
                inside[path] = '\n'.join(body)
            head = body = None
            continue
        found = HEAD.match(line)
        if found:
            head = len(found[1]), found[2]
        if head and depth == head[0] and (words == '{' or words.endswith(' {') and (found or words.startswith(')'))):
            # clauses have lines of their own, which stand deeper
            body = []
        elif head and words and (depth < head[0] or depth == head[0] and words.endswith((';', '}'))):
            head = None
        elif depth == 0 and words.endswith('{') and not found:
            of = IMPL.match(line)
            owner, head = of[2] + re.sub(r'\W', '', of[1] or '') if of else '?', None
        elif line == '}':
            owner = ''
    return inside, '\n'.join(outside + (body or []))


def cited(crate, file, base):
    """Tells whether another file of the crate imports from a file of answers."""
    module = '.'.join(['Rattle', crate, *file.removesuffix('.antt').split('/')])
    top = pathlib.Path(base) / 'crates' / crate
    others = [path for part in ('specs', 'proofs') for path in (top / part).glob('**/*.antt') if path != top / file]
    return any(re.search(re.escape(module) + r'\b', read(path)) for path in others)


def function_of(edit, base):
    """Returns the function whose body alone the edit changes, perhaps with its answers, if the edit's need is one of this function."""
    texts, _ = edit.edited(base)
    function = (edit.need or '').partition(', ')[0]
    bodies_changed = 0
    for file, text in (texts or {}).items():
        if file.startswith('src/'):
            old, outside = bodies(file, read(os.path.join(base, 'crates', edit.crate, file)))
            new, outside_now = bodies(file, text)
            changed = [path for path in {*old, *new} if old.get(path) != new.get(path)]
            if outside != outside_now or changed != [function] or ITEM.search(old.get(function, '') + '\n' + new.get(function, '')):
                return None
            bodies_changed += 1
        elif place(file) != function or '+' in file or cited(edit.crate, file, base):
            return None
    return function if bodies_changed == 1 else None


def texts_of(edits, base):
    """Returns the texts of a crate's files with all these edits in them, or None if they do not apply together."""
    return edited(os.path.join(base, 'crates'), edits[0].crate, [change for edit in edits for change in edit.changes])[0]


def batches(edits, base):
    """Shares a crate's edits among checks: batches of edits of distinct functions, and then each other edit alone."""
    functions = {edit: function_of(edit, base) for edit in edits}
    alone = [[edit] for edit in edits if not functions[edit]]
    bodied = [edit for edit in edits if functions[edit]]
    named = [functions[edit] for edit in bodied]
    count = max([-(-len(bodied) // MOST), *(named.count(function) for function in named)], default=0)
    shared = [[] for _ in range(count)]
    # edits of the functions that have most come first, so that the batches fill evenly
    for edit in sorted(bodied, key=lambda edit: -named.count(functions[edit])):
        free = [batch for batch in shared if functions[edit] not in [functions[other] for other in batch]]
        fits = [batch for batch in sorted(free, key=len) if texts_of([*batch, edit], base)]
        if fits:
            fits[0].append(edit)
        else:
            alone.append([edit])
    return [*(batch for batch in shared if batch), *alone]
