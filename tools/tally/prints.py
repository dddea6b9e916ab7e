"""Gets the code of the crates that the rules are about, and finds where in the sources a breach stands."""
import pathlib
import re
import tempfile

import copies
from mir import Unknown
from program import REPORTING, short

CRATES = ('image', 'imgproc', *REPORTING)


class Rejected(Unknown):
    """Raised if the compiler rejects the crate."""


def of(crate, root, functions=(), jobs=1):
    """Returns the texts of the modules that `rt check --generated` writes for a crate's functions, or for some of them, by the names of
    the functions. It writes them whether or not a proof fails. The crates that it uses have to be proved; `rt` proves those that are
    not."""
    with tempfile.TemporaryDirectory(prefix='tally-') as folder:
        words = [word for name in functions for word in ('--start', name)]
        status, said = copies.check(root, crate, '--generated', folder, *words, jobs=jobs)
        error = re.search(r'^src/\S+: error\[[^\n]*', said, re.M)
        if error:
            raise Rejected(error.group())
        if not re.search(r'^generated=\d+$', said, re.M):
            raise Unknown(f'`rt check --generated` of {crate} ends with {status}: {said[-400:]}')
        top = pathlib.Path(folder) / f'Rattle-{crate}-proofs'
        paths = {path: path.parent.parent.relative_to(top).parts for path in top.glob('**/Code/Mir.antt')}
        return {'::'.join((crate, *parts)).replace('+', ''): path.read_text() for path, parts in paths.items()}


def of_all(root):
    return {crate: of(crate, root, jobs=copies.JOBS) for crate in CRATES}


def told(breach, root):
    rule, name, what = breach
    return f'{place(name, root)}: `{short(name)}` {what} ({rule})'


def place(name, root):
    """Returns the file and line of a function, as far as its name tells."""
    crate, *path = name.split('::')
    source = root / 'crates' / crate / 'src'
    folders = ['/'.join(path[:-1]), '/'.join(path[:-2]), path[0], 'lib', 'main']  # the second is a method's
    for file in (source / f'{folder}.rt' for folder in folders):
        lines = file.read_text().split('\n') if file.is_file() else []
        for number, line in enumerate(lines, 1):
            if re.search(rf'\bfn {re.escape(path[-1])}\b', line):
                return f'{file.relative_to(root)}:{number}'
    return f'crates/{crate}'
