"""Copies of the repository in which crates can be checked with an edit, while the repository itself stays as it is. tools/frauds and
tools/tally make them. A copy lies outside the checkout, since rt ci refuses Rattle files beside the crates."""
import os
import re
import shutil
import subprocess

ROOT = os.path.dirname(os.path.dirname(os.path.abspath(__file__)))
PARTS = ('src', 'specs', 'proofs')


def at_once():
    """Returns how many checks to run side by side: one a processor, or fewer where the group's quota or the free memory says so. A check
    of imgproc takes some 1 GB."""
    found = len(os.sched_getaffinity(0))
    quota = re.match(r'(\d+) (\d+)', read('/sys/fs/cgroup/cpu.max')) if os.path.isfile('/sys/fs/cgroup/cpu.max') else None
    free = re.search(r'MemAvailable:\s+(\d+)', read('/proc/meminfo'))
    if quota:
        found = min(found, int(quota[1]) // int(quota[2]))
    if free:
        found = min(found, int(free[1]) // 2_000_000)
    return max(found, 1)


def read(path):
    with open(path, encoding='utf-8', errors='replace') as file:
        return file.read()


JOBS = int(os.environ.get('FRAUDS_JOBS') or at_once())


def write(path, text):
    """Writes a file anew, since other copies may have the old one too."""
    os.makedirs(os.path.dirname(path), exist_ok=True)
    if os.path.lexists(path):
        os.remove(path)
    with open(path, 'w', encoding='utf-8') as file:
        file.write(text)


def copy(old, new):
    """Makes a fresh copy of a folder. What was proved gets a second name, since the prover replaces such a file and never writes into
    one."""
    def one(source, target):
        if source.endswith('.oantt') or '/out/rlib/' in source:
            try:
                return os.link(source, target)
            except OSError:
                pass  # a file system without links
        return shutil.copy2(source, target)
    shutil.rmtree(new, ignore_errors=True)
    if os.path.isdir(old):
        shutil.copytree(old, new, copy_function=one)


def listed():
    """Returns the crates, each after those that it uses, with the names of these."""
    rows = re.findall(r'^(\w+)[^:\n#]*:([^\n#]*)', read(os.path.join(ROOT, 'crates.txt')), re.M)
    named = {name: [word for word in words.split() if word in dict(rows)] for name, words in rows}
    done = []
    while len(done) < len(named):
        done += [name for name in named if name not in done and set(named[name]) <= set(done)]
    return {name: named[name] for name in done}


def below(crate, known):
    """Returns the crates that a crate uses, and those that these use."""
    return [name for name in known if name in known[crate] or any(name in below(it, known) for it in known[crate])]


def edited(crates, crate, changes):
    """Returns the texts of a crate's files with changes of a file, an old text and a new one. If an old text does not stand in its file
    exactly once, it returns None and says so."""
    texts = {}
    for file, old, new in changes:
        path = os.path.join(crates, crate, file)
        text = texts.get(file) or (read(path) if os.path.isfile(path) else '')
        if not old or text.count(old) != 1:
            return None, f'{file} has {text.count(old) if old else "no"} times: {old}'
        texts[file] = text.replace(old, new)
    return (texts, None) if texts else (None, 'it has no old and new text')


def make_base(work):
    """Copies the crates as they stand and returns the copy. What an earlier check made there stays: rt tells what of it is out of
    date."""
    base = os.path.join(work, 'base')
    for crate in listed():
        for part in PARTS:
            copy(os.path.join(ROOT, 'crates', crate, part), os.path.join(base, 'crates', crate, part))
    shutil.copy(os.path.join(ROOT, 'crates.txt'), base)
    return base


def restore(crate, root, base):
    """Gives a copy the crate as it stands in the base, and what is known of it."""
    for part in (*PARTS, 'out'):
        copy(os.path.join(base, 'crates', crate, part), os.path.join(root, 'crates', crate, part))


def make_root(root, base, crate):
    """Makes a copy in which one crate can be checked."""
    known = listed()
    shutil.rmtree(root, ignore_errors=True)
    os.makedirs(os.path.join(root, 'crates'))
    shutil.copy(os.path.join(base, 'crates.txt'), root)
    for name in known:
        if name == crate or name in below(crate, known):
            restore(name, root, base)
        else:
            # crates.txt lists it, and no check reads it
            os.makedirs(os.path.join(root, 'crates', name, 'src'))


def check(root, crate, *words, jobs=1):
    """Runs rt check on the crate as it stands below a folder, and returns the status and what is printed."""
    how = {'stdin': subprocess.DEVNULL, 'stdout': subprocess.PIPE, 'stderr': subprocess.STDOUT}
    ran = subprocess.run(['rt', 'check', '--jobs', str(jobs), *words], cwd=os.path.join(root, 'crates', crate), **how)
    return ran.returncode, ran.stdout.decode('utf-8', 'replace')
