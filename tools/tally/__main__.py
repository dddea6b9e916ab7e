"""Checks what document 01, part 2, says of the tally and no contract can say. A contract fixes how many comparisons a call reports.
It does not say that each of them was made, that each was counted when it was made, and that no other was made. The types keep all
code but src/morphology/tally.rt from making a tally or touching its number. The rules of rules.py cover the rest. They are about the program
that the proofs are about, as `rt check --generated` writes it. No rule holds a copy of the code.

  python3 tools/tally             checks image, imgproc, and the crates that report a number: answer, imgproc_c and records
  python3 tools/tally try         does so, and tries each edit of crates/*/fence: what the edit names must refuse it (edits.py)
  python3 tools/tally try A B     tries the edits A and B alone

The tool prints a breach as file, line and function, what the function does, and the rule. It exits with 1 if a rule is broken or an
edit is not refused as its file says. It exits with 2 if it cannot tell: the code has another form (mir.py), or does not contain the
functions that the rules name (program.py)."""
import pathlib
import sys

sys.dont_write_bytecode = True
sys.setrecursionlimit(100000)
sys.path.append(str(pathlib.Path(__file__).resolve().parent.parent))
import edits
import prints
from mir import Unknown
from rules import RULES, breaches

ROOT = pathlib.Path(__file__).resolve().parent.parent.parent


def check():
    found = breaches(prints.of_all(ROOT))
    for breach in found:
        print(prints.told(breach, ROOT))
    print(f'tally: {len(RULES)} rules, {len(found)} breaches')
    return 1 if found else 0


def main(words):
    if words and words[0] != 'try':
        print(__doc__)
        return 2
    try:
        return edits.run(ROOT, words[1:]) if words else check()
    except Unknown as unknown:
        print(f'tally: cannot tell: {unknown}')
    except (IndexError, KeyError, TypeError, ValueError) as error:
        print(f'tally: cannot tell: the code has another form than mir.py knows: {error!r}')
    return 2


sys.exit(main(sys.argv[1:]))
