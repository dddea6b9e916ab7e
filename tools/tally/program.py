"""Shows the program to the rules: what carries a tally, what sweeps, who calls whom. The names that the rules know stand here."""
from mir import BYTE, Unknown, callee, calls, head

MODULE = 'imgproc::morphology::tally::'
TALLY, MET = MODULE + 'Tally', MODULE + 'Met'
START, EXTREME, COUNTED, CHOSEN, NUMBER = (
    MODULE + name for name in ('start', 'Tally::extreme', 'Met::counted', 'Met::chosen', 'comparisons')
)
# Parts 3, 5 and 6 of document 01 use samples by rules of their own, after a sweep. Each of these functions has one caller.
OTHER_PARTS = {
    'imgproc::illumination::divide_plane': 'imgproc::illumination::flatten',
    'imgproc::reading::mark_tiles': 'imgproc::reading::read_picture',
    'imgproc::reading::judging::judge_picture': 'imgproc::reading::read_picture',
}
# The types that hold the numbers of an answer, each with the function that reports them: the program's line, or a record. REFUSALS
# report a refusal. A function that holds an answer may call these alone. The length of the line, which is what they return, may be
# taken out of its Some by LENGTH.
REPORTS = {'pgm::Counts': 'pgm::Counts::line', 'records::entry::Entry': 'records::entry::Entry::record'}
REFUSALS = ('imgproc::ImgProcErrorRefusal::number', 'pgm::refused_line')
LENGTH = 'std::option::Option::unwrap'
# `?` takes an answer apart by the first of these, and makes an answer of a refusal, which holds no tally, by the second.
TAKEN_APART, PASSED_ON = 'branch', 'from_residual'
# The crates that report a number.
REPORTING = ('answer', 'imgproc_c', 'records')


class Code:
    def __init__(self, program):
        self.program, self.functions = program, program.functions
        self.called = {f.name: [callee(c) for c in calls(f.body)] for f in self.functions.values()}
        self.expect(START, EXTREME, COUNTED, CHOSEN, NUMBER, *OTHER_PARTS, *OTHER_PARTS.values())
        self.sweeping = self.reaching({EXTREME})
        self.library = [f for f in self.of('imgproc') if not f.name.startswith(MODULE)]
        self.above = [f for crate in REPORTING for f in self.of(crate)]

    def expect(self, *names):
        """Raises Unknown if a function is missing: a rule that finds nothing to look at must not pass."""
        missing = [n for n in names if n not in self.functions]
        missing += [n for n in (TALLY, MET) if n not in self.program.variants]
        missing += [f'call of {n}' for n in REPORTS.values() if not self.callers(n)]
        readers = {name.split('::')[0] for name in self.callers(NUMBER)}
        missing += [f'reader of a tally in {crate}' for crate in REPORTING if crate not in readers]
        if missing:
            raise Unknown('the print has no ' + ', '.join(missing))

    def of(self, crate):
        return [f for f in self.functions.values() if f.name.startswith(crate + '::')]

    def callers(self, name):
        """Returns the callers of a function, once for each call."""
        return [caller for caller, called in self.called.items() for one in called if one == name]

    def reaching(self, names):
        """Returns these functions, and every function that calls one of them, directly or not."""
        found = set(names)
        while more := {f for f, called in self.called.items() if found & set(called)} - found:
            found |= more
        return found

    def carries(self, kind):
        """Tells whether a value of this type has a tally in it, or behind a reference in it."""
        return self.program.holds(kind, lambda t: t[:2] == ['ty_named', TALLY])

    def lends_bytes(self, kind):
        """Tells whether bytes can be reached through a value of this type."""
        return self.program.holds(
            kind, lambda t: t == 'ty_ptr' or t[:1] == ['ty_ref'] and t[3] == BYTE or t[:2] == ['ty_array', BYTE]
        )

    def is_sample(self, function, operand):
        return head(operand) == 'copy' and self.program.type_at(function, operand[1]) == BYTE


def short(name):
    return name.split('::')[-1]


def is_std(name, word):
    """Tells whether this is std's function of that name."""
    return name.split('::')[0] in ('core', 'std') and short(name) == word
