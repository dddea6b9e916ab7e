"""The rules. Each is a function. Its comment gives first the sentence of document 01, part 2, and then what the rule checks. It
yields each function that breaks the rule, and what that function does."""
import mir
from mir import BYTE, callee, calls, head, items, operands, statements, type_arguments
from program import CHOSEN, COUNTED, EXTREME, MODULE, NUMBER, OTHER_PARTS, PASSED_ON, START, TAKEN_APART, Code, is_std, short
from ways import HandedOn, Reported


def an_extreme_compares_once(code):
    """Only two small functions, the lesser and the greater of two samples, compare samples and raise a tally: they are the two
    instances of `extreme`. It compares its two samples once, computes nothing else with them, and adds once; nothing else makes a
    tally but the start, and nothing else computes with one."""
    # `ne` tells which instance of `extreme` it is
    known = {START: [], EXTREME: ['add', 'lt', 'ne'], COUNTED: [], CHOSEN: [], NUMBER: []}
    samples = ['(copy (place 2 []))', '(copy (place 3 []))']
    for f in code.functions.values():
        if not f.name.startswith(MODULE):
            continue
        if f.name not in known:
            yield f.name, f'is not one of the {len(known)} functions of a tally'
            continue
        values = [s[2] for s in statements(f.body) if s[0] == 'assign']
        computed = [v for v in values if v[0] in ('op1', 'op2')]
        done = sorted(head(v[1]) for v in computed)
        if done != known[f.name]:
            yield f.name, f'computes {", ".join(done) or "nothing"} where {", ".join(known[f.name]) or "nothing"} is wanted'
        if any(s[0] in ('call', 'loop', 'switch') for s in statements(f.body)):
            yield f.name, 'calls something or goes round a loop'
        for v in computed:
            met = any(code.is_sample(f, o) for o in operands(v))
            if met != (head(v[1]) == 'lt') or met and sorted(mir.show(copied(f, o)) for o in v[2:]) != samples:
                yield f.name, 'compares something else than its two samples'
        if any(v[0] == 'aggregate' for v in values) and f.name not in (START, EXTREME):
            yield f.name, 'makes a tally'


def copied(f, operand):
    """Returns what an operand is a copy of: itself if nothing is assigned to it, and otherwise what its one assignment copies."""
    given = [s[2] for s in statements(f.body) if s[0] == 'assign' and s[1] == operand[1]]
    if len(given) == 1 and given[0][0] == 'rv_opd' and head(given[0][1]) == 'copy':
        return copied(f, given[0][1])
    return ['assigned', operand] if given else operand


def the_extremes_are_called_in_one_place(code):
    """Every extreme of a sweep comes out of the two functions. One function calls `extreme`, once, and gives it samples of the
    picture and no numbers made up to be counted."""
    callers = code.callers(EXTREME)
    if len(callers) != 1:
        for name in sorted({*callers}):
            yield name, f'calls `extreme` {callers.count(name)} times, and others {len(callers) - callers.count(name)} times'
        if not callers:
            yield EXTREME, 'is not called'
    for f in code.functions.values():
        for call in calls(f.body):
            if callee(call) == EXTREME and any(a[:2] == ['int', 'w8'] for a in items(call[2])):
                yield f.name, 'calls `extreme` with a number that is no sample'


def what_carries_a_tally_is_handed_on_once(code):
    """Nothing sets the tally back or lowers it, and no comparison goes uncounted. A function that has a tally hands it on exactly
    once on every path: it neither drops it nor uses it twice. It takes both an extreme and its tally, and it stores the extreme or
    compares it again."""
    for f in code.library + code.above:
        if any(map(code.carries, f.types)):
            yield from HandedOn(code, f).broken
            for call in calls(f.body):
                if any(map(code.carries, type_arguments(call))) and not is_std(callee(call), PASSED_ON):
                    yield f.name, f'hands a tally to `{short(callee(call))}` under a type parameter'


def each_call_that_sweeps_starts_one_tally(code):
    """Every call that sweeps starts the tally once, before its first sweep. A function that takes a tally starts none. A function
    that sweeps and takes none starts one, at one place that stands in no loop."""
    counts = {START: 1}

    def starts(name):
        if name not in counts:
            counts[name] = 0  # ends the recursion if a function calls itself
            counts[name] = sum(map(starts, code.called.get(name, [])))
        return counts[name]

    wanted = {f.name: int(f.name in code.sweeping and not any(map(code.carries, f.parameters()))) for f in code.library}
    for f in code.library:
        inherited = any(starts(name) != wanted[name] for name in code.called[f.name] if name in wanted)
        if starts(f.name) != wanted[f.name] and not inherited:
            yield f.name, f'starts {starts(f.name)} and should start {wanted[f.name]} tallies'
        for s in statements(f.body):
            if s[0] == 'loop' and any(starts(callee(c)) for c in calls(s)):
                yield f.name, 'starts a tally in a loop'


def in_a_sweep_samples_are_only_moved_or_met(code):
    """Samples are compared nowhere else in an erosion or dilation. A function that sweeps, or that is lent bytes by one that
    sweeps, loads a sample, stores it, or gives it to `extreme`. It does not compute with a sample,
    decide by it, pass it on or keep it elsewhere, and gets no sample from elsewhere. Parts 3, 5 and 6 are no sweeps; each is lent
    bytes by its one caller alone. std's `?` passes a picture on."""
    todo = [f for f in code.library if f.name in code.sweeping]
    seen = {f.name for f in todo}
    while todo:
        f = todo.pop(0)
        yield from moved_or_met(code, f)
        for name in lent_to(code, f):
            if name in OTHER_PARTS:
                if OTHER_PARTS[name] != f.name:
                    yield f.name, f'lends its bytes to `{short(name)}`'
            elif is_std(name, TAKEN_APART):
                continue
            elif name not in code.functions:
                yield f.name, f'lends its bytes to `{name}`, whose statements are not in the print'
            elif name not in seen:
                seen.add(name)
                todo.append(code.functions[name])


def lent_to(code, f):
    """Yields the functions to which a function lends bytes."""
    for call in calls(f.body):
        if any(map(code.lends_bytes, kinds(code, f, items(call[2])))):
            yield callee(call)


def kinds(code, f, given):
    """Returns the types of the operands that are read from a place."""
    return [code.program.type_at(f, o[1]) for o in given if head(o) == 'copy']


def moved_or_met(code, f):
    """Yields what a function does with a sample besides loading it, storing it and giving it to `extreme`."""
    for s in statements(f.body):
        if s[0] in ('cond', 'switch') and code.is_sample(f, s[1]):
            yield f.name, 'decides by a sample'
        if s[0] == 'assign':
            for what in assigned(code, f, s[1], s[2]):
                yield f.name, what
        if s[0] == 'call':
            name, sample = callee(s), code.program.type_at(f, s[3]) == BYTE
            if name != EXTREME and any(code.is_sample(f, a) for a in items(s[2])):
                yield f.name, f'passes a sample to `{short(name)}`'
            if sample and name != CHOSEN:
                yield f.name, f'takes a sample from `{short(name)}`'


def assigned(code, f, place, value):
    steps = items(place[2])
    samples = [o for o in operands(value) if code.is_sample(f, o)]
    if samples and value[0] != 'rv_opd':
        yield 'computes with a sample, or puts one into something'
    if samples and steps and steps[-1] != ['deref', BYTE]:
        yield 'keeps a sample in a part of something'
    if code.program.type_at(f, place) == BYTE and not samples:
        yield 'makes up a sample'
    whole = any(map(code.lends_bytes, kinds(code, f, operands(value))))
    if whole and value[0] in ('op1', 'op2') and head(value[1]) != 'offset':
        yield 'computes with bytes as a whole'
    for one in [place, *(o[1] for o in operands(value) if head(o) == 'copy')]:
        if any(step[0] == 'deref' and step[1] != BYTE and not code.carries(step[1]) for step in items(one[2])):
            yield 'looks at memory that holds no samples'


def a_reported_number_is_read_out_of_its_tally(code):
    """The reported number is the tally and is never worked out. No function of imgproc reads the number. Above imgproc, a function
    that has an answer takes it apart, writes the number of its tally to the lent number, to the line or to a record, and computes,
    calls and stores nothing else."""
    for name in code.callers(NUMBER):
        if name.startswith('imgproc::'):
            yield name, 'reads the number of a tally'
    above = {f.name for f in code.above}
    reporting = above & code.reaching({f.name for f in code.above if any(map(code.carries, f.types))})
    for f in code.above:
        if f.name in reporting:
            yield from Reported(code, f, reporting).broken


RULES = (
    an_extreme_compares_once,
    the_extremes_are_called_in_one_place,
    what_carries_a_tally_is_handed_on_once,
    each_call_that_sweeps_starts_one_tally,
    in_a_sweep_samples_are_only_moved_or_met,
    a_reported_number_is_read_out_of_its_tally,
)


def breaches(prints):
    """Returns every breach of a rule in the printed crates: the rule, the function, and what the function does."""
    code = Code(mir.read(prints))
    return list(dict.fromkeys((rule.__name__, name, what) for rule in RULES for name, what in rule(code)))
