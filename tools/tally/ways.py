"""Follows every path through a function, from its first statement to each return, and notes what a rule has to know about it."""
import mir
from mir import TAG, Unknown, callee, filled, head, items, operands, statements
from program import CHOSEN, COUNTED, EXTREME, LENGTH, MET, NUMBER, PASSED_ON, REFUSALS, REPORTS, is_std, short

NOTHING = frozenset()
NAMES = {
    'tally': 'the tally',
    'reference': 'the lent tally',
    'value': 'the extreme',
    'sample': 'the extreme',
    'number': 'the number',
}


class Ways:
    """Follows the paths. A subclass says what it notes (the state), and what each statement does to it."""

    def __init__(self, code, function):
        self.code, self.function, self.broken, self.scopes = code, function, [], []
        self.follow(function.body, self.begin())

    def no(self, message):
        if (self.function.name, message) not in self.broken:
            self.broken.append((self.function.name, message))

    def kind(self, place):
        return self.code.program.type_at(self.function, place)

    def follow(self, s, state):
        """Returns the state after a statement, or None if no path goes on from it."""
        kind = head(s)
        if kind == 'seq':
            state = self.follow(s[1], state)
            return None if state is None else self.follow(s[2], state)
        if kind == 'skip':
            return state
        if kind == 'assign':
            return self.assign(s[1], s[2], state)
        if kind == 'call':
            return self.call(callee(s), items(s[2]), s[3], state)
        if kind == 'cond':
            return self.meet([self.follow(s[2], state), self.follow(s[3], state)])
        if kind == 'switch':
            return self.meet([self.follow(arm, self.arm(s[1], numbers, state)) for numbers, arm in mir.arms(s)])
        if kind in ('block', 'loop'):
            return self.scope(kind, s[1], state)
        if kind == 'exit':
            self.scopes[-1 - int(s[1])].append(state)
        elif kind == 'return':
            self.leave(state)
        elif kind != 'unreachable':
            raise Unknown(f'the statement {kind}')
        return None

    def scope(self, kind, body, state):
        """Returns the state after a block or a loop. A path leaves a block at its end or by an exit. The end of a loop, or an exit
        to it, begins its next turn; only an exit to a block around it leaves the loop."""
        self.scopes.append([])
        end = self.follow(body, state)
        ends = [s for s in [end, *self.scopes.pop()] if s is not None]
        if kind == 'block':
            return self.meet(ends)
        for one in ends:
            self.turn(state, one)
        return None

    def meet(self, states):
        states = [s for s in states if s is not None]
        return self.join(states) if states else None

    def arm(self, operand, numbers, state):
        return state

    def turn(self, before, after):
        pass

    def leave(self, state):
        pass


class HandedOn(Ways):
    """Notes what each local holds that the function still has to hand on: a tally; the value of a Met; a reference to a tally; a
    sample that an extreme returned; a number that was read out of a tally. The function must hand on a tally exactly once. It must
    store, compare or write the sample and the number at least once."""

    def begin(self):
        types = self.function.types
        self.origin = {n: 'that it is passed' for n in range(1, self.function.takes + 1)}
        for n, kind in enumerate(types):
            if self.code.carries(kind) and (kind[3] if kind[0] == 'ty_ref' else kind)[0] != 'ty_named':
                self.no('has a tally in an array or a slice')
        if self.code.carries(types[0]) and self.lent(0):
            self.no('gives out a reference to a tally')
        return {n: self.whole(kind) for n, kind in enumerate(self.function.parameters(), 1) if self.code.carries(kind)}

    def lent(self, n):
        return self.function.types[n][0] == 'ty_ref'

    def passed(self, n):
        return 0 < n <= self.function.takes

    def whole(self, kind):
        return frozenset({'tally', 'value'} if kind[:2] == ['ty_named', MET] else {'tally'})

    def what(self, n, parts):
        name = next((name for part, name in NAMES.items() if part in parts), 'the tally')
        return f'{name} {self.origin.get(n, f"of local {n}")}'

    # Paths that come together

    def join(self, states):
        for n in {n for s in states for n in s}:
            due = {s.get(n, NOTHING) for s in states}
            if len(due) > 1:
                self.no(f'hands on {self.what(n, frozenset.union(*due))} on one way and not on another')
        return states[0]

    def turn(self, before, after):
        for n in {*before, *after}:
            more, less = after.get(n, NOTHING) - before.get(n, NOTHING), before.get(n, NOTHING) - after.get(n, NOTHING)
            if more:
                self.no(f'drops {self.what(n, more)} at the end of a turn of a loop')
            if less:
                self.no(f'uses {self.what(n, less)} in every turn of a loop')

    def arm(self, operand, numbers, state):
        """Drops the tally in the arm of a variant that has none: there is nothing to hand on."""
        if numbers is None or head(operand) != 'copy' or self.kind(operand[1]) != TAG or len(items(operand[1][2])) != 2:
            return state
        n = int(operand[1][1])
        name, arguments = self.function.types[n][1], items(self.function.types[n][2])
        fields = [filled(kind, arguments) for number in numbers for kind in self.code.program.variants[name][number]]
        return state if any(map(self.code.carries, fields)) else {**state, n: NOTHING}

    def leave(self, state):
        for n, due in state.items():
            kept = self.code.carries(self.function.types[n]) and (n == 0 or self.passed(n) and self.lent(n))
            if kept and not due:
                self.no(f'does not give back {self.what(n, due)}')
            if due and not kept:
                self.no(f'drops {self.what(n, due)}')

    # Statements that take a part out of a local, or put one in

    def take(self, state, n, parts):
        if not parts <= state.get(n, NOTHING):
            self.no(f'uses {self.what(n, parts)} a second time')
        return {**state, n: state.get(n, NOTHING) - parts}

    def put(self, place, parts, origin, state):
        n, steps = int(place[1]), items(place[2])
        if steps and not self.code.carries(self.kind(place)):
            if 'number' in state.get(n, NOTHING):
                self.no('changes the counts of a report once the number is in them')
            if parts and not any(step[0] == 'deref' for step in steps):
                self.no('keeps an extreme or a number in a part of something')
            return state  # the sample or number is stored
        if steps and not (self.lent(n) and self.passed(n) and len(steps) == 1):
            self.no('puts a tally into a part of something, or through a reference of its own')
        if state.get(n):
            self.no(f'loses {self.what(n, state[n])}')
        self.origin[n] = origin
        return {**state, n: parts}

    def use(self, operand, state, by=None):
        """Returns the state after the operand is read, by the call of `by` or by an assignment."""
        if head(operand) != 'copy':
            return state
        n, steps, kind = int(operand[1][1]), items(operand[1][2]), self.kind(operand[1])
        due = state.get(n, NOTHING)
        if not self.code.carries(kind):
            return {**state, n: NOTHING} if self.spends(due, by) else state
        if self.lent(n) and not steps:
            return self.use_reference(n, state, by)
        if self.lent(n) and not self.passed(n):
            self.no('looks at a tally through a reference of its own')
        part = {COUNTED: {'tally'}, CHOSEN: {'value'}}.get(by) or (due if steps else self.whole(kind)) or {'tally'}
        return self.take(state, n, frozenset(part))

    def spends(self, due, by):
        """Tells whether the call of `by` compares the extreme again, or reports the number."""
        return 'sample' in due and by == EXTREME or 'number' in due and by in REPORTS.values()

    def use_reference(self, n, state, by):
        if by is None:
            self.no('keeps a reference to a tally')
        after = self.take(state, n, frozenset({'tally'} if self.passed(n) else {'reference'}))
        return state if self.passed(n) else after  # the callee gives back what was lent

    def lend(self, place, target, state):
        n, steps = int(target[1]), items(target[2])
        if steps and not (self.lent(n) and self.passed(n) and len(steps) == 1):
            self.no('lends a part of what carries a tally')
        if state.get(n, NOTHING) != {'tally'}:
            self.no(f'lends {self.what(n, NOTHING)} after it was handed on')
        return self.put(place, frozenset({'reference'}), 'of its own', state)

    def assign(self, place, value, state):
        if value[0] == 'addr_of':
            return self.lend(place, value[1], state) if self.code.carries(self.kind(value[1])) else state
        given, origin = NOTHING, 'that it puts together'
        if value[0] == 'rv_opd' and head(value[1]) == 'copy':
            n = int(value[1][1][1])
            given, origin = state.get(n, NOTHING) & {'sample', 'number'}, self.origin.get(n, origin)
            state = {**state, n: state.get(n, NOTHING) - given}
        if value[0] == 'aggregate' and self.kind(place)[0] == 'ty_named' and self.kind(place)[1] in REPORTS:
            given, state = self.counts_of(operands(value), state)
        for operand in operands(value):
            state = self.use(operand, state)
        kind = self.kind(place)
        return self.put(place, self.whole(kind) if self.code.carries(kind) else given, origin, state)

    def counts_of(self, given, state):
        """Returns whether a number is put into the counts of a report, and the state after that: the counts hold it now."""
        numbers = {int(o[1][1]) for o in given if head(o) == 'copy' and 'number' in state.get(int(o[1][1]), NOTHING)}
        after = {**state, **{n: state[n] - {'number'} for n in numbers}}
        return frozenset({'number'} if numbers else ()), after

    def call(self, name, arguments, place, state):
        for argument in arguments:
            state = self.use(argument, state, name)
        kind = self.kind(place)
        if self.code.carries(kind) and name not in self.code.functions and not is_std(name, PASSED_ON):
            self.no(f'takes a tally from `{short(name)}`, whose statements are not in the print')
        given = frozenset({CHOSEN: {'sample'}, NUMBER: {'number'}}.get(name, NOTHING))
        parts = self.whole(kind) if self.code.carries(kind) else given
        return self.put(place, parts, f'that `{short(name)}` gives', state)


class Reported(Ways):
    """Notes how far the function is: it has no answer yet; it has one; its answer is reported, by the line, by a record or by a
    function that took it. With an answer it only takes that apart: it does no arithmetic, makes no other call, and stores only parts of the answer and
    the number of its tally. After the report it stores nothing, and calls nothing but what takes the line's length out of its Some."""

    NONE, ANSWERED, DONE = range(3)

    def __init__(self, code, function, reporting):
        self.reporting = reporting
        set_by = {}
        for s in statements(function.body):
            if s[0] == 'call':
                set_by.setdefault(int(s[3][1]), set()).add(callee(s))
            if s[0] == 'assign':
                moved = s[2][1] if s[2][0] == 'rv_opd' and head(s[2][1]) == 'copy' else None
                part = moved is not None and code.carries(function.types[int(moved[1][1])])
                set_by.setdefault(int(s[1][1]), set()).add('part' if part else 'assigned')
        # the locals that hold nothing but a part of an answer, or the number of its tally
        self.parts = {n for n, by in set_by.items() if by <= {NUMBER, 'part'}}
        super().__init__(code, function)

    def begin(self):
        return self.ANSWERED if any(map(self.code.carries, self.function.parameters())) else self.NONE

    def join(self, states):
        return max(states)

    def of_the_answer(self, operand):
        n = int(operand[1][1]) if head(operand) == 'copy' else None
        return n is not None and (n in self.parts or self.code.carries(self.function.types[n]))

    def assign(self, place, value, state):
        stores = any(step[0] == 'deref' for step in items(place[2]))
        if state and value[0] in ('op1', 'op2'):
            self.no('computes after it has an answer')
        if state and stores and not (state == self.ANSWERED and all(map(self.of_the_answer, operands(value)))):
            self.no('stores a number that is not of the answer')
        return state

    def call(self, name, arguments, place, state):
        takes = any(head(a) == 'copy' and self.code.carries(self.kind(a[1])) for a in arguments)
        if state == self.DONE and name != LENGTH:
            self.no(f'calls `{short(name)}` after its answer is reported')
        elif state == self.ANSWERED and not takes and name not in (*REPORTS.values(), *REFUSALS):
            self.no(f'calls `{short(name)}` while it has an answer')
        if self.code.carries(self.kind(place)):
            return self.ANSWERED
        return self.DONE if name in REPORTS.values() or name in self.reporting else state
