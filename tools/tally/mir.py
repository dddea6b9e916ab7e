"""Reads the code of a crate's functions as `rt check --generated` writes it: typed, with every name resolved. The proofs are about this
program.

Each function has a module Code/Mir, which states its locals, its statements and the types that it names as terms of the logic's
mir.Syntax. This file knows the words of rattle-kit-13f. It raises an error (Unknown) at a term that it does not know and never guesses,
so that a new kit does not go unnoticed."""
import re
from dataclasses import dataclass

STATEMENTS = {'skip', 'return', 'seq', 'assign', 'call', 'cond', 'switch', 'block', 'loop', 'exit', 'unreachable'}
VALUES = {'rv_opd', 'op1', 'op2', 'aggregate', 'repeat', 'addr_of'}
OPERANDS = {'copy', 'int', 'int_neg', 'int_big', 'float', 'opd_true', 'opd_false', 'opd_unit', 'num_of'}
STEPS = {'field', 'variant', 'deref'}

BYTE = ['ty_int', 'w8']
TAG = 'tag'  # the type of the number that says which variant an enum's value is


class Unknown(Exception):
    """Raised if the code has a form that this file does not know."""


@dataclass
class Function:
    name: str
    takes: int  # the number of parameters: local 0 is the result, and the next ones are the parameters
    types: list  # the types of its locals
    body: object

    def parameters(self):
        return self.types[1 : self.takes + 1]


@dataclass
class Program:
    functions: dict  # name: Function
    variants: dict  # name of a struct or enum: the field types of each of its variants; a struct has one
    enums: set

    def type_at(self, function, place):
        """Returns the type of what stands at a place: a local, and the steps from it."""
        kind = function.types[int(place[1])]
        variant = 0
        for step in items(place[2]):
            if step[0] == 'deref':
                kind = step[1]
            elif step[0] == 'variant':
                variant = int(step[1])
            elif step[0] == 'field':
                kind, variant = self.field(kind, variant, int(step[1])), 0
            else:
                raise Unknown(f'the step {show(step)}')
        return kind

    def field(self, kind, variant, number):
        if kind[0] == 'ty_struct':
            return items(kind[2])[number]
        if kind[0] != 'ty_named' or kind[1] not in self.variants:
            raise Unknown(f'a field of {show(kind)}')
        if kind[1] in self.enums and number == 0:
            return TAG
        if kind[1] in self.enums:
            return filled(self.variants[kind[1]][variant][number - 1], items(kind[2]))
        return filled(self.variants[kind[1]][0][number], items(kind[2]))

    def holds(self, kind, wanted, seen=()):
        """Tells whether a value of this type has a wanted part, behind a reference or not."""
        if wanted(kind):
            return True
        if isinstance(kind, str):
            return False
        if kind[0] == 'ty_named':
            if any(self.holds(t, wanted, seen) for t in items(kind[2])):
                return True
            inner = [t for fields in self.variants.get(kind[1], []) for t in fields] if kind[1] not in seen else []
            return any(self.holds(t, wanted, (*seen, kind[1])) for t in inner)
        return any(self.holds(t, wanted, seen) for t in kind[1:] if isinstance(t, list))


def filled(kind, arguments):
    """Puts the arguments of a struct or an enum into the type of one of its fields."""
    if isinstance(kind, str):
        return kind
    if kind[0] == 'ty_param':
        return arguments[int(kind[1])]
    return [kind[0], *(filled(part, arguments) for part in kind[1:])]


def items(term):
    """Returns the members of a list, which stands as cons cells."""
    out = []
    while not isinstance(term, str):
        if term[0] not in ('◌∷◌', 'tcons', 'ttcons') or len(term) != 3:
            raise Unknown(f'a list that begins with {show(term)[:60]}')
        out.append(term[1])
        term = term[2]
    if term not in ('[]', 'tnil', 'ttnil'):
        raise Unknown(f'a list that ends in {term}')
    return out


def show(term):
    return term if isinstance(term, str) else '(' + ' '.join(map(show, term)) + ')'


def head(term):
    return term if isinstance(term, str) else term[0]


def operands(value):
    """Returns the operands of a value. What `addr_of` lends is a place and no operand."""
    if head(value) not in VALUES:
        raise Unknown(f'the value {head(value)}')
    if value[0] == 'addr_of':
        return []
    if value[0] == 'aggregate':
        given = items(value[1])
    else:
        given = {'rv_opd': value[1:2], 'op1': value[2:3], 'op2': value[2:4], 'repeat': value[1:2]}[value[0]]
    for operand in given:
        if head(operand) not in OPERANDS:
            raise Unknown(f'the operand {show(operand)[:60]} of {value[0]}')
    return given


def arms(statement):
    """Returns each arm of a switch: the numbers that it is for (None for the default), and its statements."""
    out, rest = [], statement[2]
    while head(rest) == 'arm':
        out.append(([int(n) for n in items(rest[1])], rest[2]))
        rest = rest[3]
    if head(rest) == 'default':
        out.append((None, rest[1]))
    elif rest != 'no_default':
        raise Unknown(f'the arm {head(rest)}')
    return out


def callee(call):
    """Returns the name of the function that a call calls. A method of a bound, whose impl the caller picks, has no name of a function."""
    if head(call[1]) == 'method':
        return 'a method of a bound'
    if head(call[1]) != 'function':
        raise Unknown(f'the call of {show(call[1])[:60]}')
    return call[1][1]


def type_arguments(call):
    """Returns the types that a call names for the type parameters of what it calls."""
    if head(call[1]) == 'function' and len(call[1]) == 2:
        return []
    return items(pair(call[1][-1])[0])


def statements(body):
    """Yields each assignment, call, branch and loop of a body, in the order of the text."""
    kind = head(body)
    if kind not in STATEMENTS:
        raise Unknown(f'the statement {kind}')
    if kind in ('assign', 'call', 'cond', 'switch', 'loop'):
        yield body
    if kind == 'switch':
        inner = [arm for _, arm in arms(body)]
    else:
        inner = {'seq': body[1:], 'cond': body[2:], 'block': body[1:], 'loop': body[1:]}.get(kind, [])
    for one in inner:
        yield from statements(one)


def calls(body):
    return [s for s in statements(body) if s[0] == 'call']


# Reading a module

WORD = re.compile(r'"(?:[^"\\]|\\.)*"|[(){},;=]|[^\s(){},;="]+')
# The modules whose words are constructors and no definitions of the print.
SYNTAX = {'mir.Syntax', 'mathlib.Core.List', 'mir.Table'}


class Module:
    """The definitions of one module, as terms: a word, or a list of a word and what it is applied to."""

    def __init__(self, text):
        self.aliases = {}
        for path, other in re.findall(r'^use ([^\s{}]+)(?: as (\S+))?$', text, re.M):
            self.aliases[other or path.split('.')[-1]] = path
        self.terms, self.known = {}, {}
        for part in re.split(r'^(?=(?:abbrev|unfoldable|pub)\b)', text, flags=re.M)[1:]:
            found = re.match(r'abbrev pub (\S+) :.*?\n\1 =(?=\s)(.*)\Z', part, re.S)
            if not found:
                raise Unknown(f'the definition {part[:60]!r}')
            self.terms[found[1]] = found[2]

    def term(self, name):
        """Returns a definition, with those that it names written out."""
        if name not in self.known:
            if name not in self.terms:
                raise Unknown(f'the name {name}')
            words = WORD.findall(self.terms[name])
            found, rest = self.whole(words, 0)
            if rest != len(words):
                raise Unknown(f'the end of {name}: {" ".join(words[rest:rest + 5])}')
            self.known[name] = found
        return self.known[name]

    def whole(self, words, at):
        """Reads a word and what it is applied to, and returns where it ends."""
        parts = []
        while at < len(words) and words[at] not in (')', ',', ';', '}'):
            part, at = self.part(words, at)
            parts.append(part)
        if not parts:
            raise Unknown('a term of no words')
        if len(parts) == 1:
            return parts[0], at
        if isinstance(parts[0], list):
            if parts[0][0] != 'function' or len(parts) != 2:
                raise Unknown(f'an application of {show(parts[0])[:60]}')
            return [*parts[0], parts[1]], at
        return self.applied(parts), at

    def applied(self, parts):
        if parts[0] == 'ty_named':
            name, _lifetimes = pair(parts[1])
            return ['ty_named', text_of(name), *parts[2:]]
        return parts

    def part(self, words, at):
        word = words[at]
        if word == '(':
            inner, at = self.whole(words, at + 1)
            if words[at] == ')':
                return inner, at + 1
            members = [inner]
            while words[at] == ',':
                if words[at + 1] == ')':
                    at += 1
                    break
                inner, at = self.whole(words, at + 1)
                members.append(inner)
            if words[at] != ')':
                raise Unknown(f'a bracket that ends at {words[at]}')
            return ['tuple', *members], at + 1
        if word == 'record' and words[at + 1] == '{':
            fields, at = ['record'], at + 2
            while words[at] != '}':
                if words[at + 1] != '=':
                    raise Unknown(f'the field {words[at]}')
                inner, end = self.whole(words, at + 2)
                fields.append([words[at], inner])
                at = end + (words[end] == ';')
            return fields, at + 1
        if word in ('{', '=', ',', ';'):
            raise Unknown(f'the mark {word}')
        return self.named(word), at + 1

    def named(self, word):
        if word in self.terms:
            return self.term(word)
        alias, dot, rest = word.rpartition('.')
        if not dot:
            return word
        path = self.aliases.get(alias)
        if path in SYNTAX:
            return rest
        # a function by its own module of symbols; one of a crate that std is made of stands below std
        found = re.fullmatch(r'Rattle\.(?:std\.below\.)?(\w+)\.proofs\.(.*)\.Symbol', path or '')
        if found and rest in ('name', 'symbol'):
            name = '::'.join([found[1], *found[2].replace('+', '').split('.')])
            return ['function', name] if rest == 'name' else name
        return f'{path or alias}.{rest}'


def pair(term):
    if head(term) != 'tuple' or len(term) != 3:
        raise Unknown(f'the pair {show(term)[:60]}')
    return term[1:]


def text_of(term):
    """Returns the text that a list of numbers spells."""
    return bytes(int(n) for n in items(term)).decode()


def read(prints):
    """Reads the program of several crates. Each is given as the texts of its functions' modules, by the functions' names."""
    program = Program({}, {}, set())
    for texts in prints.values():
        for name, text in texts.items():
            module = Module(text)
            function(program, name, module)
    return program


def function(program, name, module):
    """Reads a function. One whose types need the table of declared types states itself by their names first."""
    said = module.term('by_name' if 'by_name' in module.terms else 'function')
    if head(said) != 'record':
        raise Unknown(f'the function {name}: {show(said)[:60]}')
    fields = dict(said[1:])
    locals_ = []
    for one in items(fields['locals']):
        if head(one) != 'local':
            raise Unknown(f'the local {show(one)[:60]} of {name}')
        locals_.append(one[1])
    program.functions[name] = Function(name, int(fields['params']), locals_, fields['body'])
    for entry in items(module.term('table')) if 'table' in module.terms else []:
        declare(program, entry)


def declare(program, entry):
    """Reads a struct or an enum, which the print repeats beside the functions that use it."""
    if head(entry) != 'tuple' or len(entry) != 4:
        raise Unknown(f'the declaration {show(entry)[:60]}')
    name, shape = text_of(entry[1]), entry[3]
    if head(shape) == 'fields':
        program.variants[name] = [items(shape[1])]
    elif head(shape) == 'variants':
        program.variants[name] = [items(fields) for fields in items(shape[1])]
        program.enums.add(name)
    else:
        raise Unknown(f'the declaration of {name}: {show(shape)[:60]}')
