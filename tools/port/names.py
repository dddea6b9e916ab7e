#!/usr/bin/env python3
"""names.py [--say]: turn the names of this repository's own definitions, lemmas and fields to today's spelling, over
crates/, README.md, docs/ and tools/. Run once, after the kit's port.py; docs/PORT.md says when. With --say it only prints
what it would rename.

Words are in snake case. A dash stays in a name only after a word of the library, as in `length-packed`."""
import collections
import os
import re
import sys

ROOT = os.path.dirname(os.path.dirname(os.path.dirname(os.path.abspath(__file__))))
NAME = re.compile(r"[A-Za-z0-9_«»₀-₉']+(?:-[A-Za-z0-9_«»₀-₉']+)*")
HEAD = re.compile(r"^(\s*)((?:(?:unfoldable|abbrev|pub|data|record|ruleset) )*)([^\s:(){}.,]+)((?: \(.*?\)| \{.*?\})*)\s*:(\s|$)")
# Words of the library that lemmas of this repository speak of.
LIBRARY = {"length", "get_or"}
# names.txt: new names where the rule would let two names fall together, and variables that have no definition.
OTHER = {}
OTHER_FILE = os.path.join(os.path.dirname(os.path.abspath(__file__)), "names.txt")


def files(*ends):
    for top in ("crates", "docs", "tools", "rust", "include"):
        for folder, dirs, names in os.walk(os.path.join(ROOT, top)):
            dirs[:] = sorted(d for d in dirs if d not in ("out", "target", "port", "data", "__pycache__"))
            for name in sorted(names):
                if name.endswith(ends):
                    yield os.path.join(folder, name)


def read(path):
    with open(path, encoding="utf-8") as text:
        return text.read()


def definitions():
    """What each name is: the definitions and lemmas of specs/ and of the lemma files, and the fields of records."""
    words, fields = collections.defaultdict(set), collections.defaultdict(set)
    for path in files(".antt"):
        inside = None
        proof = os.path.basename(path) == "Proof.antt"
        for line in read(path).split("\n"):
            found = HEAD.match(line)
            if inside is not None and line.strip() and len(line) - len(line.lstrip()) <= inside:
                inside = None
            if not found:
                continue
            indent, marks, name = len(found[1]), found[2], found[3]
            rest = line[found.end(4):]
            if inside is not None:
                fields[name].add(path)
            elif not (proof and ("tie." in rest or name.endswith("-spec"))) and name not in ("use", "where", "let"):
                words[name].add(path)
            if "record " in marks and line.rstrip().endswith("where"):
                inside = indent
    return words, fields


def snake(name, known):
    parts = re.sub(r"(?<=[a-z0-9])(?=[A-Z])", "\0", name) if not name[0].isupper() else name
    parts = re.sub("\0([A-Z])", lambda m: "_" + m[1].lower(), parts)
    if "-" not in parts:
        return parts
    pieces = parts.split("-")
    text = pieces[0]
    for at in range(1, len(pieces)):
        text += ("-" if at == 1 and pieces[0] in known else "_") + pieces[at]
    return text


def mapping():
    words, fields = definitions()
    if os.path.exists(OTHER_FILE):
        for line in read(OTHER_FILE).split("\n"):
            if line.strip():
                old, new = line.split()
                OTHER[old] = new
    known = LIBRARY
    turned = {}
    for name in list(words) + list(fields):
        new = OTHER.get(name, snake(name, known))
        if new != name:
            turned[name] = new
    turned.update(OTHER)
    return turned, words, fields


def turn(text, turned, fields, words):
    def one(found):
        name = found[0]
        new = turned.get(name)
        if new is None:
            return name
        if found.start() and text[found.start() - 1] == "." and name not in fields and not re.search(r"(?:Rattle[\w.'·]*|[A-Z]\w*)\.$", text[max(0, found.start() - 120):found.start()]):
            return name
        return new
    return NAME.sub(one, text)


def main():
    turned, words, fields = mapping()
    if "--say" in sys.argv:
        for old in sorted(turned):
            print(old, turned[old], "field" if old in fields else "", "word" if old in words else "")
        back = collections.defaultdict(list)
        for name in set(words) | set(fields):
            back[turned.get(name, name)].append(name)
        for new, olds in sorted(back.items()):
            if len(olds) > 1:
                print("TOGETHER", new, olds)
        for path in files(".antt", ".rt"):
            tokens = set(NAME.findall(read(path)))
            for old in tokens & set(turned):
                if turned[old] in tokens:
                    print("MEETS", os.path.relpath(path, ROOT), old, turned[old])
        return
    for path in list(files(".antt", ".rt", ".edit", ".md", ".py", ".txt")) + [os.path.join(ROOT, "README.md")]:
        text = read(path)
        camel = {o: n for o, n in turned.items() if "-" not in o}
        if path.endswith((".antt", ".edit")):
            new = turn(text, turned, fields, words)
        elif path.endswith(".rt"):
            new = turn(text, camel, fields, words)
        else:
            new = turn(text, camel, fields, words)
            new = re.sub(r"`[^`\n]+`", lambda m: turn(m[0], turned, fields, words), new)
        if new != text:
            with open(path, "w", encoding="utf-8") as out:
                out.write(new)


main()
