#!/usr/bin/env python3
"""answers.py NAMES.json CRATE_FOLDER [FUNCTION..]: turns each proofs/F/Proof.antt that closes a generated walk into
Invariants.antt and Answers.antt, which today's check reads. NAMES.json is what `rt check --generated DIR --old-names`
writes. A goal whose answer was a bare tactic is left to the check. What it cannot turn stays in the file with a line
`-- TURN:` above it."""
import json
import os
import re
import sys

PATHCH = r"[\w'₀-₉«»κ\-]"
TOKEN = re.compile(r"\s+|--[^\n]*|[(){}\[\];,]|[^\s(){}\[\];,]+")
TRIVIAL = {"search rules", "omega arith", "tt", "search needs", "cc"}


def canon(name):
    return name.replace("_", "-").replace("«", "").replace("»", "")


class Function:
    def __init__(self, key, data):
        self.d = data
        self.places = data["places"]
        self.byold = {canon(p[0]): i for i, p in enumerate(self.places)}
        self.newname = data["places_by_name"]
        self.goals = {}
        for (old, new), (oldplace, newplace) in zip(data["needs"], data["asked_at"]):
            self.goals.setdefault(canon(old), (new, canon(oldplace), newplace))
        self.params = data["params"]

    def chain(self, i):
        out = []
        while i is not None:
            out.append(i)
            parent = self.places[i][1]
            i = self.byold.get(canon(parent)) if parent else None
        return out

    def up(self, place, n):
        i = self.byold.get(place)
        for _ in range(n):
            if i is None:
                return None
            parent = self.places[i][1]
            i = self.byold.get(canon(parent)) if parent else None
        return None if i is None else canon(self.places[i][0])

    def field(self, at, root, path):
        """The new path of the old fields `path` at the place `at`, of a record at the place `root`."""
        step = canon(path[0])
        rest = path[1:]
        if step in ("args", "ranges", "lifetimes", "well-formed", "type-inv"):
            return [path[0]] + rest
        if step in ("requires", "pre"):
            return ["requires"] + rest
        order = []
        for start in (at, root):
            i = self.byold.get(start) if start else None
            if i is not None:
                order += [j for j in self.chain(i) if j not in order]
        order += [j for j in range(len(self.places)) if j not in order]
        best = None
        for j in order:
            arm = self.d["arms"][j]
            if arm:
                for newfield, oldstep, oldpath in arm[2]:
                    if canon(oldstep) == step and rest[:len(oldpath)] == oldpath and (best is None or len(oldpath) > best[0]):
                        best = (len(oldpath), [arm[0], newfield] + rest[len(oldpath):])
            if best and j in order[:max(1, len(order))] and best[0] > 0:
                break
        if best and best[0] > 0:
            return best[1]
        for j in order:
            for name, oldstep in self.d["typed"][j]:
                if canon(oldstep) == step and rest[:1] == ["given"]:
                    return ["type_inv", name] + rest[1:]
        for j in order:
            old, new = self.places[j][2]
            if canon(old) == step:
                if rest and rest[0] in ("new", "auto") and len(rest) > 1:
                    names = self.params.get(self.places[j][3], [])
                    k = 1
                    while k < len(rest) and rest[k] == "1":
                        k += 1
                    if k < len(rest) and rest[k] == "0" and k - 1 < len(names):
                        rest = [rest[0], names[k - 1]] + rest[k + 1:]
                return [new] + rest
        return None


class Turn:
    def __init__(self, fn, helpers, goal=None):
        self.fn, self.helpers, self.goal = fn, helpers, goal
        self.notes = []

    def place_expr(self, tokens, i, env):
        """A place expression that starts at tokens[i]: (end, root, place, text) or None."""
        t = tokens[i]
        m = re.match(rf"^({PATHCH}+)((?:\.before)*)$", t)
        if m and m[1] in env:
            root, place = env[m[1]]
            return i + 1, root, self.fn.up(place, m[2].count(".before")) if place else None
        if t == "(":
            inner = self.skip(tokens, i)
            got = self.applied(tokens, i + 1, inner - 1, env)
            if got:
                return inner, got[0], got[1]
        return None

    @staticmethod
    def assigned(tokens, i):
        """Whether tokens[i] names a field in a record's text."""
        after = [x for x in tokens[i + 1:i + 4] if not x.isspace()]
        before = [x for x in tokens[max(0, i - 6):i] if not x.isspace()]
        return bool(after and after[0] == "=" and before and before[-1] in "{;")

    def skip(self, tokens, i):
        depth = 0
        while i < len(tokens):
            if tokens[i] in "([{":
                depth += 1
            elif tokens[i] in ")]}":
                depth -= 1
                if depth == 0:
                    return i + 1
            i += 1
        return i

    def applied(self, tokens, i, end, env):
        words = [t for t in tokens[i:end] if not t.isspace()]
        if len(words) == 1:
            got = self.place_expr(words, 0, env)
            return got and (got[1], got[2])
        if len(words) >= 2 and words[0] in self.helpers and self.helpers[words[0]][1]:
            got = self.place_expr(words, 1, env)
            if got and got[0] == len(words):
                return got[1], self.helpers[words[0]][1]
        return None

    def text(self, tokens, env):
        out = []
        i = 0
        while i < len(tokens):
            t = tokens[i]
            if t.startswith("--") or t.isspace():
                out.append(t)
                i += 1
                continue
            if t == "let":
                # let v = PLACE in
                j = i + 1
                words = []
                k = j
                while k < len(tokens) and len(words) < 2:
                    if not tokens[k].isspace():
                        words.append((tokens[k], k))
                    k += 1
                if len(words) == 2 and words[1][0] == "=":
                    k = words[1][1] + 1
                    e = k
                    depth = 0
                    while e < len(tokens) and not (tokens[e] == "in" and depth == 0):
                        if tokens[e] == "let":
                            depth += 1
                        if tokens[e] == "in":
                            depth -= 1
                        e += 1
                    got = self.applied(tokens, k, e, env)
                    if got:
                        env = dict(env)
                        env[words[0][0]] = got
                        i = e + 1
                        while i < len(tokens) and tokens[i].isspace() and out and out[-1].isspace():
                            i += 1
                        continue
                out.append(t)
                i += 1
                continue
            # a projection of a group: (..).path
            if t == "(":
                end = self.skip(tokens, i)
                got = self.applied(tokens, i + 1, end - 1, env)
                if got and end < len(tokens) and tokens[end].startswith("."):
                    out.append(self.path(got[0], got[1], tokens[end][1:].split("."), env))
                    i = end + 1
                    continue
                if got:
                    out.append(self.handed(got[0], got[1]))
                    i = end
                    continue
                out.append(t)
                i += 1
                continue
            m = re.match(rf"^({PATHCH}+)((?:\.{PATHCH}+)*)$", t)
            if m and m[1] in env and not m[2] and self.assigned(tokens, i):
                out.append(t)
                i += 1
                continue
            if m and m[1] in env:
                root, place = env[m[1]]
                fields = m[2].split(".")[1:]
                n = 0
                while n < len(fields) and fields[n] == "before":
                    n += 1
                at = self.fn.up(place, n) if place else None
                if n == len(fields):
                    before = [x for x in tokens[:i] if not x.isspace()]
                    helper = before and before[-1].split(".")[0] in self.helpers
                    out.append(self.handed(root, at) if helper or self.goal is None else root)
                else:
                    out.append(self.path(root, at, fields[n:], env))
                i += 1
                continue
            if t.startswith("tie."):
                name = t[4:]
                old = canon(name)
                if old in self.fn.byold:
                    out.append(self.fn.newname[self.fn.byold[old]])
                    self.used_places.add(self.fn.newname[self.fn.byold[old]])
                    # drop the invariants that follow
                    i += 1
                    while i < len(tokens) and (tokens[i].isspace() or re.match(r"^(invariant|decreases)-", tokens[i])):
                        if tokens[i].isspace() and "\n" in tokens[i]:
                            break
                        if tokens[i].isspace() and not (i + 1 < len(tokens) and re.match(r"^(invariant|decreases)-", tokens[i + 1])):
                            break
                        i += 1
                    continue
                self.notes.append("no place " + name)
            out.append(t)
            i += 1
        return "".join(out)

    used_places = set()

    def handed(self, root, at):
        if at is None:
            self.notes.append("place lost")
            return root
        new = self.fn.newname[self.fn.byold[at]]
        if self.goal and root == "c":
            if at == self.goal[1]:
                pass
            return f"(goal.at.{self.goal[0]} c).{new}"
        if self.root_place == at:
            return root
        self.notes.append(f"a helper hands on {new}")
        return f"{root}.{new}"

    root_place = None

    def path(self, root, at, fields, env):
        new = self.fn.field(at, env.get(root, (root, None))[1] if root in env else None, fields)
        if new is None:
            self.notes.append("no field " + ".".join(fields))
            return root + "." + ".".join(fields)
        return root + "." + ".".join(new)


def items(text):
    """The top-level items of a proof file, each with its comments."""
    blocks, now = [], []
    for line in text.split("\n"):
        if line.strip() == "":
            if now:
                blocks.append(now)
            now = []
            continue
        if now and not line.startswith((" ", "\t")) and line.startswith("use ") and not now[-1].startswith(("use ", "--", "  ", "}")):
            blocks.append(now)
            now = []
        now.append(line)
    if now:
        blocks.append(now)
    # join indented continuations (module bodies)
    out = []
    for b in blocks:
        if out and b[0].startswith(" "):
            out[-1] += [""] + b
        else:
            out.append(b)
    return out


def uses(lines):
    """(module, [names]) of use lines in a block, and the other lines."""
    found, rest, i = [], [], 0
    while i < len(lines):
        if lines[i].startswith("use "):
            text = lines[i]
            while text.count("{") > text.count("}"):
                i += 1
                text += " " + lines[i].strip()
            m = re.match(r"use ([^\s{]+?)(?:\.\{(.*)\})?(?: as (\S+))?$", text)
            found.append((m[1], [n.strip() for n in m[2].split(",") if n.strip()] if m[2] else None, m[3]))
        else:
            rest.append(lines[i])
        i += 1
    return found, rest


def needed(found, text):
    toks = set()
    for t in re.findall(r"[^\s(){}\[\];,]+", text):
        toks.add(t)
        toks.add(t.split(".")[0])
    out = []
    for module, names, alias in found:
        if re.search(r"\.(Statement|Tie)$", module) or (alias == "tie"):
            continue
        if names is None:
            if (alias or module.split(".")[-1]) in toks:
                out.append(f"use {module}" + (f" as {alias}" if alias else ""))
            continue
        keep = []
        for n in names:
            name = n.split(" as ")[-1].strip()
            pieces = [p for p in name.split("◌") if p]
            if "◌" in name and all(p in toks or p in "()[]" for p in pieces) or name in toks or name in ("[]",) and "[]" in text:
                keep.append(n)
        if keep:
            out.append(f"use {module}.{{{', '.join(keep)}}}")
    return out


def main():
    names, folder, only = sys.argv[1], sys.argv[2].rstrip("/"), sys.argv[3:]
    data = json.load(open(names))
    for key, d in data.items():
        m = re.match(r"Rattle-(\w+)-proofs\.(.+)\.Lts$", key)
        if not m:
            continue
        crate, name = m[1], m[2]
        path = os.path.join(folder, "proofs", name.replace(".", "/"))
        proof = os.path.join(path, "Proof.antt")
        if not os.path.exists(proof) or (only and name not in only and name.split(".")[-1] not in only):
            continue
        turn_one(Function(key, d), crate, name, path, proof)


def turn_one(fn, crate, name, path, proof):
    text = open(proof, encoding="utf-8").read()
    if "tie.close" not in text:
        print("left:", proof, "no generated walk")
        return
    blocks = items(text)
    found, top = [], []
    helpers = {}
    sigs = []
    for b in blocks:
        f, rest = uses(b)
        found += f
        rest = [l for l in rest if not re.match(r"(pub )?mod ", l)]
        if rest:
            sigs.append(rest)
    head_comment = []
    if sigs and all(l.startswith("--") for l in sigs[0]):
        head_comment = sigs.pop(0)
    # helper signatures
    for b in sigs:
        code = [l for l in b if not l.startswith("--")]
        if not code:
            continue
        m = re.match(r"(?:abbrev |pub |unfoldable )*(\S+) : (.*)$", code[0])
        if not m or m[1].startswith("module"):
            continue
        sig = m[2]
        for l in code[1:]:
            if re.match(r"^\s", l):
                sig += " " + l.strip()
            else:
                break
        strip = re.sub(r" (invariant|decreases)-[\w\-]+", "", sig)
        mm = re.match(r"^(?:\((\w+) : )?tie\.([\w\-]+)\)?(.*)$", strip)
        if mm and not mm[2].startswith(("Need-", "invariant", "decreases")):
            target = re.match(r"^ → tie\.([\w\-]+)$", mm[3])
            helpers[m[1]] = (canon(mm[2]), canon(target[1]) if target else None)
    invariants, answers = [], []
    Turn.used_places = set()
    for b in sigs:
        comments = [l for l in b if l.startswith("--")]
        code = [l for l in b if not l.startswith("--")]
        if not code:
            head_comment += comments
            continue
        first = code[0]
        m = re.match(r"((?:abbrev |pub |unfoldable )*)(\S+) : (.*)$", first)
        if m and re.match(r"\{M : Type 1\} → statement", m[3]):
            continue
        if m and re.match(r"tie\.(invariant|decreases)-", m[3]):
            invariants.append((comments, turn_invariant(fn, m[2], code)))
            continue
        if m and m[3].startswith("tie.Need-"):
            got = turn_goal(fn, helpers, m[2], m[3], code)
            if got:
                answers.append((comments, got))
            continue
        if m and m[2] in helpers and helpers[m[2]][1]:
            continue
        answers.append((comments, turn_helper(fn, helpers, m[2] if m else None, code)))
    base = f"Rattle.{crate}.proofs.{name}"
    if invariants:
        body = "\n\n".join("\n".join(c + [t]) for c, t in invariants)
        lines = head_comment + needed(found, body) + [f"use {base}.Given as goal", "", body, ""]
        open(os.path.join(path, "Invariants.antt"), "w").write("\n".join(lines))
    if answers:
        body = "\n\n".join("\n".join(c + [t]) for c, t in answers)
        lines = ([] if invariants else head_comment) + needed(found, body) + [f"use {base}.Goals as goal"]
        places = sorted(p for p in Turn.used_places if re.search(rf"(?<![\w.\-]){re.escape(p)}(?![\w\-])", body))
        if places:
            lines.append(f"use {base}.Goals.{{{', '.join(places)}}}")
        open(os.path.join(path, "Answers.antt"), "w").write("\n".join(lines + ["", body, ""]))
    os.rename(proof, proof + ".old")
    print("turned:", name, "TURN" if "-- TURN" in "".join(t for _, t in answers) else "")


def split_equation(code):
    """Signature lines, an unfolding line, and the equations' lines."""
    i = 1
    while i < len(code) and code[i].startswith((" ", "\t")):
        i += 1
    unf = []
    while i < len(code) and code[i].startswith("unfolding"):
        unf.append(code[i])
        i += 1
    return code[:i - len(unf)], unf, code[i:]


def turn_invariant(fn, name, code):
    sig, unf, eq = split_equation(code)
    kind = "invariant" if name.startswith("invariant") else "decreases"
    m = re.match(rf"^{re.escape(name)}((?: \S+)*?) =\s*(.*)$", eq[0], re.S)
    args = m[1].split()
    body = "\n".join([m[2]] + eq[1:])
    loop = canon(name.split("-", 1)[1])
    index = 0
    for k, (names, variables) in enumerate(fn.d["loops"]):
        if canon(names[0]) == loop:
            index = k
    names, variables = fn.d["loops"][index]
    changed = fn.d["changed"][index]
    new = {}
    note = ""
    want = len(variables) + sum(changed)
    if len(args) != want:
        note = f"-- TURN: {len(args)} arguments, {want} wanted: {variables} {changed}\n"
    order = [("l.initial." if ch else "l.") + v for v, ch in zip(variables, changed)]
    order += ["l." + v for v, ch in zip(variables, changed) if ch]
    for a, o in zip(args, order):
        new[a] = o
    # by name, where the arguments tell: a name with a subscript 0 is the value when the loop began
    if len(args) != want:
        new = {}
        for a in args:
            bare = a.replace("₀", "").replace("-", "_")
            new[a] = ("l.initial." if a.endswith("₀") else "l.") + bare

    def one(found):
        word = found[0]
        head, dot, rest = word.partition(".")
        return new[head] + dot + rest if head in new else word
    body = re.sub(rf"(?<![\w.\-]){PATHCH}+(?:\.{PATHCH}+)*", one, body)
    full = f"{kind}-{names[1]}"
    joint = "\n" if body.startswith("\n") else " "
    return note + f"abbrev pub {full} : goal.{full}\n" + "".join(u + "\n" for u in unf) + f"{full} l ={joint}{body.lstrip(chr(10)) if joint == chr(10) else body}"


def turn_goal(fn, helpers, name, type_, code):
    need = re.match(r"tie\.Need-(\S+)", type_)[1]
    sig, unf, eq = split_equation(code)
    got = fn.goals.get(canon(name)) or fn.goals.get(canon(need))
    m = re.match(rf"^{re.escape(name)}((?: \S+)*?) =\s*(.*)$", eq[0], re.S) if eq else None
    body = "\n".join([m[2]] + eq[1:]) if m else None
    if body is not None and " ".join(body.split()) in TRIVIAL:
        return None
    if not got:
        return f"-- TURN: no goal for {name} ({need})\n-- " + "\n-- ".join(code)
    goal, place, newplace = got
    turn = Turn(fn, helpers, (goal, place))
    turn.root_place = place
    args = m[1].split()
    env = {args[0]: ("c", place)}
    text = turn.text(TOKEN.findall(body), env)
    note = f"-- TURN: {'; '.join(turn.notes)}\n" if turn.notes else ""
    joint = "\n" if "\n" in text or body.startswith("\n") else " "
    text = text.lstrip("\n")
    if joint == "\n" and not text.startswith(" "):
        text = "    " + text
    return note + f"pub {goal} : goal.{goal}\n" + "".join(u + "\n" for u in unf) + f"{goal} c ={joint}{text}"


def turn_helper(fn, helpers, name, code):
    text = "\n".join(code)
    turn = Turn(fn, helpers)
    if name in helpers:
        place = helpers[name][0]
        turn.root_place = place
        sig, unf, eq = split_equation(code)
        env = {}
        m = re.match(rf"^{re.escape(name)} (\S+)", eq[0]) if eq else None
        binder = re.match(r"\S.* : \((\w+) : tie\.", sig[0])
        if binder:
            env[binder[1]] = (binder[1], place)
        head = turn.text(TOKEN.findall("\n".join(sig)), dict(env))
        if m:
            env[m[1]] = (m[1], place)
        body = turn.text(TOKEN.findall("\n".join(eq)), dict(env))
        # the left side's own variable was read as handed on: it stays
        text = head + "\n" + "".join(u + "\n" for u in unf) + body
    else:
        if "tie." in text:
            binder = re.search(r"\((\w+) : tie\.([\w\-]+)", text)
            env = {binder[1]: (binder[1], canon(binder[2]))} if binder else {}
            if binder:
                turn.root_place = canon(binder[2])
            text = turn.text(TOKEN.findall(text), env)
            turn.notes.append("a module or a definition over a place")
    note = f"-- TURN: {'; '.join(turn.notes)}\n" if turn.notes else ""
    return note + text


main()
