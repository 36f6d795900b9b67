#!/usr/bin/env python3
"""Turns proofs/F/Proof.antt of an older Rattle into Invariants.antt and Answers.antt.

usage: tools/answers.py NAMES.json FOLDER_OF_CRATE [--only F]..

NAMES.json is what `rt check --generated DIR --old-names` writes in the crate. An answer that is only `search rules` goes,
since Rattle tries that itself. A fact about a place becomes one about the record of the goal that cites it. A file that
it cannot read stays, and a line that begins 'left:' says so.
"""
import json
import os
import re
import sys

WORD = r"[^\s(){}\[\].;,@\"«»]+"


CLAUSES = {}


def outside_binders(text, name, to):
    """The term with a name replaced where no λ and no quantifier of its own binds it."""
    word = re.compile(r"(?<![\w.'-])" + re.escape(name) + r"(?![\w'₀-])")
    hidden = []
    for m in re.finditer(r"λ (?:[^\s.()]+ )*" + re.escape(name) + r"(?: [^\s.()]+)*\. |λ \((?:[^\s.()]+ )*" + re.escape(name) + r"(?: [^\s.():]+)* : [^()]*\)\. |\((?:[^\s():]+ )*" + re.escape(name) + r"(?: [^\s():]+)* : [^()]*\) (?:→|×) ", text):
        deep, k = 0, m.end()
        while k < len(text):
            deep += text[k] in "({["
            deep -= text[k] in ")}]"
            if deep < 0:
                break
            k += 1
        hidden.append((m.start(), k))
    return word.sub(lambda m: m[0] if any(a <= m.start() < b for a, b in hidden) else to, text)


def norm(s):
    return s.replace("-", "_")


def by_name(names, path):
    """A path into facts joined pairwise, as A × (B × C), by the clauses' names."""
    if len(names) < 2:
        return path
    k = 0
    while k < len(path) and path[k] == "1" and k < len(names) - 1:
        k += 1
    if k == len(names) - 1:
        return [names[k]] + path[k:]
    if k < len(path) and path[k] == "0":
        return [names[k]] + path[k + 1 :]
    return path


def place_in(names, k):
    """The path of the k-th of such facts."""
    return ".1" * k + (".0" if k < len(names) - 1 else "")


def tuple_parts(inner):
    parts, deep, last = [], 0, 0
    for i, ch in enumerate(inner):
        deep += ch in "({["
        deep -= ch in ")}]"
        if ch == "," and not deep:
            parts.append(inner[last:i])
            last = i + 1
    if inner[last:].strip():
        parts.append(inner[last:])
    return [p.strip() for p in parts]


def same_step(s):
    return re.sub(r"_lem$", "", norm(s).lower())


class Left(Exception):
    pass


def split_top(text):
    """Atoms of an application at depth 0."""
    out, i, n = [], 0, len(text)
    while i < n:
        if text[i].isspace():
            i += 1
            continue
        j, deep = i, 0
        while j < n and (deep or not text[j].isspace()):
            deep += text[j] in "({["
            deep -= text[j] in ")}]"
            j += 1
        out.append(text[i:j])
        i = j
    return out


def section(header, comment, inner):
    """What a section declares, with its parameters written out."""
    params = header[len("module _") : -len("where")].strip() if header.endswith("where") else None
    groups, k = [], 0
    while k < len(params):
        if params[k].isspace():
            k += 1
            continue
        if params[k] not in "({":
            raise Left("reads no " + header[:60])
        deep, j = 0, k
        while True:
            deep += params[j] in "({["
            deep -= params[j] in ")}]"
            j += 1
            if not deep:
                break
        groups.append(params[k:j])
        k = j
    names = []
    for g in groups:
        if g[0] == "(":
            names += g[1:].split(" : ")[0].split()
    cut = min((len(l) - len(l.lstrip()) for l in inner if l.strip()), default=0)
    _, uses, decls = declarations("\n".join(l[cut:] if l.strip() else "" for l in inner))
    if uses:
        raise Left("a section with use lines")
    siblings = [d[1] for d in decls]
    args = " ".join(names)
    out = []
    for d in decls:
        if d[2] == "raw":
            raise Left("a section with a type")
        own = re.sub(r"[ ]+", " ", " ".join(groups)) + " → "
        sig, body = d[3], d[4]
        head = re.match(r"((?:[a-z]+ )*" + re.escape(d[1]) + r"(?: [({][^\n]*?[)}])*) :(\s*)", sig)
        if not head:
            raise Left(f"section's {d[1]}")
        kind, rest = sig[: head.end()].rstrip(), sig[head.end() :]
        clause = re.search(r"(?m)^" + re.escape(d[1]) + r"(?= |$)", body)
        lead, tail = body[: clause.end()], body[clause.end() :]
        lead = re.sub(r"^(unfolding .*)$", r"\1", lead, flags=re.M)
        for s in siblings:
            word = r"(?<![\w.'-])" + re.escape(s) + r"(?![\w'-])"
            rest = re.sub(word, f"({s} {args})" if args else s, rest)
            tail = re.sub(word, f"({s} {args})" if args else s, tail)
        out.append([comment + d[0], d[1], d[2], kind + " " + own + rest, lead + " " + args + tail])
        comment = []
    return out


def declarations(text):
    """(uses, list of (comment, name, words, signature, body)) of a file."""
    lines = text.split("\n")
    uses, decls, comment, i, head = [], [], [], 0, []
    while i < len(lines):
        l = lines[i]
        if not l.strip():
            if comment and not decls and not uses and not head:
                head = comment
                comment = []
            i += 1
            continue
        if l.startswith("--"):
            comment.append(l)
            i += 1
            continue
        if re.match(r"(pub )?use ", l):
            if comment and not uses and not head:
                head, comment = comment, []
            block = l
            while block.count("{") > block.count("}"):
                i += 1
                block += " " + lines[i].strip()
            uses.append(block)
            i += 1
            continue
        if l.startswith("module _ "):
            header = l
            i += 1
            while not re.search(r"\bwhere\s*$", header):
                header += " " + lines[i].strip()
                i += 1
            inner = []
            while i < len(lines) and (not lines[i].strip() or lines[i].startswith((" ", ")", "]"))):
                inner.append(lines[i])
                i += 1
            decls += section(header, [c for c in comment], inner)
            comment = []
            continue
        m = re.match(r"((?:(?:abbrev|unfoldable|pub|data|record|ruleset) )*)(" + WORD + r")(.*)$", l)
        if not m or l.startswith((" ", "module", "mutual", "infix")):
            raise Left("reads no " + l[:60])
        if "data" in m[1].split() or "record" in m[1].split() or "ruleset" in m[1].split():
            block = [l]
            i += 1
            while i < len(lines) and (lines[i].startswith(" ") or not lines[i].strip()):
                block.append(lines[i])
                i += 1
            decls.append([comment, m[2], "raw", "\n".join(block).rstrip(), ""])
            comment = []
            continue
        name = m[2]
        sig = [l]
        i += 1
        while i < len(lines) and lines[i].startswith(" "):
            sig.append(lines[i])
            i += 1
        body = []
        while i < len(lines):
            k = lines[i]
            if k.startswith("unfolding ") or re.match(re.escape(name) + r"(?= |$)", k):
                body.append(k)
            elif body and (k.startswith(" ") or k.startswith(")") or k.startswith("]")):
                body.append(k)
            elif not k.strip() and i + 1 < len(lines) and body and re.match(re.escape(name) + r"(?= |$)", lines[i + 1]):
                pass
            else:
                break
            i += 1
        decls.append([comment, name, m[1].strip(), "\n".join(sig), "\n".join(body)])
        comment = []
    return head, uses, decls


class File:
    def __init__(self, path, info, crate, module):
        self.path, self.info, self.crate, self.module = path, info, crate, module
        with open(path, encoding="utf-8") as f:
            self.head, self.uses, self.decls = declarations(f.read())
        self.places = {}
        for old, parent, step, _, _ in info["places"]:
            self.places[norm(old)] = (norm(parent) if parent else None, step)
        self.arms = {norm(p[0]): a for p, a in zip(info["places"], info["arms"])}
        self.callee = {norm(p[0]): p[3] for p in info["places"]}
        self.typed = {norm(p[0]): {norm(o): n for n, o in ty} for p, ty in zip(info["places"], info["typed"])}
        self.new_name = {}
        for (old, *_), new in zip(info["places"], info["places_by_name"]):
            self.new_name[norm(old)] = new
        self.said = []

    def stands(self, place):
        """Steps that the older Rattle had no place for are passed over."""
        while re.match(r"After_way_told\d*$", place):
            place = self.places[place][0]
        return place

    def parent(self, place, k):
        place = self.stands(place)
        for _ in range(k):
            p = self.places.get(place, (None,))[0]
            if p is None:
                raise Left(f"no place above {place}")
            place = self.stands(p)
        return place

    def arm_field(self, here, old, path):
        """How an arm's record names what the step `old` had at a path of fields: (step, field, how many were used)."""
        best, at = None, self.root_place
        ways = [here]
        while at and at != here:
            ways.append(at)
            at = self.places[at][0]
        for way in ways:
            arm = self.arms.get(way)
            for new, of, fields in arm[2] if arm else []:
                if norm(of) == norm(old) and path[: len(fields)] == fields and (fields or new.endswith("-own")):
                    if best is None or len(fields) > best[2]:
                        best = (arm[0], new if fields else None, len(fields))
            if best:
                return best
        return None

    def is_place(self, word):
        return norm(word) in self.places

    # ---- reading the parts

    def sort(self):
        tie = None
        for u in self.uses:
            m = re.match(r"use (\S+)\.Tie as (\w+)", u)
            if m:
                tie = m[2]
        if not tie:
            raise Left("no Tie")
        self.tie = tie
        self.loops = {}
        for (old, new), variables in self.info["loops"]:
            self.loops[norm(old)] = (new, variables, self.info["changed"][len(self.loops)])
        self.invariants, self.needs, self.helpers, self.accessors, close = [], {}, [], {}, None
        by_name = {d[1]: d for d in self.decls}
        for d in self.decls:
            if re.search(r"\b" + tie + r"\.close\b", d[4]):
                close = d
        if not close:
            raise Left("no close")
        m = re.search(r"\b" + tie + r"\.spec\b(.*)\)\s*$", close[4], re.S)
        if not m:
            if re.search(r"\b" + tie + r"\.spec\s*$", close[4]) or re.search(tie + r"\.close " + tie + r"\.spec", close[4]):
                args = []
            else:
                raise Left("no spec")
        else:
            args = split_top(m[1].strip())
        k = 0
        inv_names = set()
        for it in args:
            d = by_name.get(it)
            if d and re.search(tie + r"\.(invariant|decreases|ghost)", d[3]):
                inv_names.add(it)
                k += 1
            else:
                break
        rest = args[k:]
        needs = self.info["needs"]
        if len(rest) != len(needs):
            raise Left(f"{len(rest)} answers, and {len(needs)} goals: {[n[0] for n in needs]}")
        self.answer_of = {}
        for it, (old, new), at in zip(rest, needs, self.info["asked_at"]):
            self.answer_of.setdefault(it, []).append((new, norm(at[0]), at[1]))
        for d in self.decls:
            if d is close:
                continue
            if d[2] == "raw":
                self.helpers.append(d)
                continue
            m = re.search(tie + r"\.(invariant|decreases)-(" + WORD + r")", d[3])
            if d[1] in inv_names and m:
                self.invariants.append((d, m[1], norm(m[2])))
            elif d[1] in self.answer_of:
                pass
            else:
                acc = self.accessor(d)
                if acc:
                    self.accessors[d[1]] = acc
                else:
                    self.helpers.append(d)
        self.by_name = by_name

    def accessor(self, d):
        sig = re.sub(r"\s+", " ", d[3]).strip()
        sig = sig.split(" : ", 1)[1] if " : " in sig else ""
        m = re.fullmatch(r"(?:\((\w+) : )?" + self.tie + r"\.(" + WORD + r")[^→)]*\)? → " + self.tie + r"\.(" + WORD + r")[^→]*", sig)
        body = self.inline_accessors(d[4])
        b = re.fullmatch(re.escape(d[1]) + r" (\w+) =\s+\(*(\w+)((?:\.before|\))*)\s*", body)
        if m and b and b[1] == b[2]:
            return b[3].count(".before")
        return None

    # ---- rewriting terms

    def flat(self, text, root, place, param):
        """The term with each place's record seen from the root; returns the term and the helpers that it calls."""
        self.root_place, self.steps = root, {}
        text = self.inline_accessors(text)
        # let NAME = PARAM.before.. in
        aliases = {param: 0}
        while True:
            text = self.inline_accessors(text)
            names = "|".join(sorted(map(re.escape, aliases), key=len, reverse=True))
            m = re.search(r"let (" + WORD + r")(?: : " + self.tie + r"\.[^=]*)? =\s+\(?(" + names + r")((?:\.before)*)\)?\s+in\b[ ]?", text)
            if not m:
                break
            name = m[1]
            full = m[2] + m[3]
            before, after = text[: m.start()], text[m.end() :]
            before_line = before.rsplit("\n", 1)[-1]
            if not before_line.strip() and after.startswith("\n"):
                before = before[: len(before) - len(before_line)].rstrip("\n")
            after = re.sub(r"(?<![\w.'-])" + re.escape(name) + r"(?![\w'₀-])", full, after)
            text = before + after
        text = self.inline_accessors(text)
        called = []

        def turn(m):
            rest = m[3] or ""
            if not rest:
                return "c"
            path = rest[1:].split(".")
            name, path = path[0], path[1:]
            known = {"args", "requires", "pre", "ranges", "well", "lifetimes", "well_formed", "measure", "auto"}
            here = place
            while name not in known and here and same_step(name) not in (same_step(self.places[here][1][0]), same_step(self.places[here][1][1])):
                here = self.places[here][0]
            if not here:
                self.said.append(f"{place} has no step {name}")
                return ".".join(["c", name] + path)
            if name in known:
                name = {"pre": "requires", "well": "ranges"}.get(name, name)
                names = self.own_clauses("requires") if name == "requires" and path[:1] and path[0].isdigit() else []
                return ".".join(["c", name] + by_name(names, path))
            old, new = self.places[here][1]
            arm = self.arm_field(here, old, path)
            if arm:
                step, field, used = arm
                if field == "ensures":
                    rest = self.step_path(self.callee_above(here), ["ensures"] + path[used:])
                    return ".".join(["c", step] + rest)
                return ".".join(["c", step] + ([field] if field else []) + path[used:])
            if path[:1] == ["given"] and norm(old) in self.typed.get(root, {}):
                return ".".join(["c", "type_inv", self.typed[root][norm(old)]] + path[1:])
            if path[:1] == ["taken"]:
                path[0] = "true"
            if path[:1] == ["left"]:
                path[0] = "false"
            if path[:1] == ["inv"]:
                path[0] = "invariant"
            self.steps[new] = self.callee.get(here)
            return ".".join(["c", new] + self.step_path(self.callee.get(here), path))

        text = re.sub(r"\((" + re.escape(param) + r"(?:\.before)*)\)", r"\1", text)
        text = re.sub(r"(?<![\w.'-])(" + re.escape(param) + r")((?:\.before)*)((?:\.(?!before\b)[^\s(){}\[\].;,@\"«»]+)*)(?![\w'₀-])", turn, text)
        for m in list(re.finditer(r"let (" + WORD + r") =\s+c\.(" + WORD + r")\s+in\b", text)):
            callee = self.steps.get(m[2])
            if callee:
                name = r"(?<![\w.'-])" + re.escape(m[1]) + r"\.([\w.-]+\w)"
                text = re.sub(name, lambda k: ".".join([m[1]] + self.step_path(callee, k[1].split("."))), text)
        for m in list(re.finditer(r"let (" + WORD + r") =\s+c\.(" + WORD + r")\.ensures\s+in\b", text)):
            names = self.clauses_of(self.steps[m[2]], "ensures") if self.steps.get(m[2]) else []
            if len(names) > 1:
                name = r"(?<![\w.'-])" + re.escape(m[1]) + r"((?:\.\d)+)"
                text = re.sub(name, lambda k: ".".join([m[1]] + by_name(names, k[1][1:].split("."))), text)
        names = self.own_clauses("requires")
        if len(names) > 1:
            for m in list(re.finditer(r"let (" + WORD + r") =\s+c\.requires\s+in\b", text)):
                name = r"(?<![\w.'-])" + re.escape(m[1]) + r"((?:\.\d)+)"
                text = re.sub(name, lambda k: ".".join([m[1]] + by_name(names, k[1][1:].split("."))), text)
        for m in list(re.finditer(r"let (" + WORD + r") =\s+c\.wrapping_\w+u\d+[\w-]*\s+in\b", text)):
            text = re.sub(r"(?<![\w.'-])" + re.escape(m[1]) + r"\.ensures(?!\.)", m[1] + ".ensures.value", text)
        text = re.sub(r"(c\.wrapping_(?:add|sub|mul)_u\d+[\w-]*\.ensures)(?!\.)", r"\1.value", text)
        text = re.sub(r"(?<=\.)inv(?=[.\s)])", "invariant", text)
        text = re.sub(r"ap not \((sym c\.[\w.-]+)\) ∙ (c\.if-not-[\w-]+\.(?:true|false))", r"ap not (\1 ∙ \2)", text)
        text = re.sub(r"\(not-(?:true|false) (?:_|[\w.-]+) (c\.if-not-[^\s(){}.,;]+\.(?:true|false))\)", r"\1", text)
        text = re.sub(r"not-(?:true|false) (?:_|[\w.-]+|\([\w. -]+\)) (c\.if-not-[^\s(){}.,;]+\.(?:true|false))", r"\1", text)
        return text

    def inline_accessors(self, text):
        for _ in range(20):
            old = text
            for name, k in self.accessors.items():
                pe = r"(\w+(?:\.before)*|\(\w+(?:\.before)*\))"
                text = re.sub(r"\(" + re.escape(name) + r" " + pe + r"\)", lambda m: m[1].strip("()") + ".before" * k, text)
                text = re.sub(r"(?<![\w.'-])" + re.escape(name) + r" " + pe + r"(?![\w'-])", lambda m: m[1].strip("()") + ".before" * k, text)
            if text == old:
                return text
        return text

    def place_param(self, d):
        """The place and the name of the record that a helper takes first; None if it takes none."""
        m = re.search(self.tie + r"\.(" + WORD + r")", d[3])
        if not m:
            return None
        return norm(m[1])

    def helper_in(self, d, root, root_name, name):
        """A helper's text, over the record of a goal."""
        place = self.place_param(d)
        tie = self.tie
        if place not in self.places:
            raise Left(f"helper {d[1]}: no place {place}")
        if len(re.findall(tie + r"\.", d[3])) != 1:
            raise Left(f"helper {d[1]} cites several places")
        m = re.search(r"\((" + WORD + r") : " + tie + r"\." + WORD + r"[^)]*\)", d[3])
        sig_param = m[1] if m else None
        sig = d[3]
        if m:
            sig = sig[: m.start()] + f"(c : {root_name})" + self.flat(sig[m.end() :], root, place, sig_param)
        else:
            sig = re.sub(tie + r"\." + WORD + r"[^→]*?(?= →|\s*$|\n)", root_name, sig, count=1)
        # the position of the record among the arguments
        before = d[3][: d[3].index(tie + ".")]
        position = len(re.findall(r"→|\(\S[^()]*? : (?!" + tie + r")[^()]*(?:\([^()]*\)[^()]*)*\)", before.split(" : ", 1)[1] if " : " in before else ""))
        binders = re.search(r"\(([^():]+) : [^()]*\) (?:→ )?", before)
        body = []
        lines = d[4].split("\n")
        text = d[4]
        heads = re.findall(r"(?m)^" + re.escape(d[1]) + r"((?: [^\n=]*?)?) =(?= |$)", text)
        if len(heads) != 1:
            raise Left(f"helper {d[1]} has {len(heads)} clauses")
        args = split_top(heads[0])
        # which argument is the record: the first one if the place is the first type
        names_before = 0
        pre = d[3].split(" : ", 1)[1]
        pre = pre[: pre.index(tie + ".")] if tie + "." in pre else pre
        for g in re.findall(r"\(([^():]+) :", pre.rsplit("(", 1)[0] if m else pre):
            names_before += len(g.split())
        flatpre = re.sub(r"\([^()]*(?:\([^()]*\)[^()]*)*\)", "", pre)
        names_before += max(0, flatpre.count("→") - pre.count(") →"))
        if names_before >= len(args):
            raise Left(f"helper {d[1]}: which argument")
        param = args[names_before]
        args[names_before] = "c"
        head = re.search(r"(?m)^" + re.escape(d[1]) + r"(?: [^\n=]*?)? =(?= |$)", text)
        rest = text[head.end() :]
        lead = text[: head.start()]
        if param != "_":
            rest = self.flat(rest, root, place, param)
        sig = re.sub(r"(?<![\w.'-])" + re.escape(d[1]) + r"(?= )", name, sig, count=1)
        return "\n".join(d[0] + [sig, lead + name + " " + " ".join(args) + " =" + rest])

    def calls(self, text):
        text = "\n".join(l for l in text.split("\n") if not l.startswith("--"))
        return [h for h in self.placed if not re.search(r"\blet " + re.escape(h) + r" [=:]", text) and re.search(r"(?<![\w.'-])" + re.escape(h) + r"(?![\w'-]| = )", text)]

    def emit_helper(self, h, root, root_name):
        key = (h, root_name)
        if key in self.instances:
            return self.instances[key]
        n = sum(1 for k in self.instances if k[0] == h)
        name = h if n == 0 else f"{h}-{n + 1}"
        self.instances[key] = name
        text = self.helper_in(self.placed[h], root, root_name, name)
        text = self.with_helpers(text, root, root_name, own=(h, name))
        self.out.append(text)
        self.used_roots.add(root_name)
        return name

    def with_helpers(self, text, root, root_name, own=None):
        for h in self.calls(text):
            if own and h == own[0]:
                continue
            name = self.emit_helper(h, root, root_name)
            turn = lambda l: l if l.startswith("--") else re.sub(r"(?<![\w.'-])" + re.escape(h) + r"(?![\w'-]| = )", name, l)
            text = "\n".join(turn(l) for l in text.split("\n"))
        return text

    def clauses_of(self, path, kind):
        """The names of a function's clauses of a kind, where it has several; path is as in crate::module::f."""
        key = (path, kind)
        if key not in CLAUSES:
            CLAUSES[key] = []
            crate, *module = path.split("::")
            src = os.path.join(os.path.dirname(self.path).split("/proofs/")[0], "..", crate, "src")
            for k in range(len(module) - 1, -1, -1):
                files = [os.path.join(src, *module[:k]) + ".rt"] if k else [os.path.join(src, "lib.rt"), os.path.join(src, "main.rt")]
                for p in files:
                    if os.path.exists(p):
                        with open(p, encoding="utf-8") as f:
                            m = re.search(r"\bfn " + re.escape(module[-1]) + r"\b(.*?)\n *\{", f.read(), re.S)
                        if m:
                            CLAUSES[key] = re.findall(r"\b" + kind + r" (\w+) \{", m[1])
                            return CLAUSES[key]
        return CLAUSES[key]

    def own_clauses(self, kind):
        return self.clauses_of("::".join([self.crate] + [m for m in self.module if not m.startswith("+")]), kind)

    def step_path(self, callee, path):
        """What stands behind a call's step, with its clauses and its arguments by name."""
        if not callee:
            return path
        if path[:1] == ["kept"]:
            path = ["auto"] + path[1:]
        if path[:1] == ["last"]:
            path = ["new"] + path[1:]
        if path[:1] in (["new"], ["auto"]) and callee in self.info["params"]:
            k = 1
            while k < len(path) and path[k] == "1":
                k += 1
            if k < len(path) and path[k] == "0" and k <= len(self.info["params"][callee]):
                path = [path[0], self.info["params"][callee][k - 1]] + path[k + 1 :]
        if path[:1] == ["ensures"] and len(path) > 1 and path[1].isdigit():
            names = self.clauses_of(callee, "ensures")
            path = ["ensures"] + by_name(names, path[1:])
        return path

    def callee_above(self, here):
        while here and not self.callee.get(here):
            here = self.places[here][0]
        return self.callee.get(here) if here else None

    def by_clause(self, goal, rest):
        """A tuple of the facts of several clauses is a record of them by name."""
        names = self.own_clauses("ensures") if goal.startswith("returns") else []
        if goal.endswith("-requires"):
            for here, (parent, step) in self.places.items():
                if step[1] == goal[: -len("-requires")] and self.callee.get(here):
                    names = self.clauses_of(self.callee[here], "requires")
        if len(names) < 2:
            return rest
        text = rest.rstrip()
        m = re.search(r"(?:\A|\bin)\s+(?!let )([a-z][\w'-]*)( [^\n]*(?:\n(?!.*\bin\b).*)*)$", text)
        if m and m[1] in self.placed or m and m[1] in self.by_name:
            return text[: m.start(1)] + f"let told = {m[1]}{m[2]} in record {{ " + " ".join(f"{n} = told{place_in(names, k)};" for k, n in enumerate(names)) + " }"
        if not text.endswith(")"):
            return rest
        deep, k = 0, len(text)
        while k:
            k -= 1
            deep += text[k] in ")}]"
            deep -= text[k] in "({["
            if not deep:
                break
        before = text[:k].rstrip()
        if text[k] != "(" or not (not before or before.endswith((" in", "\nin"))):
            return rest
        parts = tuple_parts(text[k + 1 : -1])
        while len(parts) < len(names) and parts[-1].startswith("(") and tuple_parts(parts[-1][1:-1])[1:]:
            parts[-1:] = tuple_parts(parts[-1][1:-1])
        if len(parts) != len(names):
            self.said.append(f"{goal} has {len(parts)} parts, and the function {len(names)} clauses")
            return rest
        return text[:k] + "record { " + " ".join(f"{n} = {p};" for n, p in zip(names, parts)) + " }"

    # ---- the files

    def run(self):
        self.sort()
        tie = self.tie
        path = ".".join(self.module)
        base = f"Rattle.{self.crate}.proofs.{path}"
        self.placed = {d[1]: d for d in self.helpers if d[2] != "raw" and self.place_param(d)}
        plain = [d for d in self.helpers if d[1] not in self.placed]
        self.instances, self.out, self.used_roots = {}, [], set()
        # invariants
        inv = []
        for d, kind, loop in self.invariants:
            if loop not in self.loops:
                raise Left(f"no loop {loop}: {list(self.loops)}")
            new, variables, changed = self.loops[loop]
            head = re.search(r"(?m)^" + re.escape(d[1]) + r"((?: [^\n=]*?)?) =(?= |$)", d[4])
            binders = split_top(head[1])
            rest = d[4][head.end() :]
            entry = [(v, "l." + v if not c else "l.initial." + v) for v, c in zip(variables, changed)]
            now = [(v, "l." + v) for v, c in zip(variables, changed) if c]
            want = entry + now
            if len(binders) != len(want):
                raise Left(f"{d[1]}: {len(binders)} binders {binders} for {len(want)} {want}")
            live = "live" if re.search(r"λ (?:\w+ )*l[ .]|\([^():]*\bl [^():]*: |\(l : ", rest) else "l"
            for b, (v, to) in zip(binders, want):
                if b == "_":
                    continue
                rest = outside_binders(rest, b, "\0" + to[2:] + "\0")
            rest = re.sub("\0([^\0]*)\0", live + r".\1", rest)
            lead = d[4][: head.start()]
            inv.append("\n".join(d[0] + [f"abbrev pub {kind}-{new} : goal.{kind}-{new}", f"{lead}{kind}-{new} {live} ={rest}"]))
        inv_text = "\n\n".join(inv)
        shared = []
        for d in plain:
            if re.search(r"(?<![\w.'-])" + re.escape(d[1]) + r"(?![\w'-])", inv_text + "\n".join(shared_text(s) for s in shared)):
                shared.append(d)
        grow = True
        while grow:
            grow = False
            for d in plain:
                if d not in shared and any(re.search(r"(?<![\w.'-])" + re.escape(d[1]) + r"(?![\w'-])", shared_text(s)) for s in shared):
                    shared.append(d)
                    grow = True
        shared = [d for d in plain if d in shared]
        rest_plain = [d for d in plain if d not in shared]
        # answers
        for d in self.decls:
            if d in rest_plain:
                text = d[3] if d[2] == "raw" else d[3] + "\n" + d[4]
                self.out.append("\n".join(d[0] + [text]))
                continue
            for new, place, root in self.answer_of.get(d[1], []):
                self.used_root = root
                text = d[4]
                heads = re.findall(r"(?m)^" + re.escape(d[1]) + r"((?: [^\n=]*?)?) =(?= |$)", text)
                if len(heads) != 1:
                    raise Left(f"answer {d[1]} has {len(heads)} clauses")
                args = split_top(heads[0])
                head = re.search(r"(?m)^" + re.escape(d[1]) + r"(?: [^\n=]*?)? =(?= |$)", text)
                lead, rest = text[: head.start()], text[head.end() :]
                if rest.strip() in ("search rules", "omega arith") and "unfolding" not in lead:
                    continue
                param = args[0] if args else "c"
                extra = args[1:]
                if len(args) > 1 and re.fullmatch(r"t|n", args[0]) and args[1] == "c":
                    param, extra = args[1], args[2:]
                    first = [args[0], "c"]
                else:
                    first = ["c"]
                extra = [a for a in extra if a not in ("κs", "_")]
                if param != "_":
                    rest = self.flat(rest, place, place, param)
                rest = self.by_clause(new, rest)
                text = f"pub {new} : goal.{new}\n{lead}{new} {' '.join(first + extra)} ={rest}"
                text = self.with_helpers(text, place, root)
                self.out.append("\n".join(d[0] + [text]))
        for it, where in self.answer_of.items():
            if it not in self.by_name:
                for new, place, root in where:
                    m = re.fullmatch(r"\(λ (\w+)((?: \w+)*)\. (.*)\)", it, re.S)
                    if m and m[3].strip() in ("search rules", "omega arith"):
                        continue
                    if m:
                        rest = self.flat(" " + m[3], place, place, m[1])
                        text = f"pub {new} : goal.{new}\n{new} c ={rest}"
                        self.out.append(self.with_helpers(text, place, root))
                    elif it != "_":
                        raise Left(f"the answer {it}")
        uses = [u for u in self.uses if not re.search(r"\.(Statement|Tie)(\b|\.)", u) or base not in u]
        folder = os.path.dirname(self.path)
        head = self.head
        made = []
        if inv or shared:
            texts = ["\n".join(d[0] + [("pub " if not re.match(r".*\bpub\b", d[3].split(":")[0]) and d[2] != "raw" else "") + d[3] + "\n" + d[4]]) if d[2] != "raw" else "\n".join(d[0] + [re.sub(r"^(data|record)", r"pub \1", d[3])]) for d in shared]
            texts = [re.sub(r"(?m)^pub (abbrev|unfoldable) ", r"\1 pub ", t) for t in texts]
            body = "\n\n".join(texts + [inv_text] * bool(inv))
            uses, body = own_rules(uses, body)
            text = "\n".join(head[:1] + [h for h in head[1:] if True] + needed(uses, body) + [f"use {base}.Given as goal"]) + "\n\n" + body + "\n"
            made.append(("Invariants.antt", text))
        if self.out:
            body = "\n\n".join(self.out)
            uses, body = own_rules(uses, body)
            more = [f"use {base}.Goals as goal"]
            roots = sorted(r for r in self.used_roots)
            if roots:
                more.append(f"use {base}.Goals.{{{', '.join(roots)}}}")
            cited = [d[1] for d in shared if re.search(r"(?<![\w.'-])" + re.escape(d[1]) + r"(?![\w'-])", body)]
            if cited:
                more.append(f"use {base}.Invariants.{{{', '.join(cited)}}}")
            first = head if not made else head[:1]
            text = "\n".join(first + needed(uses, body) + more) + "\n\n" + body + "\n"
            made.append(("Answers.antt", text))
        for name, text in made:
            with open(os.path.join(folder, name), "w", encoding="utf-8") as f:
                f.write(text)
        os.remove(self.path)
        if not made:
            try:
                os.removedirs(folder)
            except OSError:
                pass
        return [n for n, _ in made]


def shared_text(d):
    return d[3] + "\n" + d[4]


def own_rules(uses, body):
    """The tactic's set goes by another name where the crate's own `rules` is imported."""
    if not any("Author.Rules" not in u and "Common" not in u and re.search(r"[{ ,]rules[,} ]", u) for u in uses):
        return uses, body
    body = re.sub(r"\bsearch rules\b", "search std_rules", body)
    body = re.sub(r"\bsearch \(rules\b", "search (std_rules", body)
    cut = lambda u: re.sub(r"\{rules, |, rules(?=[,}])", lambda m: "{" if m[0][0] == "{" else "", u)
    uses = [cut(u) if "proofs.Common" in u else u for u in uses if "Author.Rules" not in u]
    return uses + ["use borrow.Author.Rules.{rules as std_rules}"], body


def needed(uses, body):
    """The use lines whose names the text has."""
    out = []
    for u in uses:
        m = re.match(r"(use \S+?)\.?\{(.*)\}\s*$", u)
        if not m:
            m2 = re.match(r"use \S+ as (\S+)", u)
            if m2 and not re.search(r"(?<![\w.'-])" + re.escape(m2[1]) + r"(?![\w'-])", body):
                continue
            out.append(u)
            continue
        keep = []
        for n in [x.strip() for x in m[2].split(",") if x.strip()]:
            word = n.split(" as ")[-1].strip().strip("«»")
            if "◌" not in word:
                if re.search(r"(?<![\w'-])" + re.escape(word) + r"(?![\w'-])", body):
                    keep.append(n)
                continue
            parts = [p for p in word.split("◌") if p]
            if all(p in body for p in parts) or not parts:
                keep.append(n)
        if keep:
            out.append(f"{m[1]}.{{{', '.join(keep)}}}")
    return out


def main(argv):
    with open(argv[0], encoding="utf-8") as f:
        names = json.load(f)
    crate_dir = argv[1].rstrip("/")
    crate = os.path.basename(os.path.abspath(crate_dir))
    only = [argv[i + 1] for i, a in enumerate(argv) if a == "--only"]
    done = left = 0
    for folder, _, files in sorted(os.walk(os.path.join(crate_dir, "proofs"))):
        if "Proof.antt" not in files:
            continue
        module = os.path.relpath(folder, os.path.join(crate_dir, "proofs")).split(os.sep)
        if only and "/".join(module) not in only:
            continue
        key = f"Rattle-{crate}-proofs." + ".".join(module) + ".Lts"
        info = names.get(key)
        try:
            if not info:
                raise Left("no names for it")
            it = File(os.path.join(folder, "Proof.antt"), info, crate, module)
            made = it.run()
            done += 1
            for s in sorted(set(it.said)):
                print(f"look: {'/'.join(module)}: {s}")
        except Left as e:
            left += 1
            print(f"left: {'/'.join(module)}: {e}")
    print(f"answers: {done} turned, {left} left")


if __name__ == "__main__":
    main(sys.argv[1:])
