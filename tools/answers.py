#!/usr/bin/env python3
"""Turns hand-written proofs of the older toolchain, proofs/F/Proof.antt, to Invariants.antt and Answers.antt.

usage: tools/answers.py CRATE NAMES      at the top of the repository

NAMES is a folder that `rt check --generated NAMES --old-names` wrote for the crate: it says for each function which
goals and steps the older toolchain named, and how today's names them. What was only said to be searched for is left
out, since the check tries that by itself. It prints what it could not turn; the check decides.
"""
import json
import os
import re
import sys

NAME = r"[A-Za-zα-ωΑ-Ω_κ][A-Za-z0-9_'₀-₉ℕακ-]*"
PATH = re.compile(r"(?<![\w.'-])(" + NAME + r")((?:\." + r"(?:[A-Za-z_][\w'-]*|\d+)" + r")+)?(?![\w'-])")


def norm(name):
    name = re.sub(r"_lem$", "", name)
    return name.replace("-", "_").lower()


def read(path):
    with open(path, encoding="utf-8") as f:
        return f.read()


def parts(text):
    """The comment at the head, the use items, and the declarations: (comments, signature lines, body lines)."""
    lines = text.split("\n")
    head, uses, decls, i = [], [], [], 0
    while i < len(lines) and lines[i].startswith("--"):
        head.append(lines[i])
        i += 1
    while i < len(lines):
        line = lines[i]
        if line.startswith("use "):
            item = [line]
            while "{" in item[-1] and "}" not in "".join(item):
                i += 1
                item.append(lines[i])
            uses.append("\n".join(item))
            i += 1
        elif not line.strip():
            i += 1
        else:
            break
    block, blocks = [], []
    for line in lines[i:]:
        if line and not line[0].isspace() and block and not block[-1].strip():
            blocks.append(block)
            block = []
        block.append(line)
    if block:
        blocks.append(block)
    return head, uses, [[l for l in b] for b in blocks if any(l.strip() for l in b)]


class Function:
    def __init__(self, facts):
        self.facts = facts
        self.parent, self.row = {}, {}
        for row, clauses, arms, named in zip(facts["places"], facts["clauses"], facts["arms"], facts["places_by_name"]):
            self.row[row[0]] = (row, clauses, arms)
        self.goals = {}
        self.place = {}
        for (old, new), at in zip(facts["needs"], facts["asked_at"]):
            self.place[new] = at[0]
        self.old = {new: old for old, new in facts["needs"]}

    def above(self, place):
        found = []
        while place is not None and place in self.row:
            found.append(place)
            place = self.row[place][0][1]
        return found

    def steps(self, place):
        """What stands on the way to a place: older step -> (new step, clause fields), and older paths of arms."""
        steps, arms = {}, []
        places = self.above(place) if place else list(self.row)
        for p in reversed(places):
            row, clauses, arm = self.row[p]
            old, new = row[2]
            if old:
                steps[norm(old)] = (new, clauses["fields"] if clauses else None)
            if arm:
                for field, step, path in arm[2]:
                    arms.append((norm(step), path, arm[0], field))
        return steps, arms


def take(fields, path):
    """The clause that a path of nested pairs leads to, and what is left of the path."""
    k = 0
    while True:
        if not path:
            return None, path
        if path[0] == "0":
            return fields[k], path[1:]
        if path[0] != "1":
            return None, path
        path = path[1:]
        k += 1
        if k == len(fields) - 1:
            return fields[k], path


class Turner:
    def __init__(self, fn, place, said):
        self.fn, self.said, self.place = fn, said, place
        self.steps, self.arms = fn.steps(place)
        self.lets = {}
        self.root = "c"

    def resolve(self, root, comps):
        """The path from c, with no 'before', or None where the root is something else."""
        comps = [c for c in comps if c != "before"]
        if root == self.root:
            return comps
        if root in self.lets:
            return self.lets[root] + comps
        return None

    def turned(self, comps):
        if not comps:
            return "c"
        step, rest = norm(comps[0]), comps[1:]
        if step in ("well_formed", "type_inv"):
            return ".".join(["c", step, *rest])
        if comps[0] in ("args", "ranges", "type_inv", "well_formed", "lifetimes"):
            return ".".join(["c", *comps])
        if comps[0] == "requires":
            pre = self.fn.facts.get("pre")
            if pre and rest:
                field, left = take(pre["fields"], rest)
                if field:
                    return ".".join(["c", "requires", field, *left])
            return ".".join(["c", *comps])
        best = None
        for s, path, arm, field in self.arms:
            if s == step and path and rest[: len(path)] == path:
                if best is None or len(path) >= len(best[0]):
                    best = (path, arm, field)
        if best:
            path, arm, field = best
            return ".".join(["c", arm, field, *rest[len(path):]])
        for s, path, arm, field in reversed(self.arms):
            if s == step and not path:
                return ".".join(["c", field, *rest])
        if step in self.steps:
            new, fields = self.steps[step]
            if rest and rest[0] == "ensures" and fields and len(fields) > 1 and len(rest) > 1:
                field, left = take(fields, rest[1:])
                if field:
                    return ".".join(["c", new, "ensures", field, *left])
            return ".".join(["c", new, *rest])
        return None

    def body(self, text):
        # lets that are paths from c
        out, at = [], 0
        let = re.compile(r"let (" + NAME + r") = (" + NAME + r")((?:\.(?:[A-Za-z_][\w'-]*|\d+))*) in[ \n]?[ ]*")
        while True:
            m = let.search(text, at)
            if not m:
                out.append(self.paths(text[at:]))
                break
            out.append(self.paths(text[at:m.start()]))
            comps = m.group(3).split(".")[1:] if m.group(3) else []
            path = self.resolve(m.group(2), comps)
            if path is None:
                out.append(self.paths(m.group(0)))
            else:
                is_value = path and path[0] in ("args",) and len(path) > 1
                if is_value:
                    self.lets.pop(m.group(1), None)
                    out.append(f"let {m.group(1)} = {self.turned(path)} in" + m.group(0)[m.group(0).rindex(" in") + 3:])
                else:
                    self.lets[m.group(1)] = path
                    # keep the line break of what comes after
            at = m.end()
        return "".join(out)

    def paths(self, text):
        def one(m):
            root, rest = m.group(1), m.group(2) or ""
            comps = rest.split(".")[1:]
            path = self.resolve(root, comps)
            if path is None:
                return m.group(0).replace(".taken", ".true").replace(".left", ".false") if root == "w" else m.group(0)
            new = self.turned(path)
            if new is None:
                self.said.append(f"not turned: {m.group(0)}")
                return ".".join(["c", *path])
            return new

        return PATH.sub(one, text)


def plain_tests(text):
    """A test of a negated call says by itself today what the lemma made of it."""
    return re.sub(r"\(?not[-_](?:true|false) _ (c\.if-not-[\w-]+\.(?:true|false))\)?", lambda m: m.group(1) if m.group(0).startswith("(") == m.group(0).endswith(")") else m.group(0), text)


HELPER = re.compile(r"^(?:abbrev |unfoldable )?(?:pub )?(" + NAME + r") : (?:\((" + NAME + r") : tie\.(\S+?)((?: [^()]*)?)\)|tie\.(\S+)((?: invariant-\S+| decreases-\S+)*))\s*→\s*(.*)$", re.S)


def split_pair(expr):
    """The parts of a parenthesized tuple that is the whole expression, or None."""
    e = expr.strip()
    if not (e.startswith("(") and e.endswith(")")):
        return None
    depth, cuts = 0, []
    for i, ch in enumerate(e):
        if ch in "([{":
            depth += 1
        elif ch in ")]}":
            depth -= 1
            if depth == 0 and i < len(e) - 1:
                return None
        elif ch == "," and depth == 1:
            cuts.append(i)
    if not cuts:
        return None
    cuts = [0, *cuts, len(e) - 1]
    found = [e[a + 1: b].strip() for a, b in zip(cuts, cuts[1:])]
    return found[:-1] if not found[-1] else found


def last_in(body):
    """Where the expression after the last top-level ' in' begins."""
    depth, at, i = 0, 0, 0
    while i < len(body):
        ch = body[i]
        if ch in "([{":
            depth += 1
        elif ch in ")]}":
            depth -= 1
        elif depth == 0 and body[i: i + 3] == " in" and (i + 3 == len(body) or body[i + 3] in " \n"):
            at = i + 3
        i += 1
    return at


def as_record(body, fields):
    at = last_in(body)
    head, tail = body[:at], body[at:]
    pieces = split_pair(tail)
    if pieces and len(pieces) > len(fields):
        pieces = pieces[: len(fields) - 1] + ["(" + ", ".join(pieces[len(fields) - 1:]) + ")"]
    if pieces and len(pieces) == len(fields):
        inner = "; ".join(f"{f} = {p}" for f, p in zip(fields, pieces))
        return head + (" " if head else "") + "record { " + inner + " }"
    if pieces and len(pieces) == 2:
        more = as_pairs(pieces[1], fields[1:])
        inner = "; ".join([f"{fields[0]} = {pieces[0]}"] + more)
        return head + (" " if head else "") + "record { " + inner + " }"
    whole = tail.strip()
    paths, path = [], "said"
    for k in range(len(fields)):
        paths.append(path + ".0" if k < len(fields) - 1 else path)
        path += ".1"
    return head + (" " if head else "") + f"let said = {whole} in record {{ " + "; ".join(f"{f} = {p}" for f, p in zip(fields, paths)) + " }"


def as_pairs(expr, fields):
    if len(fields) == 1:
        return [f"{fields[0]} = {expr}"]
    pieces = split_pair(expr)
    if pieces and len(pieces) >= 2:
        rest = pieces[1] if len(pieces) == 2 else "(" + ", ".join(pieces[1:]) + ")"
        return [f"{fields[0]} = {pieces[0]}"] + as_pairs(rest, fields[1:])
    return [f"{f} = {expr}" + ".1" * k + (".0" if k < len(fields) - 1 else "") for k, f in enumerate(fields)]


def arguments_of(text):
    """The arguments of tie.spec, in order."""
    i = text.find("tie.spec")
    if i < 0:
        return []
    i += len("tie.spec")
    found, depth, word = [], 0, ""
    while i < len(text):
        ch = text[i]
        if ch in "([{":
            depth += 1
        if ch in ")]}":
            if depth == 0:
                break
            depth -= 1
        if ch.isspace() and depth == 0:
            if word:
                found.append(word)
            word = ""
        else:
            word += ch
        i += 1
    if word:
        found.append(word)
    return found


def words_in(text):
    return set(re.findall(r"[^\s(){}\[\],;]+", text))


SEARCHED = re.compile(r"^\(λ c( κs)?\. (search rules|omega arith)\)$")


def convert(root, crate, key, facts, said):
    where = key.split("-proofs.", 1)[1]
    where = where[: -len(".Lts")]
    folder = os.path.join(root, "crates", crate, "proofs", *where.split("."))
    path = os.path.join(folder, "Proof.antt")
    if not os.path.isfile(path):
        return
    text = read(path)
    if "tie.close" not in text:
        said.append(f"{path}: walks by hand")
        return
    here = []
    head, uses, blocks = parts(text)
    fn = Function(facts)
    olds = [old for old, new in facts["needs"]]
    decls = []
    for b in blocks:
        comments = []
        while b and b[0].startswith("--"):
            comments.append(b.pop(0))
        while b and not b[-1].strip():
            b.pop()
        if b:
            decls.append((comments, b))
    spec = next((b for _, b in decls if re.match(r"(pub )?\S+-spec :", b[0]) or re.match(r"(pub )?\S+_spec :", b[0])), None)
    args = arguments_of("\n".join(spec)) if spec else []
    spec_unfoldings = [l for l in (spec or []) if l.startswith("unfolding")]
    loops = len(facts["loops"])
    rows = {}
    invariants, measures = [], []
    goal_args = []
    names = {}
    for comments, b in decls:
        m = re.match(r"(?:abbrev )?(?:pub )?(" + NAME + r") : tie\.(invariant|decreases)-(.*)$", b[0])
        if m:
            rows[m.group(1)] = (m.group(2), m.group(3))
    for a in args:
        if a in rows:
            continue
        goal_args.append(a)
    by_place = {}
    if len(goal_args) == len(facts["needs"]):
        for a, (old, new) in zip(goal_args, facts["needs"]):
            by_place[a] = new
    else:
        here.append(f"{len(goal_args)} arguments, {len(facts['needs'])} goals")
    # old loop -> new loop, with its variables
    loop_of = {}
    for (old, new), variables in facts["loops"]:
        loop_of[norm(old)] = (new, variables)
    changed = facts["changed"]
    inv_out, ans_out = [], []
    renamed, helpers = {}, []
    for comments, b in decls:
        m = re.match(r"(?:pub )?(" + NAME + r") : tie\.Need-(\S+)(.*)$", b[0])
        if m and b is not spec:
            name, need = m.group(1), m.group(2)
            new = by_place.get(name)
            cands = [n for o, n in facts["needs"] if norm(o) == norm(need) or norm(n) == norm(need) or norm(o) == norm(name)]
            if new is None and len(cands) == 1:
                new = cands[0]
            if new:
                renamed[name] = new

    def lets_for(text, turner, done=()):
        """The helpers that a text cites, as lets in their order."""
        needed = []
        for name, typ, var1, body, var2, unfold in helpers:
            if name not in done and re.search(r"(?<![\w.'-])" + re.escape(name) + r"(?![\w'-])", text):
                needed.append(name)
        more = True
        while more:
            more = False
            for h in helpers:
                if h[0] in needed:
                    for g in helpers:
                        if g[0] not in needed and re.search(r"(?<![\w.'-])" + re.escape(g[0]) + r"(?![\w'-])", h[1] + " " + h[3]):
                            needed.append(g[0])
                            more = True
        out, unfoldings = "", []
        for name, typ, var1, body, var2, unfold in helpers:
            if name not in needed:
                continue
            t = Turner(fn, turner.place, here)
            t.root = var1
            ty = strip_uses(t.body(typ)) if var1 else typ
            t = Turner(fn, turner.place, here)
            t.root = var2
            bo = strip_uses(plain_tests(t.body(body)))
            out += f"\n    let {name} : {' '.join(ty.split())} = {' '.join(bo.split())} in"
            unfoldings += unfold
        return out, unfoldings

    def strip_uses(text):
        for h in helpers:
            text = re.sub(r"\((" + re.escape(h[0]) + r") (?:c|k|m|e|f)\)(?![\w'-])", r"\1", text)
            text = re.sub(r"(?<![\w.'-])(" + re.escape(h[0]) + r") (?:c|k|m|e|f)(?![\w'.-])", r"\1", text)
        return text

    for comments, b in decls:
        if b is spec or "tie." not in "\n".join(b):
            continue
        m = HELPER.match("\n".join(b))
        if not m or "tie.Need" in b[0] or re.match(r"(?:abbrev )?(?:pub )?\S+ : tie\.(invariant|decreases)", b[0]):
            continue
        name = m.group(1)
        k = next((i for i, l in enumerate(b) if i and re.match(re.escape(name) + r"(\s|$)", l)), None)
        if k is None:
            continue
        unfold = [l for l in b[:k] if l.startswith("unfolding")]
        sig = "\n".join(l for l in b[:k] if not l.startswith("unfolding"))
        m = HELPER.match(sig)
        eq = re.match(re.escape(name) + r" (\S+) =(.*)$", "\n".join(b[k:]), re.S)
        if not eq or "tie." in m.group(7):
            continue
        helpers.append((name, m.group(7).strip(), m.group(2), eq.group(2).strip(), eq.group(1), unfold))
    helped = {h[0] for h in helpers}

    for comments, b in decls:
        if b is spec:
            continue
        m = re.match(r"(?:abbrev )?(?:pub )?(" + NAME + r") :", b[0])
        if m and m.group(1) in helped and "tie." in "\n".join(b) and "tie.Need" not in b[0]:
            continue
        m = re.match(r"(?:abbrev )?(?:pub )?(" + NAME + r") : tie\.(invariant|decreases)-(.*)$", b[0])
        if m:
            kind, loop = m.group(2), m.group(3).strip()
            if norm(loop) in loop_of:
                new, variables = loop_of[norm(loop)]
                k = [norm(o[0][0]) for o in facts["loops"]].index(norm(loop))
                moved = changed[k]
                body = "\n".join(b[1:])
                eq = re.match(r"\S+((?: [^\s=]+)*) =(.*)$", body, re.S)
                params, rest = eq.group(1).split(), eq.group(2)
                table = {}
                firsts = params[: len(variables)]
                for v, p, c in zip(variables, firsts, moved):
                    table[p] = f"l.initial.{v}" if c else f"l.{v}"
                for v, p in zip([v for v, c in zip(variables, moved) if c], params[len(variables):]):
                    table[p] = f"l.{v}"
                if len(params) != len(variables) + sum(moved):
                    here.append(f"{kind}-{loop}: {len(params)} parameters for {variables} {moved}")
                rest = re.sub(r"(?<![\w.'-])(" + NAME + r")(?![\w'-])", lambda q: table.get(q.group(1), q.group(1)), rest)
                inv_out.append("\n".join([*comments, f"abbrev pub {kind}-{new} : goal.{kind}-{new}", f"{kind}-{new} l ={rest}"]))
            else:
                here.append(f"no loop {loop}")
            continue
        sig_end = next((i for i, l in enumerate(b) if i and re.match(re.escape(re.match(r"(?:abbrev |unfoldable )?(?:pub )?(\S+)", b[0]).group(1)) + r"(\s|$)", l)), None)
        m = re.match(r"(?:pub )?(" + NAME + r") : tie\.Need-(\S+)(.*)$", b[0])
        if m and sig_end:
            name, need = m.group(1), m.group(2)
            new = by_place.get(name)
            if new is None:
                cands = [n for o, n in facts["needs"] if norm(o) == norm(need) or norm(n) == norm(need) or norm(o) == norm(name)]
                if len(cands) == 1:
                    new = cands[0]
            if new is None:
                here.append(f"no goal for {name} : {need}")
                new = name
            middle = b[1:sig_end]
            body = "\n".join(b[sig_end:])
            eq = re.match(re.escape(name) + r"((?: [^\s=]+)*) =(.*)$", body, re.S)
            if not eq:
                here.append(f"{name}: not one equation")
                continue
            rest = eq.group(2)
            t = Turner(fn, fn.place.get(new), here)
            t.root = eq.group(1).split()[0] if eq.group(1).split() else "c"
            rest = strip_uses(plain_tests(t.body(rest)))
            for o, n in renamed.items():
                rest = re.sub(r"(?<![\w.'-])" + re.escape(o) + r"(?![\w'-])", n, rest)
            lets, unfoldings = lets_for(rest, t)
            if lets:
                rest = lets + ("\n    " + rest.strip() if not rest.startswith("\n") else rest)
                for u in unfoldings:
                    if u not in middle:
                        middle = [*middle, u]
            asked = facts["asked"].get(fn.old.get(new, ""), None)
            if asked and len(asked) > 1:
                rest = as_record(rest, asked)
                if not rest.startswith((" ", "\n")):
                    rest = " " + rest
            if not middle and re.fullmatch(r"\s*(search rules|omega arith)\s*", rest):
                continue
            ans_out.append("\n".join([*comments, f"pub {new} : goal.{new}", *middle, f"{new} c ={rest}"]))
        else:
            text_b = "\n".join(b)
            if "tie." in text_b:
                here.append(f"helper with tie: {b[0][:80]}")
                m = re.search(r"\(c : tie\.((?:After|In|At|Then|Else)-\S+|Start)", text_b)
                place = None
                if m:
                    want = norm(m.group(1).rstrip(")"))
                    place = next((p for p in fn.row if norm(p) == want), None)
                t = Turner(fn, place, here)
                text_b = t.body(text_b)
            ans_out.append("\n".join([*comments, text_b]))
    pairs = list(zip(goal_args, [new for old, new in facts["needs"]])) if by_place else []
    if spec_unfoldings and not by_place:
        here.append("unfolding at the whole")
    for a, new in pairs:
        if a.startswith("(") and (not SEARCHED.match(a) or spec_unfoldings and new.startswith("returns")):
            m = re.match(r"^\(λ c( κs)?\.\s*(.*)\)$", a, re.S)
            if m:
                t = Turner(fn, fn.place.get(new), here)
                rest = strip_uses(plain_tests(t.body(m.group(2))))
                for o, n in renamed.items():
                    rest = re.sub(r"(?<![\w.'-])" + re.escape(o) + r"(?![\w'-])", n, rest)
                lets, unfoldings = lets_for(rest, t)
                middle = "".join("\n" + u for u in dict.fromkeys([*spec_unfoldings, *unfoldings]))
                rest = lets + "\n    " + rest.strip() if lets else rest
                asked = facts["asked"].get(fn.old.get(new, ""), None)
                if asked and len(asked) > 1:
                    rest = as_record(rest, asked)
                ans_out.append(f"pub {new} : goal.{new}{middle}\n{new} c = {rest.strip()}")
            else:
                here.append(f"argument: {a[:60]}")
    uses = [u for u in uses if ".Statement." not in u and not u.endswith(".Tie as tie") and ".Statement as" not in u]
    base = f"Rattle.{crate}.proofs.{where}"

    def write(name, outs, module):
        body = "\n\n".join(outs) + "\n"
        used = words_in(body)
        keep = []
        for u in uses:
            m = re.match(r"use (\S+)\.\{(.*)\}$", u, re.S)
            if m:
                items = [i.strip() for i in m.group(2).split(",")]
                kept = []
                for i in items:
                    word = i.split(" as ")[-1]
                    core = word.replace("◌", "")
                    if word.count("◌") > 1 and all(re.search(r"(?<![\w'-])" + re.escape(q) + r"(?![\w'-])" if q[0].isalpha() else re.escape(q), body) for q in word.split("◌") if q):
                        kept.append(i)
                    elif any(core and (w == core or w.startswith(core + ".") or ("◌" in word and core in w)) for w in used) or re.search(r"(?<![\w'-])" + re.escape(core) + r"(?![\w'-])", body):
                        kept.append(i)
                if kept:
                    keep.append(f"use {m.group(1)}.{{{', '.join(kept)}}}")
            else:
                word = u.split()[-1]
                if re.search(r"(?<![\w'-])" + re.escape(word) + r"\.", body):
                    keep.append(u)
        keep.append(f"use {base}.{module} as goal")
        with open(os.path.join(folder, name), "w", encoding="utf-8") as f:
            f.write("\n".join([*head, *keep]) + "\n\n" + body)

    if inv_out:
        write("Invariants.antt", inv_out, "Given")
    if ans_out:
        write("Answers.antt", ans_out, "Goals")
    os.remove(path)
    for h in here:
        said.append(f"{folder}: {h}")


def main(argv):
    if len(argv) != 2:
        print(__doc__, file=sys.stderr)
        return 2
    crate, names = argv
    with open(os.path.join(names, "names.json"), encoding="utf-8") as f:
        facts = json.load(f)
    said = []
    for key, value in sorted(facts.items()):
        if "-proofs." in key and key.endswith(".Lts"):
            convert(os.getcwd(), crate, key, value, said)
    for s in said:
        print(s)
    return 0


if __name__ == "__main__":
    sys.exit(main(sys.argv[1:]))
