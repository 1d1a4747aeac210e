#!/usr/bin/env python3
"""Turns the Proof.antt files of a crate, which walk the code by hand, into Answers.antt and Invariants.antt.

usage: python3 tools/answers.py NAMES CRATE     NAMES: the folder that `rt check --generated NAMES --old-names` wrote in the crate's folder

It needs the functions' names of places and goals, old and new, from NAMES/names.json. An answer that is only `search rules` goes: the check
finds it. What it could not turn it prints as 'look:'. Run it once, before any edit by hand; `rt check` decides.
"""
import json, os, re, sys

ITEM = re.compile(r"^((?:abbrev |unfoldable |pub )*)([^\s:]+(?: [^\s:]+)*) :(?=\s)")


def alike(n):
    return re.sub(r"[-_]", "", n).lower()


def items(text):
    """The head (comments and imports), and the items below it, each with the comment before it."""
    lines = text.split("\n")
    head, i = [], 0
    while i < len(lines) and (lines[i].startswith(("--", "use ", "open ")) or not lines[i].strip()):
        head.append(lines[i])
        i += 1
    # a comment right above the first item belongs to it
    back = []
    while head and head[-1].startswith("--") and any(h.startswith("use ") for h in head):
        back.insert(0, head.pop())
    lines = back + lines[i:]
    out, cur, pending = [], None, []
    for l in lines:
        if l.startswith("--") and (cur is None or not cur or not cur[-1].strip() or True) and not l.startswith("---"):
            pending.append(l)
            continue
        m = ITEM.match(l)
        if m:
            cur = pending + [l]
            pending = []
            out.append((m.group(2), cur))
        elif cur is not None:
            cur.extend(pending)
            pending = []
            cur.append(l)
        else:
            cur = pending + [l]
            pending = []
            out.append(("", cur))
    return head, [(n, "\n".join(b).rstrip()) for n, b in out]


def nested(digits, names):
    """`.1.0` of clauses that were pairs within pairs, by the clause's name; what follows stays."""
    i = 0
    while i < len(names) - 1 and digits and digits[0] == "1":
        i, digits = i + 1, digits[1:]
    if i < len(names) - 1:
        if not digits or digits[0] != "0":
            return ["1"] * i + digits
        digits = digits[1:]
    return [label(names[i]), *digits]


def flat(body, n):
    """The n parts of pairs within pairs, or None."""
    parts = parts_of(body)
    if parts is None or n < 2:
        return None
    parts = [q.strip() for q in parts]
    if len(parts) == n:
        return parts
    if len(parts) == 2 and n > 2:
        rest = flat(parts[1], n - 1)
        return None if rest is None else [parts[0], *rest]
    return None


def last_term(body):
    """The lets of a term, and the term behind them."""
    depth, cut = 0, 0
    for m in re.finditer(r"[(\[{]|[)\]}]|\bin(?=\s)", body):
        t = m.group(0)
        if t in "([{":
            depth += 1
        elif t in ")]}":
            depth -= 1
        elif depth == 0:
            cut = m.end()
    return body[:cut], body[cut:].strip()


class Function:
    def __init__(self, key, of, path):
        self.key, self.of, self.path = key, of, path
        self.steps = {}
        self.fields = {}
        for i, p in enumerate(of["places"]):
            old, new = p[2]
            if old:
                self.steps.setdefault(alike(old), new)
                c = of["clauses"][i]
                if c and c.get("fields"):
                    self.fields.setdefault(alike(old), c["fields"])
        self.arms = {}
        for a in of["arms"]:
            if a:
                for new, step, sub in a[2]:
                    if not new.endswith("-own"):
                        self.arms.setdefault((alike(step), tuple(sub)), f"{a[0]}.{new}")
        self.goals = {alike(o): n for o, n in of["needs"]}
        self.own = {}
        for a in of["arms"]:
            if a:
                for new, step, sub in a[2]:
                    if new.endswith("-own"):
                        self.own.setdefault(alike(step), a[0])

    def place(self, head, rest, looks):
        """The new place of `c.head.rest`."""
        if head in ("args", "ranges", "requires", "captures", "type_inv", "utf8", "auto"):
            return ".".join([head, *rest])
        a = alike(head)
        for n in range(len(rest), 0, -1):
            hit = self.arms.get((a, tuple(rest[:n])))
            if hit:
                return ".".join([hit, *rest[n:]])
        if a not in self.steps:
            looks.append(f"no step {head}")
            return ".".join([head, *rest])
        new = self.steps[a]
        if rest and rest[0] == "ensures" and a in self.fields:
            names = self.fields[a]
            if len(names) == 1 and names[0]:
                rest = ["ensures", label(names[0]), *rest[1:]]
            elif len(names) > 1 and len(rest) > 1 and rest[1].isdigit():
                rest = ["ensures", *nested(rest[1:], names)]
        return ".".join([new, *rest])

    def turn(self, body, looks):
        aliases = {"c"}
        more = True
        while more:
            found = {m.group(1) for m in re.finditer(r"\blet (\w+) = (?:%s)(?:\.before)* in" % "|".join(aliases), body)}
            more = not found <= aliases
            aliases |= found

        def one(m):
            rest = [x for x in m.group(2).split(".") if x]
            i = 0
            while i < len(rest) and rest[i] == "before":
                i += 1
            if i == len(rest):
                return m.group(1) if m.group(1) == "c" else m.group(1)
            return m.group(1) + "." + self.place(rest[i], rest[i + 1:], looks)

        names = "|".join(sorted(aliases))
        told = {}
        for m in re.finditer(r"\blet (\w+) = (?:%s)(?:\.before)*\.([\w\-]+)\.ensures in" % names, body):
            fields = self.fields.get(alike(m.group(2)))
            if fields and len(fields) > 1:
                told[m.group(1)] = fields
        body = re.sub(r"(?<![\w'\-.])(%s)((?:\.[A-Za-z0-9_'\-\u2080]+)+)" % names, one, body)
        for var, fields in told.items():
            body = re.sub(r"(?<![\w'\-.])%s((?:\.[01])+)" % var, lambda m: var + "." + ".".join(nested(m.group(1)[1:].split("."), fields)), body)
        return body


def label(n):
    return "\u00ab" + n + "\u00bb" if n in ("record", "data", "open", "in", "as", "module", "where", "let", "use", "mod", "pub") else n


def parts_of(body):
    """The parts of a tuple that is the whole of a term, or None."""
    if not (body.startswith("(") and body.endswith(")")):
        return None
    depth, parts, cur = 0, [], ""
    for i, ch in enumerate(body[1:-1]):
        depth += (ch in "([{") - (ch in ")]}")
        if depth < 0:
            return None
        if ch == "," and depth == 0:
            parts.append(cur)
            cur = ""
        else:
            cur += ch
    return parts + [cur]


def convert(p, of, key, module):
    f = Function(key, of, p)
    text = open(p, encoding="utf-8").read()
    head, parts = items(text)
    looks = []
    uses = [h for h in head if h.startswith("use ") and not re.search(r"\.(Statement\.\{statement\}|Tie as tie)", h)]
    top = [h for h in head if h.startswith("--")]
    answers, invariants, local = [], [], []
    for name, text in parts:
        m = re.search(r"(?m)^(?:pub |abbrev )*" + re.escape(name) + r" : (.*)$", text)
        typ = m.group(1) if m else ""
        if re.match(r"tie\.(invariant|decreases)", typ):
            invariants.append((name, text))
        elif typ.startswith("tie.Need-"):
            need = typ.split()[0][len("tie.Need-"):]
            comment = [l for l in text.split("\n") if l.startswith("--")]
            lines = [l for l in text.split("\n") if not l.startswith("--")]
            new = f.goals.get(alike(need)) or next((n for o, n in of["needs"] if alike(n) == alike(need)), None)
            sig = lines[0]
            unf = [l for l in lines[1:] if l.startswith("unfolding")]
            body = "\n".join(l for l in lines[1:] if not l.startswith("unfolding"))
            b = re.match(re.escape(name) + r"((?: [^\s=]+)*) =\s*", body)
            if not b:
                looks.append(f"no equation of {name}")
                continue
            args, body = b.group(1).split(), body[b.end():]
            if body.strip() == "search rules" and not unf:
                continue
            if new is None:
                if body.strip() != "search rules":
                    looks.append(f"no goal for {need}: {body.strip()[:160]}")
                continue
            if len(args) > 1 and re.search(r"(?<![\w'])" + args[1] + r"(?![\w'])", body):
                looks.append(f"{name} uses {args[1]}")
            body = f.turn(body, looks)
            asked = next((a for o, a in of["asked"].items() if f.goals.get(alike(o)) == new), None)
            if asked and len(asked) == 1 and asked[0]:
                body = "record { " + label(asked[0]) + " = " + body.strip() + " }"
            elif asked and len(asked) > 1 and re.match(r"search\b", body.strip()):
                body = "record { " + "; ".join(f"{label(n)} = {body.strip()}" for n in asked) + " }"
            elif asked and len(asked) > 1:
                lets, last = last_term(body)
                parted = flat(last, len(asked))
                if parted:
                    body = lets + ("\n    " if lets else "") + "record { " + "; ".join(f"{label(n)} = {q.strip()}" for n, q in zip(asked, parted)) + " }"
                else:
                    looks.append(f"{new} wants the clauses {asked}: {body.strip()[:80]}")
            sep = "\n    " if "\n" in body.strip() else " "
            body = body.strip("\n")
            eq = f"{new} c =" + (("\n" + (body if body.startswith("    ") else "    " + body)) if "\n" in body else " " + body.strip())
            answers.append("\n".join(comment + [f"pub {new} : goal.{new}"] + unf + [eq]))
        elif "statement M" in typ or name.endswith(("-spec", "_spec")):
            continue
        elif text.strip():
            if re.search(r"(?<![\w'])tie\.", text):
                looks.append(f"{name} names tie")
            local.append(text)
    folder = os.path.dirname(p)
    out = []
    if answers:
        t = "\n".join(top + uses + [f"use {module}.Goals as goal"]) + "\n\n"
        t += "\n\n".join(local + answers) + "\n"
        out.append(("Answers.antt", t))
    elif local:
        looks.append("lemmas that nothing cites: " + ", ".join(re.findall(r"(?m)^(\S+) :", "\n".join(local))))
    if invariants:
        inv = []
        loops = of["loops"]
        for name, text in invariants:
            kind = "invariant" if name.startswith("invariant") or "invariant" in text.split("\n")[0] else "decreases"
            text = "\n".join(l for l in text.split("\n"))
            b = re.search(r"(?m)^" + re.escape(name) + r"((?: [^\s=]+)*) =\s*", text)
            args = b.group(1).split()
            body = text[b.end():].strip("\n")
            comment = [l for l in text.split("\n") if l.startswith("--")]
            unf = [l for l in text.split("\n") if l.startswith("unfolding")]
            # which loop
            old = re.search(r": tie\.(\S+)", text).group(1)
            number = re.search(r"(\d*)$", old.rsplit("-", 1)[-1]).group(1)
            new, names, changed = loop_of(of, old)
            to = {}
            if names and len(args) == len(names) + sum(changed):
                for a, n, ch in zip(args, names, changed):
                    to[a] = "l.initial." + n if ch else "l." + n
                for a, n in zip(args[len(names):], [n for n, ch in zip(names, changed) if ch]):
                    to[a] = "l." + n
            else:
                looks.append(f"{name} has the variables {args}, the loop {names}")
                to = {a: "l.initial." + a[:-1] if a.endswith("\u2080") else "l." + a for a in args}

            def var(m):
                return to.get(m.group(0), m.group(0))
            body = re.sub(r"(?<![\w'\-.])[A-Za-z_][\w'\-]*\u2080?(?![\w'\-])", var, body)
            nm = f"{kind}-{new}"
            eq = f"{nm} l =" + ("\n" + body if "\n" in body else " " + body.strip())
            inv.append("\n".join(comment + [f"abbrev pub {nm} : goal.{nm}"] + unf + [eq]))
        t = "\n".join(top + uses + [f"use {module}.Given as goal"]) + "\n\n" + "\n\n".join(inv) + "\n"
        out.append(("Invariants.antt", t))
    return out, looks


def loop_of(of, old):
    """The new name of the loop of `invariant-loop` or `decreases-loop2`, its variables, and which of them change."""
    o = re.sub(r"^(invariant|decreases)-", "", old)
    for ((was, new), names), changed in zip(of["loops"], of["changed"]):
        if alike(was) == alike(o):
            return new, names, changed
    return o, [], []


def main():
    names, crate = sys.argv[1:3]
    table = json.load(open(os.path.join(names, "names.json")))
    root = os.path.join("crates", crate)
    done = 0
    for folder, dirs, fs in os.walk(os.path.join(root, "proofs")):
        if "Proof.antt" not in fs:
            continue
        p = os.path.join(folder, "Proof.antt")
        rel = os.path.relpath(folder, os.path.join(root, "proofs")).replace(os.sep, ".")
        key = f"Rattle-{crate}-proofs.{rel}.Lts"
        if key not in table:
            print(f"look: {p}: no {key}")
            continue
        out, looks = convert(p, table[key], key, f"Rattle.{crate}.proofs.{rel}")
        for l in looks:
            print(f"look: {p}: {l}")
        os.remove(p)
        for name, text in out:
            open(os.path.join(folder, name), "w", encoding="utf-8").write(text)
        done += 1
    for folder, dirs, fs in os.walk(os.path.join(root, "proofs"), topdown=False):
        if not os.listdir(folder):
            os.rmdir(folder)
    print(f"answers: {done} files")


main()
