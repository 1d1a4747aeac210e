#!/usr/bin/env python3
"""Brings the names of this repository's definitions and lemmas to the spelling of today's Rattle: words in snake case.

usage: python3 tools/respell.py [--report]     at the top of the repository, once, after port.py and before any edit by hand

`readOf` becomes `read_of`, `kinds-exact` becomes `kinds_exact`; types, statements and modules keep their capitals. A lemma that would
have a definition's name gets `_lem`. Names that a file imports from the library, goals of functions, functions of src/, strings and the
names of wrong programs stay. Wrong programs, and the papers where they cite a name in backticks, go with it.
"""
import collections, os, re, sys

NAME = re.compile(r"(?<![\w'\-])[A-Za-z][\w'\-]*")
CAMEL = re.compile(r"^[a-z][a-z0-9']*(?:[A-Z0-9][A-Za-z0-9']*)*$")
HEAD = re.compile(r"^(\s*)((?:(?:abbrev|unfoldable|pub|opaque|data|record)\s+)*)([A-Za-z][\w'\-]*(?:\s+[A-Za-z][\w'\-]*)*)\s+:(?:\s|$)")
IMPORT = re.compile(r"^\s*(?:pub\s+)?(?:ghost\s+)?use\s+([^\s{;]+)\.\{([^}]*)\}")
OWN = None
LEMMAS = "line_taken one_more goes_on fed_by kept_by same_text load_at filled_of is_digit is_odd no_words told_over gap_from".split()


def files(top, ends):
    for folder, dirs, names in os.walk(top):
        dirs[:] = sorted(d for d in dirs if d not in ("out", "target", ".git"))
        for n in sorted(names):
            if n.endswith(ends):
                yield os.path.join(folder, n)


def read(p):
    with open(p, encoding="utf-8") as f:
        return f.read()


def is_camel(n):
    return bool(re.match(r"^[a-z]", n)) and bool(re.search(r"[A-Z]", n)) and "-" not in n and not n.startswith("b'")


def snake(n):
    n = n.replace("-", "_")
    n = re.sub(r"([a-z0-9'])([A-Z])", r"\1_\2", n).lower()
    return re.sub(r"(?<=_at|_by)(\d)", r"_\1", n)


def is_goal_file(p):
    """A file of a function's own proof: what it declares by a generated type is the toolchain's name."""
    return bool(re.search(r"/proofs/.*/[A-Z]\w*\.antt$", p)) and os.path.basename(p) in ("Proof.antt", "Answers.antt", "Invariants.antt")


def is_foreign(module):
    own = re.match(r"Rattle[.\u00b7](\w+)", module)
    return not (own and own.group(1) in OWN)


def declared(p, text):
    lines = text.splitlines()
    for i, line in enumerate(lines):
        m = HEAD.match(line)
        if not m:
            continue
        rest = line[m.end():]
        if is_goal_file(p) and not m.group(1) and (re.match(r"\s*(tie|goal)\.", rest) or re.search(r"\bstatement\b", rest) or m.group(3).endswith("-spec")):
            continue
        for n in m.group(3).split():
            yield n, bool(m.group(1)), m.group(2)
    for m in re.finditer(r"[({]((?:[A-Za-z][\w'\-]*\s+)*[A-Za-z][\w'\-]*)\s+:\s", text):
        for n in m.group(1).split():
            yield n, True, ""
    for m in re.finditer(r"\u03bb\s+([\w'\- ]+)\.\s", text):
        for n in m.group(1).split():
            yield n, True, ""


def main():
    global OWN
    report = "--report" in sys.argv
    OWN = set(re.findall(r"^([a-z0-9_]+)\s*[a-z]*:", read("crates.txt"), re.M))
    antt = list(files("crates", (".antt",)))
    texts = {p: read(p) for p in antt}
    names, top = set(), collections.defaultdict(set)
    for p, t in texts.items():
        for n, inner, marks in declared(p, t):
            if is_camel(n) or "-" in n:
                names.add(n)
    goals = set()
    for p, t in texts.items():
        if is_goal_file(p):
            for m in re.finditer(r"^(?:pub\s+)?([\w'\-]+)\s+:\s+(?:\{[^}]*\}\s*(?:\u2192)?\s*)?(?:tie|goal)\.", t, re.M):
                goals.add(m.group(1))
            for m in re.finditer(r"^pub ([\w'\-]+-spec) :", t, re.M):
                goals.add(m.group(1))
    # What every file speaks of, so that two names do not fall together.
    spoken = collections.Counter()
    for p, t in texts.items():
        for m in NAME.finditer(re.sub(r"--.*", "", t)):
            spoken[m.group(0)] += 1
    to = {}
    camel = sorted(n for n in names if is_camel(n))
    for n in camel:
        to[n] = snake(n)
    to["toOne"] = "to_one_entry"  # a field beside it is named to_one
    taken = {}
    for n, s in to.items():
        if s in taken:
            sys.exit(f"{n} and {taken[s]} fall together as {s}")
        taken[s] = n
    # Lemmas that were in snake case already, and would have a definition's name now.
    lemmas = {n: n + "_lem" for n in LEMMAS}
    for n in sorted(n for n in names if "-" in n):
        s = snake(n)
        if s in taken or s in spoken:
            s += "_lem"
        if s in taken or s in spoken:
            sys.exit(f"{n}: {s} is taken")
        taken[s] = n
        to[n] = s
    for n in camel:
        if to[n] in spoken:
            print(f"look: {n} becomes {to[n]}, which is spoken of {spoken[to[n]]} times")

    def respell(text, keep, what):
        def one(m):
            n = m.group(0)
            before = text[m.start() - 1] if m.start() else ""
            if n in lemmas and what.endswith(".antt") and n not in keep and before != "." and text[m.end() : m.end() + 1] != ".":
                return lemmas[n]
            if n in keep or n not in to:
                return n
            if before == "." and "-" in n and not text[: m.start()].endswith(".{"):
                # a place in a goal's context keeps the toolchain's name; a member of a module of ours does not
                head = re.search(r"[\w'\-.\u00b7]*$", text[: m.start()]).group(0)
                if not re.match(r"Rattle", head):
                    return n
            return to[n]
        return NAME.sub(one, text)

    for p in antt:
        t = texts[p]
        keep = set()
        for line in t.splitlines():
            m = IMPORT.match(line)
            if m and is_foreign(m.group(1)):
                keep |= {x.strip().split(" as ")[-1] for x in m.group(2).split(",")}
        if is_goal_file(p):
            keep |= set(m.group(1) for m in re.finditer(r"^(?:pub\s+)?([\w'\-]+)\s+:\s+(?:\{[^}]*\}\s*(?:\u2192)?\s*)?(?:tie|goal)\.", t, re.M))
            keep |= set(re.findall(r"^pub ([\w'\-]+-spec) :", t, re.M))
        new = respell(t, keep, p)
        if report:
            for a, b in zip(t.splitlines(), new.splitlines()):
                if a != b and a.lstrip().startswith("--"):
                    print(f"{p}: {a.strip()} => {b.strip()}")
        elif new != t:
            open(p, "w", encoding="utf-8").write(new)
    for p in files("crates", (".rt",)):
        t = read(p)
        # clauses, imports and comments: Rust's own names have neither capitals after a small letter nor dashes
        new = "".join(l if re.search(r'"[^"]*"', l) and not l.lstrip().startswith("//") and not re.match(r"\s*(ensures|requires|ghost)", l) else respell(l, set(), p) for l in t.splitlines(True))
        if report:
            for a, b in zip(t.splitlines(), new.splitlines()):
                if a != b and a.lstrip().startswith("//"):
                    print(f"{p}: {a.strip()} => {b.strip()}")
        elif new != t:
            open(p, "w", encoding="utf-8").write(new)

    def in_edit(line):
        if not re.match(r"(old|new): ", line):
            return line if not line.startswith("#") else respell(line, set(), "")
        line = respell(line, set(), "")
        return re.sub(r"(?<![\w'\-.\\])[a-z][a-z0-9]*[A-Z][A-Za-z0-9]*(?![\w'\-])", lambda m: m.group(0) if re.match(r"x[0-9A-F]", m.group(0)) else snake(m.group(0)), line)

    for p in list(files("crates", (".edit",))) + list(files("tests", (".edit",))):
        t = read(p)
        new = "".join(in_edit(l) for l in t.splitlines(True))
        if not report and new != t:
            open(p, "w", encoding="utf-8").write(new)

    for p in ["README.md", "CONTRIBUTING.md"] + list(files("docs", (".md",))):
        if p.endswith(("PORT.md", "PORTING-LEFT.md")):
            continue
        t = read(p)
        new = re.sub(r"`[^`\n]+`", lambda m: respell(m.group(0), set(), p) if not re.search(r"[/ ]", m.group(0)) or not re.search(r"\.(md|txt|c|h|sh|edit|rec|plan)\b", m.group(0)) else m.group(0), t)
        new = re.sub(r"`[a-z][a-z0-9]*[A-Z][A-Za-z0-9]*`", lambda m: "`" + snake(m.group(0)[1:-1]) + "`", new)
        if not report and new != t:
            open(p, "w", encoding="utf-8").write(new)
    print(f"respell: {len(to)} names")


main()
