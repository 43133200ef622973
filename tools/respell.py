#!/usr/bin/env python3
"""Brings this repository's own names in specs/ and proofs/ to snake case: definitions, lemmas and the fields of records of antt.

usage: python3 tools/respell.py [ROOT]      run once, at the top, after port.py of the Rattle kit

A name turns in the file that declares it and in each file that imports it from a crate of this repository; a field turns behind a dot, in a record and
in the record that declares it. What Rattle makes, what the library has, functions of src/, their parameters and the fields of structs stay.
Where a lemma's name would fall together with a definition's, the lemma gets `_lem` behind it. A line `together:` names a file in which a new name stands
already; where that name turns as well, as in all that it prints of this repository, nothing falls together.
"""
import collections
import os
import re
import sys

ROOT = os.path.abspath(sys.argv[1] if len(sys.argv) > 1 else ".")
CRATES = os.path.join(ROOT, "crates")
HEAD = re.compile(r"^(\s*)((?:(?:unfoldable|abbrev|pub)\s+)*)(?:(data|record)\s+)?([^\s(){}.;,@\"«»:?]+)((?:\s|:)[^\n]*)?$")
TOKEN = re.compile(r"\"(?:[^\"\\\n]|\\.)*\"|(?<![^\s(){}.;,@\"«»])--[^\n]*|[^\s(){}.;,@\"«»]+|\s+|.", re.S)
USE = re.compile(r"(?:^|(?<=\s))use\s+Rattle\.(\w+)\.((?:specs|proofs)\.[^\s{;]+?)\.\{([^}]*)\}", re.S)
MODULE = re.compile(r"(?:^|(?<=\s))use\s+Rattle\.(\w+)\.((?:specs|proofs)\.[^\s{;]+)(?:\s+as\s+([^\s;]+))?\s*(?:;|\n)")
WORDS = {"module", "where", "use", "mod", "let", "in", "elim", "unfolding", "infix", "infixl", "infixr", "open", "mutual", "ruleset", "pub", "abbrev", "unfoldable", "record", "data", "λ", "?", "_"}


def snake(name):
    if not re.match(r"[a-z]", name):
        return name.replace("-", "") if re.match(r"[A-Z][a-z]+-[a-z]", name) and name[0] not in "KJ" else name
    out = re.sub(r"(?<=[a-z0-9])(?=[A-Z])", "_", name)
    return out.lower().replace("-", "_") if re.match(r"^[A-Za-z0-9_'-]+$", name) else name


def camel(name):
    return re.sub(r"-([a-z])", lambda m: m.group(1).upper(), name)


def new_name(name):
    if name[0].isupper() and "-" in name:
        return camel(name) if re.match(r"[A-Z][a-z]+-", name) else name.replace("-", "_")
    return snake(name)


def files(kind):
    for folder, dirs, names in os.walk(CRATES):
        dirs[:] = sorted(d for d in dirs if d != "out")
        for n in sorted(names):
            if n.endswith(kind):
                yield os.path.join(folder, n)


def module_of(path):
    parts = os.path.relpath(path, CRATES)[: -len(".antt")].split("/")
    return parts[0], ".".join(parts[1:])


def declared(text):
    """The names that a file declares, and which of them are fields of a record."""
    names, fields = set(), set()
    record = None
    lines = text.split("\n")
    for i, line in enumerate(lines):
        if not line.strip() or line.lstrip().startswith("--"):
            continue
        indent = len(line) - len(line.lstrip())
        if record is not None and indent <= record:
            record = None
        m = HEAD.match(line)
        if not m or m.group(4) in WORDS:
            continue
        marks, kind, name, rest = m.group(2), m.group(3), m.group(4), m.group(5) or ""
        if kind:
            names.add(name)
            if kind == "record":
                record = indent
            continue
        many = re.match(r"((?:\s+[^\s(){}.;,@\"«»:?]+)*)\s*:\s", rest)
        if record is not None:
            if many:
                for it in [name] + many.group(1).split():
                    fields.add(it)
            continue
        if re.match(r"\s*:(\s|$)", rest) or (marks and re.match(r"\s*[({:]", rest)) or (marks and not rest.strip()):
            names.add(name)
        elif not marks and re.match(r"\s+[({].*:\s", rest) and "=" not in rest:
            names.add(name)
        elif many and many.group(1):
            names |= {name, *many.group(1).split()}
    return names, fields


def items(text):
    """(crate, module, [(name, as)]) of each use of an item list of this repository's."""
    for m in USE.finditer(text):
        listed = []
        for it in m.group(3).split(","):
            w = it.split()
            if w:
                listed.append((w[0].strip("«»"), w[2] if len(w) == 3 else None))
        yield m.group(1), m.group(2), listed


def main():
    own = {}
    fields = {}
    texts = {p: open(p, encoding="utf-8").read() for p in files(".antt")}
    crates = set(os.listdir(CRATES))
    for p, t in texts.items():
        names, its = declared(t)
        hand = os.path.basename(p) in ("Proof.antt", "Answers.antt", "Invariants.antt") and "/proofs/" in p and p.count("/") > p.index("proofs") * 0 + 0
        own[module_of(p)] = (names, hand)
        for f in its:
            if new_name(f) != f:
                fields[f] = new_name(f)
    made = set()
    for p, t in texts.items():
        made |= set(re.findall(r"(?:tie|lts|goal)\.([^\s(){}.;,@]+)", t))
    every = set().union(*(names for names, _ in own.values()))
    spelled = collections.defaultdict(set)
    for n in every:
        spelled[new_name(n)].add(n)

    def turned_name(n, key):
        """Where a lemma's name falls together with a definition's, the lemma gets '_lem'."""
        new = new_name(n)
        if key[1].startswith("specs."):
            return new
        others = spelled[new] - {n}
        lemma = "-" in n or (n == new and "_" in n)
        return new + "_lem" if lemma and any(re.search("[a-z][A-Z]", o) and "-" not in o or ("-" in n and "-" not in o) for o in others) else new

    pub = {}
    for key, (names, hand) in own.items():
        pub[key] = {n: turned_name(n, key) for n in names if turned_name(n, key) != n}
    sources = list(files(".antt")) + list(files(".rt"))
    turned = collections.Counter()
    clash = []
    for p in sources:
        t = texts.get(p) or open(p, encoding="utf-8").read()
        table = {}
        if p.endswith(".antt"):
            table.update(pub[module_of(p)])
        if os.path.basename(p) == "Proof.antt":
            # an answer keeps the name of its goal
            for n in re.findall(r"(?m)^(?:abbrev\s+|pub\s+)*([^\s:]+) : (?:tie|goal)\.", t):
                table.pop(n, None)
        # the fields of a record that the file opens
        for m in re.finditer(r"(?:^|\s)open\s+\S+\s+use\s+\{([^}]*)\}", t):
            for w in m.group(1).split(","):
                if w.strip() in fields:
                    table[w.strip()] = fields[w.strip()]
        modules = {}
        for crate, module, listed in items(t):
            if crate not in crates:
                continue
            known = pub.get((crate, module), {})
            for name, alias in listed:
                if name in known:
                    table[name] = known[name]
                if alias and new_name(alias) != alias:
                    table[alias] = new_name(alias)
        for m in MODULE.finditer(t):
            key = (m.group(1), m.group(2))
            if key in pub:
                modules[m.group(3) or m.group(2).split(".")[-1]] = pub[key]
        tokens = TOKEN.findall(t)
        if p.endswith(".rt"):
            bare = TOKEN.findall("\n".join(ghost_lines(t)))
        else:
            bare = tokens
        words = set(w for i, w in enumerate(bare) if not w.startswith("--") and not w.startswith('"') and not (i and bare[i - 1] == "."))
        back = collections.defaultdict(set)
        for o, n in table.items():
            if o in words:
                back[n].add(o)
        for n, olds in back.items():
            if len(olds) > 1 or n in words:
                clash.append((os.path.relpath(p, ROOT), n, sorted(olds), n in words))
        out = []
        clause = p.endswith(".antt")
        depth = None
        for i, w in enumerate(tokens):
            if w.startswith("--") or w.startswith('"') or w.isspace():
                if w.startswith("--") and p.endswith(".antt"):
                    w = re.sub(r"`([^`]*)`", lambda m: "`" + re.sub(r"[A-Za-z][\w'-]*", lambda q: table.get(q.group(0), q.group(0)), m.group(1)) + "`", w)
                out.append(w)
                continue
            before = tokens[i - 1] if i else ""
            if before == ".":
                head = tokens[i - 2] if i > 1 else ""
                if head in modules and w in modules[head]:
                    w = modules[head][w]
                elif head in ("tie", "lts", "goal", "reads"):
                    pass
                elif w in fields:
                    w = fields[w]
            elif w in table:
                w = table[w]
            elif w in fields:
                after = next((x for x in tokens[i + 1 :] if not x.isspace()), "")
                if p.endswith(".antt") and after == "=" or after == ":" and w in declared_fields(t):
                    w = fields[w]
            if w != tokens[i]:
                turned[tokens[i]] += 1
            out.append(w)
        new = "".join(out)
        if p.endswith(".rt"):
            new = only_ghost(t, new)
        if new != t:
            with open(p, "w", encoding="utf-8") as f:
                f.write(new)
    lem = sorted({n for table in pub.values() for n, new in table.items() if new.endswith("_lem")})
    print("a lemma beside its definition:", *lem)
    print(f"{len(turned)} names turned in {sum(turned.values())} places; {len(fields)} of them fields")
    for c in clash:
        print("together:", *c)


SEEN = {}


def declared_fields(t):
    if t not in SEEN:
        SEEN[t] = declared(t)[1]
    return SEEN[t]


CLAUSE = re.compile(r"(?:requires|ensures)\s*\*?\s*(?:\w+\s*)?\{|ghost\s*(?:\w+\s*(?::\s*)?)?\{|ghost\s+use\b")


def ghost_lines(t):
    marked = only_ghost(t, re.sub(r"[^\n]+", lambda m: "\0" + m.group(0), t)).split("\n")
    return [x[1:] for x in marked if x.startswith("\0")]


def only_ghost(old, new):
    """Of a .rt file: the new text in clauses and ghost items, the old text elsewhere. Both have the same lines."""
    a, b = old.split("\n"), new.split("\n")
    assert len(a) == len(b)
    out = []
    inside = 0
    for x, y in zip(a, b):
        if inside or CLAUSE.search(x):
            out.append(y)
            inside += x.count("{") - x.count("}")
            inside = max(inside, 0)
            if re.search(r"ghost\s+use\b", x) and not x.rstrip().endswith(";"):
                inside = max(inside, 1)
            elif re.search(r"\};\s*$", x):
                inside = 0
        else:
            out.append(x)
    return "\n".join(out)


main()
