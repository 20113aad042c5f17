#!/usr/bin/env python3
"""Lists the places that docs/DESIGN-PASS.md counts, by commands that read the text of crates/*/src and crates/*/proofs.

usage: design-places.py [--counts] [POINT..]

Without POINT all are listed: 1 to 8, or one command of a point, such as 3a. Each place is a line `POINT crate file:line text`. --counts prints a
table instead, a row for each crate and a column for each command. It is run at the top of the repository. What a command misses or counts too
often stands in the page. Tests in src/ are left out. 8c reads the kit's lemmas, in the folder that RATTLE names, else /opt/rattle/rattle.
"""
import collections
import difflib
import glob
import os
import re
import sys

COMMANDS = {
    "1a": "own enum of the shape of Option or Result",
    "1b": "struct with an outcome or a bool beside its values",
    "1c": "function that answers a number, one value of which stands for none",
    "1d": "function that answers bool and fills a lent value, or puts a number where the caller wants it",
    "1e": "constant of 255, 256, 4294967295 or MAX, or of a kind (FIXED, LOOSE)",
    "1f": "answer of a call that is tested for 0 or for such a constant",
    "1g": "line that names a case of an enum of 1a, or passes a refusal on by hand",
    "2a": "function whose body has the shape of another's, up to names and numbers",
    "2b": "function of 40 tokens or more whose body is nearly another's (0.88 by difflib)",
    "2c": "type with the same fields as another",
    "2d": "constant that stands in two files under one name with one value",
    "3a": "loop that counts an index by one",
    "3b": "loop that counts by a constant step",
    "3c": "walk over fields: it counts no index",
    "3d": "other loop",
    "4a": "cast by `as` (lines)",
    "4b": "function that only casts, and its calls",
    "4c": "type that derives Clone and Copy and no more",
    "4d": "bytes of two slices compared one by one",
    "4e": "arm that copies a case from one enum into another",
    "4f": "field that is copied into a name",
    "4g": "bytes of a number made by / and %",
    "4h": "smaller or larger of two numbers, or a difference that stops at 0, by `if`",
    "5a": "fact in the contracts of three functions or more (one line for each fact)",
    "5b": "function with three parameters or more that travel together in three functions or more",
    "5c": "fact as in 5a, up to the names of slices",
    "6a": "array beside another of its length, in a function or a struct",
    "6b": "lent slice with a position in it as the next parameter",
    "6c": "field of a record that is kept in an array, by a constant position",
    "6d": "local buffer of which the first n elements are used",
    "6e": "search in a sorted or linked list by hand, and its calls",
    "7a": "match on a parameter that says which step to run",
    "7b": "parameter that is a bool",
    "7c": "function that chooses another by two or more constants",
    "8a": "answer in proofs/F/Answers.antt",
    "8b": "file of invariants",
    "8c": "lemma whose name the kit's lemmas have too (names of two words or more)",
    "8d": "answer whose text stands three times or more",
}
Function = collections.namedtuple("Function", "crate path line name comment head body")
NUMBERS = r"(?:usize|u8|u16|u32|u64|i64)"
TOKEN = re.compile(r"[A-Za-z_]\w*|\d\w*|[^\s\w]")
WORDS = set("fn let mut if else while for in match return pub use struct enum const continue break loop".split())


def sources():
    """(crate, path, lines up to the tests) of each file in src/."""
    for path in sorted(glob.glob("crates/*/src/**/*.rt", recursive=True)):
        with open(path, encoding="utf-8") as f:
            lines = f.read().split("\n#[cfg(test)]")[0].split("\n")
        yield path.split("/")[1], path, lines


def functions():
    """Each function with a body: its comment, its head with the clauses, and the lines of its body, without what they are indented by."""
    for crate, path, lines in sources():
        for i, line in enumerate(lines):
            found = re.match(r'(\s*)(?:pub )?(?:extern "C" )?fn (\w+)', line)
            if not found:
                continue
            deep, k = found[1], i
            while k and re.match(deep + r"(//|#\[)", lines[k - 1]):
                k -= 1
            start = i
            if not line.endswith("{"):
                stops = rf"{deep}([{{}}]$|(pub )?fn )|\}}"
                start = next(j for j in range(i + 1, len(lines)) if re.match(stops, lines[j]))
            if lines[start] not in (line, deep + "{") or not lines[start].endswith("{"):
                continue
            end = lines.index(deep + "}", start)
            comment = " ".join(l.strip().lstrip("/ ") for l in lines[k:i] if l.strip().startswith("//"))
            cut = [l[len(deep) :] for l in lines[i : end + 1]]
            yield Function(crate, path, i + 1, found[2], comment, cut[: max(start - i, 1)], cut[start - i :])


def grep(pattern):
    """The lines of code that have the pattern."""
    for crate, path, lines in sources():
        for n, line in enumerate(lines, 1):
            if re.search(pattern, line) and not re.match(r"\s*(//|use |ghost |pub use |requires|ensures|×|→)", line):
                yield crate, f"{path}:{n}", line.strip()


def within(f):
    """(file:line, line) of the lines of a body."""
    first = f.line + (len(f.head) if len(f.body) > 1 and f.body[0] == "{" else 0)
    return [(f"{f.path}:{first + i}", l) for i, l in enumerate(f.body)]


def text_of(f):
    return " ".join(l.strip() for l in f.head)


def place(f, text=""):
    return f.crate, f"{f.path}:{f.line}", f"{f.name}{': ' if text else ''}{text}"


def parameters(f):
    """The parameters of a function, as `name: type`."""
    text, depth, word, out = text_of(f).split("(", 1)[1], 1, "", []
    for c in text:
        depth += (c in "([<") - (c in ")]>")
        if depth == 0 or c == "," and depth == 1:
            out.append(re.sub(r"^mut ", "", word.strip()))
            word = ""
            if depth == 0:
                break
        else:
            word += c
    return [p for p in out if p]


def types(keyword):
    """(crate, file:line, name, its cases or fields) of each type."""
    for crate, path, lines in sources():
        for i, line in enumerate(lines):
            found = re.match(rf"(?:pub )?{keyword} (\w+) {{", line)
            if found:
                body = lines[i + 1 : lines.index("}", i)]
                cases = [l.strip().rstrip(",") for l in body if not l.strip().startswith("//")]
                yield crate, f"{path}:{i + 1}", found[1], cases


def results():
    """The enums with cases that hold numbers or a reason, and none that holds another own type."""
    for crate, where, name, cases in types("enum"):
        if any("(" in c for c in cases) and not any(re.search(r"\((?!Reason)[A-Z]", c) for c in cases):
            yield crate, where, name, cases


def point_1():
    gives = r"\s*(return |.* => )?(0|NAMES|UNKNOWN|KEYS|SIGNS)[;,]?$|\s*if (out|output)\.len\(\) <=? (n|p|pos)\b"
    none = r"\b(0|255|256|16|m \+ 1)( \w+)? (if|where|for|at|after|past)\b|\bor (of )?(no|0)\b"
    none += r"|stands? for none|where there is none|where one is missing|, and one more[,;.]"
    for crate, where, name, cases in results():
        yield "1a", crate, where, f"{name}: {', '.join(cases)}"
    for crate, where, name, fields in types("struct"):
        if any(re.search(r": (Outcome|Answer|bool|Result<.*)$", f) for f in fields):
            yield "1b", crate, where, f"{name}: {', '.join(fields)}"
    for f in functions():
        if re.search(rf"-> {NUMBERS}\b", text_of(f)):
            if any(re.match(gives, l) for l in f.body) or re.search(none, f.comment):
                yield "1c", *place(f, f.comment)
        lent = [p for p in parameters(f) if re.search(r": &mut ", p)]
        fills = lent and re.search(r"-> bool\b", text_of(f)) or any(re.search(rf"&mut {NUMBERS}$", p) for p in lent)
        if fills and "extern" not in f.head[0]:
            yield "1d", *place(f, ", ".join(lent))
        bound = {}
        for where, line in within(f):
            given = re.match(r"\s*(?:let (?:mut )?)?(\w+) = .*\(", line)
            tested = re.match(r"\s*(?:\} else )?if (\w+) [!=]= (0|UNKNOWN)\b|\s*if (NAMES) <= (\w+) \{|\s*while (\w+) < NAMES", line)
            if given:
                bound[given[1]] = line
            if tested and (tested[1] or tested[4] or tested[5]) in bound:
                yield "1f", f.crate, where, line.strip()
    for crate, where, line in grep(r"^(pub )?const \w+: \w+ = (255|256|4294967295|\w+::MAX);|^(pub )?const (FIXED|LOOSE)\b"):
        yield "1e", crate, where, line
    names = "|".join(sorted({name for _, _, name, _ in results()})) or "no enum"
    for crate, where, line in grep(rf"\b({names})::\w+|let (Outcome::Refused|Outcome::Accepted)"):
        yield "1g", crate, where, line


def shape(lines):
    """The tokens of some lines, with one mark for all names and one for all numbers."""
    tokens = [t for l in lines for t in TOKEN.findall(re.sub(r"//.*", "", l)) if t != ","]
    return [t if t in WORDS or not re.match(r"\w", t) else "0" if t[0].isdigit() else "x" for t in tokens]


def point_2():
    every = [(f, shape(f.body)) for f in functions() if f.crate != "algebra"]
    twin = {}
    for i, (f, a) in enumerate(every):
        for g, b in every[i + 1 :]:
            near = difflib.SequenceMatcher(None, a, b, autojunk=False)
            kind = "2a" if a == b and len(a) >= 12 else None
            if a != b and min(len(a), len(b)) >= 40 and all(r() >= 0.88 for r in (near.real_quick_ratio, near.quick_ratio, near.ratio)):
                kind = "2b"
            for one, other in ((f, g), (g, f)) if kind else ():
                twin.setdefault((kind, place(one)), []).append(f"{other.crate}/{os.path.basename(other.path)}:{other.line} {other.name}")
    for (kind, (crate, where, name)), others in twin.items():
        if kind == "2a" or ("2a", (crate, where, name)) not in twin:
            yield kind, crate, where, f"{name}: {'; '.join(others)}"
    groups = collections.defaultdict(list)
    for keyword in ("struct", "enum"):
        for crate, where, name, fields in types(keyword):
            kinds = [re.sub(r"^(pub )?\w+(: )?", "", x) for x in fields]
            groups[keyword, tuple(kinds)].append((crate, where, name))
    for (keyword, kinds), rows in groups.items():
        for crate, where, name in rows if len(rows) > 1 and any(kinds) else ():
            yield "2c", crate, where, f"{name}: as {', '.join(sorted(n for _, w, n in rows if w != where))}"
    values = collections.defaultdict(list)
    for crate, where, line in grep(r"^(pub )?const \w+: "):
        values[re.sub(r"^pub |\w+::", "", line)].append((crate, where))
    for line, rows in values.items():
        for crate, where in rows if len(rows) > 1 else ():
            yield "2d", crate, where, line


def point_3():
    for f in functions():
        lines = within(f)
        for i, (where, line) in enumerate(lines):
            found = re.match(r"(\s*)(?:'\w+: )?(?:while (.*)|loop) \{$", line)
            if not found:
                continue
            end = next(j for j in range(i + 1, len(lines)) if lines[j][1] == found[1] + "}")
            body, names = [l for _, l in lines[i + 1 : end]], set(re.findall(r"\b[a-z]\w*\b", found[2] or ""))
            steps = [s for l in body for v, s in re.findall(r"^\s*(\w+) [+-]= (.*);$", l) if v in names]
            walks = any(re.search(r"\b(whole_end|field_end|end_if_whole|end_of_field|skip_below)\(", l) for l in body)
            fixed = steps and all(re.match(r"[A-Z\d]+$", s) for s in steps)
            kind = "3a" if "1" in steps else "3b" if fixed else "3c" if walks else "3d"
            yield kind, f.crate, where, f"{f.name}: {line.strip()}"


def point_4():
    for crate, where, line in grep(r"\bas (u8|u16|u32|u64|usize|i32|i64)\b"):
        yield "4a", crate, where, line
    casts = [f for f in functions() if len(f.body) == 3 and re.match(r"\s*\w+(\[\w+\])? as \w+$", f.body[1])]
    for f in casts:
        yield "4b", *place(f, f.body[1].strip())
    for f in functions():
        for where, line in within(f):
            own = [c.name for c in casts if c.path == f.path] + ["to_usize", "place_at", "wide", "score_of"]
            for _ in re.findall(r"\b(?:%s)\(" % "|".join(sorted(set(own))), line):
                yield "4b", f.crate, where, line.strip()
    for crate, where, line in grep(r"#\[derive\(Clone, Copy\)\]"):
        yield "4c", crate, where, line
    for crate, where, line in grep(r"\w\[[^]]*\] [!=]= \w+\["):
        yield "4d", crate, where, line
    for crate, where, line in grep(r"^\s*(\w+)::(\w+)(\(.*\))? => (return )?(?!Sort::|Reason::|Syntax::)(\w+)::\w+(\(.*\))?,?$"):
        yield "4e", crate, where, line
    for crate, where, line in grep(r"^\s*let (mut )?\w+ = \w+\.[a-z]\w*;"):
        yield "4f", crate, where, line
    for crate, where, line in grep(r"[/%] (256|65536|16777216)\b.* as u8"):
        yield "4g", crate, where, line
    for f in functions():
        body = " ".join(l.strip() for l in f.body)
        if re.match(r"\{ if [\w. ]+ <=? [\w. ]+ \{ (return )?[\w.]+;? \}( else \{)? [\w. +-]+( \})? \}$", body):
            yield "4h", *place(f, body)


def facts(f):
    """The parts of a contract's clauses, at × and →, without what binds names."""
    def split(s):
        s, parts, depth, word = s.strip(), [], 0, ""
        while s.startswith("(") and s.endswith(")") and all(s[: i + 1].count("(") > s[: i + 1].count(")") for i in range(len(s) - 1)):
            s = s[1:-1].strip()
        for c in s:
            depth += (c in "([{") - (c in ")]}")
            if depth == 0 and c in "×→":
                parts, word = parts + [word], ""
            else:
                word += c
        return [s] if not parts else [x for p in parts + [word] for x in split(p)]
    clauses = re.split(r"\b(?:requires|ensures)\b(?: \w+)? \{", text_of(f))[1:]
    return {p for c in clauses for p in split(c.strip().rstrip("}").strip()) if p and not re.match(r"^\(?[\w ]+ : [^≡≤<]*$", p)}


def point_5():
    stands = collections.defaultdict(list)
    every = list(functions())
    for f in every:
        exact = facts(f)
        for kind, fact in [("5a", x) for x in exact] + [("5c", x) for x in {re.sub(r"\b\w+\.(now|old|new|entry)", "_", x) for x in exact}]:
            stands[kind, fact].append(f)
    for (kind, fact), rows in sorted(stands.items(), key=lambda r: (r[0][0], -len(r[1]), r[0][1])):
        if len(rows) >= 3 and " " in fact:
            yield kind, *place(rows[0], f"{fact} ({len(rows)} functions, {len({f.crate for f in rows})} crates)")
    left = [(f, frozenset(parameters(f))) for f in every if "extern" not in f.head[0]]
    while True:
        sets = {a & b for i, (_, a) in enumerate(left) for _, b in left[i + 1 :] if len(a & b) >= 3}
        takers = {s: [f for f, p in left if s <= p] for s in sets}
        best = max((s for s in sets if len(takers[s]) >= 3), key=lambda s: (len(takers[s]) * (len(s) - 2), sorted(s)), default=None)
        if not best:
            return
        names = [p.split(":")[0] for p in parameters(takers[best][0]) if p in best]
        for f in takers[best]:
            yield "5b", *place(f, f"{', '.join(names)} ({len(takers[best])} functions)")
        left = [(f, p) for f, p in left if f not in takers[best]]


def point_6():
    for f in functions():
        arrays = [(w, l, m[2]) for w, l in within(f) for m in [re.match(r"\s*let mut (\w+) = \[.*; (\w+)\];", l)] if m]
        for where, line, size in arrays:
            if sum(s == size for _, _, s in arrays) > 1:
                yield "6a", f.crate, where, line.strip()
        given = parameters(f)
        for a, b in zip(given, given[1:]):
            if re.search(r": &mut \[", a) and re.match(r"(n|pos|at|top|from|a|i): usize$", b):
                yield "6b", *place(f, f"{a}, {b}")
        for where, line in within(f):
            buffer = re.search(r"&(?:mut )?(\w+)\[\.\.\w+\]", line)
            if buffer and any(f"let mut {buffer[1]} = [" in l for l in f.body):
                yield "6d", f.crate, where, line.strip()
    for crate, where, name, fields in types("struct"):
        for x in fields:
            if re.search(r": \[", x):
                yield "6a", crate, where, f"{name}: {x}"
    for crate, where, line in grep(r"\b(node|table|above|ends|memory|kinds|entries)\[(\w+ \+ )?[A-Z_]{3,}|\b(ends|memory|entries)\[[^]]*[*+] "):
        yield "6c", crate, where, line
    for crate, where, line in grep(r"\b(skip_below|entry_from|name_from|name_behind|walk_start|hinted_place|rank_of|before_entry|field_place)\("):
        yield "6e", crate, where, line


def point_7():
    step = {n for _, _, n, cases in types("enum") if n not in {r[2] for r in results()} | {"Reason", "Outcome"}}
    for f in functions():
        kinds = {p.split(": ")[0]: p.split(": ")[1] for p in parameters(f) if ": " in p}
        for where, line in within(f):
            found = re.match(r"\s*match (\w+) \{", line)
            if found and kinds.get(found[1]) in step:
                yield "7a", f.crate, where, f"{f.name}: {line.strip()} -- {kinds[found[1]]}"
        for p in parameters(f):
            if p.endswith(": bool"):
                yield "7b", *place(f, p)
        body = " ".join(l.strip() for l in f.body)
        if len(re.findall(r"if (?:\w+|\w+\[\w+\]) == (?:[A-Z]\w+|0x\w+|[1-9]) \{ return \w+\(", body)) >= 2:
            yield "7c", *place(f, "")


def lemmas(paths):
    """name -> places of the declarations at the margin or one step in, fields of records left out."""
    out = collections.defaultdict(list)
    for path in paths:
        inside = None
        for n, line in enumerate(open(path, encoding="utf-8"), 1):
            deep = len(line) - len(line.lstrip())
            if re.match(r"\s*((pub|abbrev) )*(record|data)\b", line):
                inside = deep
            elif inside is not None and line.strip() and deep <= inside:
                inside = None
            found = re.match(r"\s*(?:(?:abbrev|unfoldable|opaque|pub) )*([\w'-]+)(?: [({].*?[)}])* :\s", line)
            if inside is None and found and deep <= 2:
                out[found[1]].append(f"{path}:{n}")
    return out


def point_8():
    answers = collections.defaultdict(list)
    for path in sorted(glob.glob("crates/*/proofs/*/**/*.antt", recursive=True)):
        crate = path.split("/")[1]
        if path.endswith("/Invariants.antt"):
            yield "8b", crate, f"{path}:1", ""
        if path.endswith("/Answers.antt"):
            text = open(path, encoding="utf-8").read()
            for found in re.finditer(r"(?m)^(?:abbrev )?pub ([^\s:]+) : goal\.\S+\n(?:unfolding .*\n)?\S+[^=\n]*= ((?:.|\n)*?)(?=\n\n|\Z)", text):
                where = f"{path}:{text.count(chr(10), 0, found.start()) + 1}"
                answers[" ".join(found[2].split())].append((crate, where, found[1]))
                yield "8a", crate, where, found[1]
    kit = os.environ.get("RATTLE", "/opt/rattle/rattle")
    same = lambda n: re.sub(r"[-_']", "", n).lower()
    folders = ("std/proofs/lemmas", "logic/Lib", "antt/lib/src", "antt/port/mathlib/src/Core")
    theirs = lemmas(p for d in folders for p in sorted(glob.glob(f"{kit}/{d}/**/*.antt", recursive=True)))
    known = {same(n): places[0][len(kit) + 1 :] for n, places in theirs.items()}
    own = [p for p in glob.glob("crates/*/proofs/**/*.antt", recursive=True) if not re.search(r"/proofs/.+/(Answers|Invariants|Proof)\.antt$", p)]
    for name, places in sorted(lemmas(own).items()):
        for where in places if re.search("[_-]", name) and same(name) in known else ():
            yield "8c", where.split("/")[1], where, f"{name}: {known[same(name)]}"
    for text, rows in sorted(answers.items(), key=lambda r: -len(r[1])):
        for crate, where, name in rows if len(rows) >= 3 else ():
            yield "8d", crate, where, f"{name} = {text[:60]} ({len(rows)} times)"


def main():
    wanted = [a for a in sys.argv[1:] if a != "--counts"] or list("12345678")
    rows = [r for p in sorted({w[0] for w in wanted}) for r in globals()[f"point_{p}"]() if any(r[0].startswith(w) for w in wanted)]
    if "--counts" not in sys.argv:
        for point, crate, where, text in rows:
            print(point, crate, where, text)
        return
    counts = collections.Counter((r[1], r[0]) for r in rows)
    columns = [c for c in COMMANDS if any(c.startswith(w) for w in wanted)]
    for c in columns:
        print(f"{c} {COMMANDS[c]}: {sum(counts[k] for k in counts if k[1] == c)}")
    print(f"\n| crate | {' | '.join(columns)} |\n|---|{'---|' * len(columns)}")
    for crate in sorted({c for c, _ in counts}):
        print(f"| {crate} | {' | '.join(str(counts[crate, c] or '') for c in columns)} |")
    print(f"| all | {' | '.join(str(sum(counts[k] for k in counts if k[1] == c)) for c in columns)} |")


main()
