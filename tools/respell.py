#!/usr/bin/env python3
"""Spells the definitions and lemmas of this repository in snake case: wordCase and dashed-words become word_case and dashed_words.

usage: respell.py [--check] [--table FILE] [--by FILE] [FOLDER]

It reads what the .antt files below FOLDER/crates declare, the proofs of functions (Proof.antt, Answers.antt, Invariants.antt in a folder of their own) apart, and rewrites these words in all
.antt files, in the clauses and `ghost use` items of .rt files and in the lines of must-fail edits. In comments only words between backticks turn. A word stays in a file that has
it from a library. A word whose new spelling stands in a file beside the old one gets `_lem` at its end. --check writes nothing and prints each new name.
--table writes the table of names to FILE, and --by takes it from there.
"""
import collections
import json
import os
import re
import sys

WORD = r'[^\s(){}.;,@"«»]+'
TOKEN = re.compile(WORD)
OWN = re.compile(r"[a-z][A-Za-z0-9'-]*$")
OF_FUNCTION = ("Proof.antt", "Answers.antt", "Invariants.antt")
HEAD = re.compile(r"\s*(?:(?:abbrev|unfoldable|pub|opaque|private)\s+)*(data|record|ruleset|mutual)?\s*(" + WORD + r")((?:\s+[({].*?[)}])*)\s+:(?:\s|$)")
FIELD = re.compile(r"\s+(?:pub )?(" + WORD + r") :(?:\s|$)")
USE = re.compile(r"\b(?:ghost )?use ([^\s;{]+?)\.?(\{[^}]*\})?(?: as (\S+))?;?\s*$", re.M)
COMMENT = re.compile(r"(?<![^\s(){},;])--[^\n]*")


def files(root):
    for folder, dirs, names in os.walk(os.path.join(root, "crates")):
        dirs[:] = sorted(d for d in dirs if d != "out")
        for f in sorted(names):
            if f.endswith((".antt", ".rt", ".edit")):
                yield os.path.join(folder, f)


def read(path):
    with open(path, encoding="utf-8") as f:
        return f.read()


def snake(name):
    words = re.sub(r"(?<=[a-z0-9])[A-Z]", lambda m: "_" + m[0].lower(), name)
    return words.replace("-", "_")


def declared(text):
    """The names that a file declares, those among them that are fields or constructors, and those that are fields of records."""
    names, fields, parts, inside = set(), set(), set(), False
    for line in text.split("\n"):
        if not line.strip() or line.lstrip().startswith("--"):
            continue
        if not line[0].isspace():
            inside = re.match(r"(?:pub )?(data|record)\b", line)
            inside = inside and inside[1]
            m = HEAD.match(line)
            if m and not line.startswith(("use ", "infix")):
                names.add(m[2])
        else:
            m = FIELD.match(line)
            if m and inside:
                names.add(m[1])
                fields.add(m[1])
                if inside == "record":
                    parts.add(m[1])
            else:
                m = HEAD.match(line)
                if m:
                    names.add(m[2])
    return names, fields, parts


def clauses(text):
    """Where the clauses, ghost blocks and `ghost use` items of a Rust text stand."""
    for m in re.finditer(r"ghost use [^;]*;", text):
        yield m.span()
    for m in re.finditer(r"\b(?:requires|ensures)\*?(?: \w+)? \{|\bghost\b[^;{}\n]*\{", text):
        if m[0].startswith("ghost use"):
            continue
        deep, k = 1, m.end()
        while k < len(text) and deep:
            deep += (text[k] == "{") - (text[k] == "}")
            k += 1
        yield m.end(), k


def library_words(text):
    """The words that a file takes from modules that are no crate of this repository."""
    found = set()
    for m in USE.finditer(text):
        if not re.match(r"Rattle\.(?!std\b|core\b|io\b|os\b|libc\b)", m[1]):
            found |= set(TOKEN.findall((m[2] or "").strip("{}")))
    return found


def turned(text, table, fields, stay):
    def one(m):
        word, at = m[0], m.start()
        new = table.get(word)
        if new is None or word in stay:
            return word
        if at and text[at - 1] == "." and text[m.end() : m.end() + 1] == ".":
            return word
        if at and text[at - 1] == "." and word not in fields:
            before = re.search(r"([^\s(){};,@\"«»]+)\.$", text[:at])
            if not before or not re.match(r"Rattle\.|[A-Z]", before[1]):
                return word
        return new

    out, last = [], 0
    for c in COMMENT.finditer(text):
        out += [part(text, last, c.start(), one), spelled_in(c[0], table)]
        last = c.end()
    out.append(part(text, last, len(text), one))
    return "".join(out)


def spelled_in(comment, table):
    """A comment with the names between backticks turned."""
    return re.sub(r"`([^`\n]+)`", lambda m: "`" + table.get(m[1], m[1]) + "`", comment)


def part(text, start, end, one):
    out, last = [], start
    for m in TOKEN.finditer(text, start, end):
        out += [text[last : m.start()], one(m)]
        last = m.end()
    out.append(text[last:end])
    return "".join(out)


def main(argv):
    check = "--check" in argv
    root = ([a for i, a in enumerate(argv) if not a.startswith("-") and argv[i - 1 : i] not in (["--table"], ["--by"])] or ["."])[0]
    texts = {p: read(p) for p in files(root)}
    names, fields, parts = set(), set(), set()
    for p, t in texts.items():
        if p.endswith(".antt") and (os.path.basename(p) not in OF_FUNCTION or os.path.basename(os.path.dirname(p)) in ("proofs", "specs")):
            n, f, r = declared(t)
            names |= n
            fields |= f
            parts |= r
    old = {n for n in names if OWN.match(n) and snake(n) != n and not re.match(r"returns-\d", n)}
    table, taken = {}, collections.defaultdict(list)
    words = {p: {m[0] for m in TOKEN.finditer(COMMENT.sub("", t)) if m.string[m.start() - 1 : m.start()] != "."} for p, t in texts.items() if p.endswith(".antt")}
    clash, moved = set(), set()
    for w in words.values():
        here = [n for n in old if n in w]
        new = collections.Counter(snake(n) for n in here)
        clash |= {n for n in here if "-" in n and n not in parts and (snake(n) in w or new[snake(n)] > 1)}
        for n in here:
            if "-" not in n and snake(n) in w and snake(n) in names:
                moved.add(snake(n))
    spelled = collections.Counter(snake(n) for n in old)
    clash |= {n for n in old if "-" in n and n not in parts and spelled[snake(n)] > 1}
    for n in sorted(old):
        table[n] = snake(n) + ("_lem" if n in clash else "")
        taken[table[n]].append(n)
    table.update({n: n + "_lem" for n in moved})
    if "--table" in argv:
        with open(argv[argv.index("--table") + 1], "w", encoding="utf-8") as f:
            json.dump([table, sorted(fields)], f, ensure_ascii=False)
    if "--by" in argv:
        with open(argv[argv.index("--by") + 1], encoding="utf-8") as f:
            table, fields = json.load(f)
            fields = set(fields)
    for new, from_ in sorted(taken.items()):
        if len(from_) > 1:
            print("look: two names fall together:", new, from_)
    for p, t in texts.items():
        if p.endswith(".rt"):
            bodies = list(clauses(t))
            rest = t
            for a, b in sorted(bodies, reverse=True):
                rest = rest[:a] + rest[b:]
            cited = {n for a, b in bodies for n in TOKEN.findall(t[a:b]) if n in table}
            for n in sorted(cited):
                if re.search(r"\b" + re.escape(table[n]) + r"\b(?!\s*[(<])", rest):
                    print("look: a name of the code:", table[n], p)
    if check:
        for n in sorted(clash | moved):
            print("clash:", n, table[n])
        print(len(table), "names")
        return
    for p, t in texts.items():
        if p.endswith(".antt"):
            new = turned(t, table, fields, library_words(t))
        elif p.endswith(".rt"):
            new, last = [], 0
            stay = library_words(t)
            for a, b in sorted(clauses(t)):
                if a < last:
                    continue
                new += [t[last:a], turned(t[a:b], table, fields, stay)]
                last = b
            new = re.sub(r"//[^\n]*", lambda m: spelled_in(m[0], table), "".join(new) + t[last:])
        else:
            new = "\n".join(turned(l, table, fields, set()) if l.startswith(("old:", "new:")) and ".antt" in target(t, l) else l for l in t.split("\n"))
        if new != t:
            with open(p, "w", encoding="utf-8") as f:
                f.write(new)
    print(len(table), "names")


def target(text, line):
    """The file that a line of an edit is about."""
    found = ""
    for l in text.split("\n"):
        if l.startswith("file:"):
            found = l
        if l is line or l == line:
            return found
    return found


if __name__ == "__main__":
    main(sys.argv[1:])
