#!/usr/bin/env python3
"""Spells this repository's own definitions, lemmas and fields as today's Rattle does: words in snake case, `'` for a prime.

usage: respell.py [--check] FOLDER

It goes over specs/ and proofs/ of each crate below FOLDER/crates, the clauses of src/, and the must-fail edits.
A word is respelled where the repository's texts declare it, or where it is a local name in camel case. Functions of
src/, exported names, strings, inputs and outputs stay as they are. Two words that would fall together are told ('meet:'),
and a lemma that would have its function's name gets `_lem`. --check writes nothing.
"""

import os
import re
import sys

# Facts that were spelled as words, each with the module that declares it: a fact is spelled as a type.
FACTS = {
    "utf8.specs.Utf8": ["fitting"],
    "grammar.specs.Sound": ["any", "any₂", "each", "pairs"],
    "lines.specs.Grown": ["undeclared"],
}

# Lemmas that the kit's script spelled like what they are about, each with its module.
LEMMAS = {
    "scan.proofs.Runs": ["run_end"],
    "tables.proofs.Rows": ["end_before"],
    "lines.proofs.AvoidExact": ["line_word"],
    "pruner.proofs.Laws": ["row_stays"],
    "shipped.proofs.Rules": ["token_end"],
}

NAME = r"[^\s(){}.;,@\"«»\[\]]+"
WORD = re.compile(r"(?<![\w'′-])[a-z][\w'′₀-₉-]*")
DECLARED = re.compile(r"(?m)^ *(?:(?:pub|abbrev|unfoldable|ruleset|data|record) )*([^\s(){}.;,\"]+)(?: \{[^{}\n]*\})* :(?= |$)")
HUMP = re.compile(r"(?<=[a-z0-9₀-₉])[A-Z]")


def snake(name):
    return HUMP.sub(lambda m: "_" + m[0].lower(), name.replace("′", "'")).replace("-", "_")


def read(p):
    with open(p, encoding="utf-8") as f:
        return f.read()


def files(top):
    for folder, dirs, names in os.walk(os.path.join(top, "crates")):
        dirs[:] = sorted(d for d in dirs if d != "out")
        for n in sorted(names):
            p = os.path.join(folder, n)
            if n.endswith((".antt", ".rt", ".edit")):
                yield p


def kind(p):
    return "rt" if p.endswith(".rt") else "edit" if p.endswith(".edit") else "antt"


def clauses(text):
    """The spans of a .rt text that are antt: `ghost use` items and the braces of clauses and ghost members."""
    for m in re.finditer(r"(?m)^\s*ghost use [^;]*;", text):
        yield m.start(), m.end()
    for m in re.finditer(r"(?m)^\s*(?:requires|ensures|ghost)\*?(?: \w+)?(?::)? (?:= )?\{", text):
        depth, i = 0, m.end() - 1
        while True:
            c = text[i]
            depth += c == "{"
            depth -= c == "}"
            if depth == 0:
                break
            i += 1
        yield m.start(), i + 1


def main(argv):
    check = "--check" in argv
    top = [a for a in argv if not a.startswith("--")][0]
    declared, plain = set(), set()
    for p in files(top):
        if kind(p) == "antt":
            for n in DECLARED.findall(read(p)):
                if re.fullmatch(r"[a-z][\w'′₀-₉-]*", n):
                    (declared if "-" in n or HUMP.search(n) or "′" in n else plain).add(n)
    made = re.compile(r"(?:returns|loop|if|in|in_ok|in_err|overflow|bounds|the|invariant|decreases|then|else|match)-")
    declared = {n for n in declared if not made.match(n)}
    words = plain | {snake(n) for n in declared if "-" not in n}
    new = {n: snake(n) + ("_lem" if "-" in n and snake(n) in words else "") for n in declared}
    for n, m in sorted(new.items()):
        if m.endswith("_lem") and not n.endswith("-lem"):
            print("lemma:", n, "->", m)

    def turn(word):
        if word in new:
            return new[word]
        if "-" not in word and HUMP.search(word):
            return snake(word)
        return word.replace("′", "'") if "′" in word else word

    def turned(text):
        return WORD.sub(lambda m: turn(m[0]), text)

    def scoped(table, p, text, make):
        """Renames the names of a module, in its own file and where they are imported."""
        here = os.path.relpath(p, os.path.join(top, "crates")).rsplit(".", 1)[0].replace(os.sep, ".")
        for module, names in table.items():
            m = re.search(rf"(?m)^(?:pub |ghost )?use Rattle\.{re.escape(module)}\.\{{([^}}]*)\}}", text)
            shown = names if here == module else [n for n in names if m and re.search(rf"(?<![\w]){n}(?![\w'₀-₉])", m[1])]
            for n in shown:
                text = re.sub(rf"(?<![\w.'-]){n}(?![\w'₀-₉-])", make(n), text)
        return text

    def facts(p, text):
        return scoped(FACTS, p, text, lambda n: n[0].upper() + n[1:])

    def lemmas(p, text):
        return scoped(LEMMAS, p, text, lambda n: n + "_lem")

    met = {}
    changed = 0
    for p in files(top):
        text = read(p)
        if kind(p) == "antt":
            out = facts(p, turned(lemmas(p, text)))
            seen = {}
            for w in set(WORD.findall(text)):
                seen.setdefault(turn(w), set()).add(w)
            for k, v in seen.items():
                if len(v) > 1:
                    met.setdefault((k, tuple(sorted(v))), []).append(p)
        elif kind(p) == "rt":
            out, at = "", 0
            words = {}
            for a, b in sorted(set(clauses(text))):
                if a < at:
                    continue
                out += text[at:a] + turned(text[a:b])
                for w in set(WORD.findall(text[a:b])):
                    words.setdefault(turn(w), set()).add(w)
                at = b
            out = facts(p, out + text[at:])
            for k, v in words.items():
                if len(v) > 1:
                    met.setdefault((k, tuple(sorted(v))), []).append(p)
                elif list(v)[0] != k and re.search(rf"(?<![\w.]){re.escape(k)}\s*:(?!:)", text):
                    met.setdefault((k, ("a parameter or a field",)), []).append(p)
        else:
            continue
        if out != text:
            changed += 1
            if not check:
                with open(p, "w", encoding="utf-8") as f:
                    f.write(out)
    for (k, v), ps in sorted(met.items()):
        print("meet:", k, "<-", " ".join(v), "in", len(ps), ps[0])
    print(len(new), "words,", changed, "files")


if __name__ == "__main__":
    main(sys.argv[1:])
