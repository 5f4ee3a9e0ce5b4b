#!/usr/bin/env python3
"""Respells this repository's own definitions and lemmas: words in snake case, types and facts in camel case.

    python3 tools/respell.py [--list]

Run once at the top of the repository, after the toolchain's own port script. It goes by the names that
`specs/` and `proofs/` declare, and leaves alone the names that the check makes (answers to goals), the names of
the standard library, names of `src/`, strings and comments' prose. `--list` prints the renamings and writes nothing.
It stops if two names would fall together.
"""
import glob, re, sys

# A dash joins two names that are defined: a lemma about a function of another function.
KEPT = {"length-valves", "length-written", "joint-++", "worth-++", "some-++", "reverse-++"}
# Names that would be those of a method beside them, or that name a function by the name it had.
OTHERWISE = {"word-list": "listed_words", "counting-++": "range_with_len-++"}
# A function, a clause or a local name of src/ has this name too; it stands in another namespace.
APART = {"end-is-verdict", "in-range", "runs-are-listed", "settled-never-turns", "visits-are-of-nodes", "waiting-part", "weak-next"}
NAME = r"[^\s(){};:,.\"]+"
TOKEN = re.compile(r"(?<![\w'-])[A-Za-zμ][\w']*(?:-[\w'+]+)+(?![\w'-])")


def code_of(line, comment):
    """The line's parts: (text, is it code)."""
    parts, i = [], 0
    for m in re.finditer(r'b?"(?:[^"\\]|\\.)*"|' + comment + r".*", line):
        parts.append((line[i:m.start()], True))
        parts.append((m[0], False))
        i = m.end()
    parts.append((line[i:], True))
    return parts


def declared(path):
    """Names with a dash that a file of specs/ or proofs/ declares: definitions, fields, constructors, local names."""
    for line in open(path, encoding="utf-8"):
        code = "".join(t for t, is_code in code_of(line.rstrip("\n"), "--") if is_code)
        m = re.match(r"\s*(?:\| *)?(?:(?:pub|abbrev|unfoldable|data|record|ruleset) )*(" + NAME + r"(?: " + NAME + r")*) *(?:[({][^=]*)?: *(\S*)", code)
        if m and "-" in m[1] and not re.match(r"(goal|given)\.", m[2]):
            yield from (n for n in m[1].split() if "-" in n)
        for m in re.finditer(r"(?:let |λ |[({] *)(" + NAME + r")(?= *[=:.])", code):
            if "-" in m[1]:
                yield m[1]


def respelled(name):
    if name[0].isupper():
        return "".join(w[0].upper() + w[1:] for w in name.split("-"))
    return name.replace("-", "_")


def main():
    proof_files = sorted(glob.glob("crates/*/specs/**/*.antt", recursive=True) + glob.glob("crates/*/proofs/**/*.antt", recursive=True))
    code_files = sorted(glob.glob("crates/*/src/**/*.rt", recursive=True) + glob.glob("crates/*/must-fail/*.edit"))
    names = {n for p in proof_files for n in declared(p) if TOKEN.fullmatch(n)} - KEPT
    turned = {n: OTHERWISE.get(n, respelled(n)) for n in names}
    used = {w for p in proof_files + code_files for w in re.findall(r"[\w'-]+", open(p, encoding="utf-8").read())}
    clash = [(n, t) for n, t in turned.items() if (t in used and n not in APART) or list(turned.values()).count(t) > 1]
    for n in sorted(turned):
        print(n, turned[n])
    if clash:
        sys.exit("fall together: " + ", ".join(f"{n} {t}" for n, t in sorted(clash)))
    if "--list" in sys.argv:
        return
    for p in proof_files + code_files:
        comment = "--" if p.endswith(".antt") else "//"
        lines = open(p, encoding="utf-8").read().split("\n")
        new = ["".join(TOKEN.sub(lambda m: turned.get(m[0], m[0]), t) if is_code else t for t, is_code in code_of(l, comment)) for l in lines]
        if new != lines:
            open(p, "w", encoding="utf-8").write("\n".join(new))


main()
