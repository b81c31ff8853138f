#!/usr/bin/env python3
"""Bring this repository's own definitions and lemmas to snake case, after port.py has turned the rest.

Run once, at the top, on what port.py left of the commit LANDED. A name is the repository's own where a file of specs/ or a
lemma file of proofs/ defines it: at the top of the file, as a field of a record, or as a constructor. Types keep their
capitals. Names that would fall together are told apart: the lemma gets `_lem` behind it.
"""
import collections
import glob
import re
import subprocess

LANDED = "258e8fbb40561cc1ce38c05cb9f738f6d981a098"

# what a name is made of, in .antt
TOKEN = re.compile(r"[^\s(){}\[\];,.|«»\"`]+")
DEFINED = re.compile(
    r"^\s*(?:abbrev\s+|unfoldable\s+|opaque\s+)?(?:pub\s+)?(?:data\s+|record\s+|ruleset\s+)?([^\s(){}]+)"
    r"\s*(?:\([^:]*\)|\{[^:]*\})?\s*:\s")
PROOFS_OF_A_FUNCTION = ("Proof.antt", "Invariants.antt", "Answers.antt")


def snake(name):
    """atCentre and at-centre are at_centre; a type's capital inside a name, as in count-onGrid's, falls too."""
    name = re.sub(r"(?<=[a-z0-9])([A-Z])", lambda m: "_" + m.group(1).lower(), name)
    return name.replace("-", "_").replace("′", "'")


def is_plain(name):
    return re.fullmatch(r"[a-z][A-Za-z0-9_'′-]*", name) is not None and name not in ("data", "record")


def definition_files():
    found = glob.glob("crates/*/specs/**/*.antt", recursive=True) + glob.glob("crates/*/proofs/**/*.antt", recursive=True)
    return sorted(f for f in found if not f.endswith(PROOFS_OF_A_FUNCTION))


def defined(text):
    for line in text.splitlines():
        if line.lstrip().startswith("--"):
            continue
        match = DEFINED.match(line)
        if match and is_plain(match[1]):
            yield match[1]


def landed(path):
    shown = subprocess.run(["git", "show", f"{LANDED}:{path}"], capture_output=True, text=True)
    return shown.stdout if shown.returncode == 0 else None


def own_names():
    """Each own name in its landed spelling, and where: in a rule or in a lemma file."""
    names = collections.defaultdict(set)
    for path in definition_files():
        text = landed(path)
        for name in defined(text or ""):
            names[name].add("specs" if "/specs/" in path else "proofs")
    return names


def foreign_names():
    """What a file takes from a module that is not the repository's keeps its spelling."""
    own = "|".join(sorted(path.split("/")[1] for path in glob.glob("crates/*/")))
    foreign = set()
    for path in glob.glob("crates/*/**/*.antt", recursive=True):
        for line in open(path):
            if line.lstrip().startswith("use ") and not re.match(rf"\s*use Rattle\.(?:{own})\.", line):
                foreign.update(tokens(line))
    return foreign


def new_names():
    names = own_names()
    for name in foreign_names():
        names.pop(name, None)
    groups = collections.defaultdict(set)
    for name in names:
        groups[snake(name)].add(name)
    new = {}
    for spelled, old in groups.items():
        for name in old:
            new[name] = spelled
        if len(old) > 1:
            # the definition keeps the name: the one in specs/, else the one in camel case
            first = sorted(old, key=lambda n: ("specs" not in names[n], not re.search("[A-Z]", n), n))[0]
            for name in old - {first}:
                new[name] = spelled + "_lem"
    return new


def tokens(text):
    return TOKEN.findall(text)


def merged(new):
    """Landed names that differ and that port.py may have spelled alike."""
    groups = collections.defaultdict(set)
    for name in new:
        groups[snake(name)].add(name)
    return {spelled: old for spelled, old in groups.items() if len(old) > 1}


def respell_antt(path, text, new, both):
    """Every own name as it is now; of two that port.py spelled alike, by what stood at that place in LANDED."""
    before = landed(path) or ""
    order = {}
    for spelled, old in both.items():
        order[spelled] = [t for t in tokens(before) if t in old]
    seen = collections.Counter()
    wanted = {spelled: sum(1 for t in tokens(text) if t == spelled or t in both[spelled]) for spelled in both}

    def one(match):
        token = match[0]
        for spelled, old in both.items():
            if token == spelled or token in old:
                at = seen[spelled]
                seen[spelled] += 1
                if len(order[spelled]) == wanted[spelled]:
                    return new[order[spelled][at]]
                kinds = {t for t in order[spelled]}
                if token in old:
                    return new[token]
                return new[kinds.pop()] if len(kinds) == 1 else token
        return new.get(token, token)

    return TOKEN.sub(one, text)


def respell_clauses(text, new):
    """In .rt only the names that have a capital inside: no function, field or word of the code has one."""
    return re.sub(r"(?<![\w'])[a-z]+[a-z0-9]*[A-Z]\w*", lambda m: new.get(m[0], m[0]), text)


def respell_page(text, new):
    """A page names definitions and lemmas in backticks."""
    def quoted(match):
        return TOKEN.sub(lambda m: new[m[0]] if m[0] in new and re.search("[A-Z-]", m[0]) else m[0], match[0])
    return re.sub(r"`[^`\n]+`", quoted, text)


def rewrite(path, text, to):
    if text != to:
        with open(path, "w") as file:
            file.write(to)


def main():
    new = new_names()
    both = merged(new)
    for path in sorted(glob.glob("crates/*/specs/**/*.antt", recursive=True) + glob.glob("crates/*/proofs/**/*.antt", recursive=True)):
        text = open(path).read()
        lines = [line if line.lstrip().startswith("--") else None for line in text.split("\n")]
        to = respell_antt(path, text, new, both)
        # a comment keeps its prose; names in backticks follow
        to = "\n".join(respell_page(was, new) if was is not None else now for was, now in zip(lines, to.split("\n")))
        rewrite(path, text, to)
    for path in sorted(glob.glob("crates/*/src/**/*.rt", recursive=True)):
        text = open(path).read()
        rewrite(path, text, respell_clauses(text, new))
    pages = ["README.md"] + [p for p in glob.glob("docs/*.md")]
    for path in sorted(pages):
        text = open(path).read()
        rewrite(path, text, respell_page(text, new))


if __name__ == "__main__":
    main()
