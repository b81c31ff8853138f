#!/usr/bin/env python3
"""Counts the places of docs/DESIGN-PASS.md in crates/*/src of a commit, point by point: places.py COMMIT [--list].
With --list each place is printed. Of the working tree: places.py . [--list]."""
import collections
import pathlib
import re
import subprocess
import sys


def sources(commit, pattern):
    """The text of each file of a commit whose path fits, or of the working tree for '.'."""
    if commit == ".":
        paths = [str(p) for p in pathlib.Path("crates").rglob("*") if p.is_file() and "/out/" not in str(p)]
        read = lambda path: pathlib.Path(path).read_text()
    else:
        paths = subprocess.run(["git", "ls-tree", "-r", "--name-only", commit, "crates"], capture_output=True, text=True, check=True).stdout.split("\n")
        read = lambda path: subprocess.run(["git", "show", f"{commit}:{path}"], capture_output=True, text=True, check=True).stdout
    return {path: read(path) for path in sorted(paths) if re.fullmatch(pattern, path)}


def lines_like(texts, pattern):
    return [f"{path}:{n}: {line.strip()}" for path, text in texts.items() for n, line in enumerate(text.split("\n"), 1) if re.search(pattern, line)]


def functions(texts):
    """Each function: where it is, its name, its parameters by name, its contract, its body."""
    form = re.compile(r"^( *)(?:pub(?:\(crate\))? )?(?:extern \"C\" )?fn (\w+)(?:<[^(]*>)?\((.*?)\)(?: -> [^\n{]*?)?\s*((?:\n *(?:requires|ensures)[^\n]*)*)\s*\{\n(.*?)\n\1\}", re.S | re.M)
    for path, text in texts.items():
        for found in form.finditer(text):
            params = [p.split(":")[0].strip() for p in re.split(r",(?![^<\[]*[>\]])", found[3]) if p.strip()]
            yield f"{path}:{text[:found.start()].count(chr(10)) + 1}", found[2], params, found[4], found[5]


def shape(body):
    body = re.sub(r"//.*", "", body)
    return re.sub(r"\s+", " ", re.sub(r"\w+(?:::\w+)*", "w", body)).strip()


def conjuncts(contract):
    for clause in re.findall(r"requires \{ (.*) \}", contract):
        for part in clause.split(" × "):
            part = part.strip()
            while part.startswith("(") and part.endswith(")"):
                part = part[1:-1].strip()
            yield part


def counted(commit):
    code = sources(commit, r"crates/\w+/src/.*\.rt")
    proofs = sources(commit, r"crates/\w+/proofs/.*(?:Answers|Invariants)\.antt")
    all_functions = list(functions(code))
    shapes, facts, groups = collections.defaultdict(list), collections.defaultdict(set), collections.defaultdict(set)
    for place, name, params, contract, body in all_functions:
        if len(shape(body)) > 12:
            shapes[shape(body)].append(f"{place}: {name}")
        for fact in conjuncts(contract):
            facts[re.sub(r"\b(now|old|new)\b", "now", fact)].add(f"{place}: {name}")
        for i in range(len(params)):
            for j in range(i + 2, len(params) + 1):
                groups[tuple(params[i:j])].add(f"{place}: {name}")
    largest = [g for g, places in groups.items() if len(places) >= 3 and "rt" not in g]
    largest = [g for g in largest if not any(set(g) < set(other) and groups[g] == groups[other] for other in largest)]
    return [
        ("1 own enums", lines_like(code, r"^(pub )?enum ")),
        ("1 a refusal or a kind as a number in a struct", lines_like(code, r"pub (refusal|kind|number|value): u\d+")),
        ("1 a function that answers a refusal as a number", [f"{p}: {n}" for p, n, *_ in all_functions if re.search(rf"fn {n}\b[^{{]*-> u32", code[p.split(":")[0]]) and re.search("refusal|heights", n)]),
        ("1 numbers for kinds", lines_like(code, r"const (LEFT_OUT|FOR_\w+|VOID_\w+|[A-Z]+_(?:ABOVE|LENGTH|CORNER|BEYOND|MARK|CLOSED|ROOM|FORM)|REFUSED|SURVEYED|FILLED): u\d+")),
        ("1 a refusal told from none by its number", lines_like(code, r"(!=|==) Refusal::")),
        ("2 functions whose bodies have one shape", [" ~ ".join(places) for places in shapes.values() if len(places) > 1]),
        ("3 loops that are no for", lines_like(code, r"^\s*(while|loop)\b")),
        ("4 converting, copying, printing by hand", [f"{p}: {n}" for p, n, *_ in all_functions if re.fullmatch(r"wide|two|two_at|four_at|signed|one_if|one_if_kept|copy|put_digit|put_decimal|put|show_height|show_count|show_bits|next", n)]),
        ("4 tests that return true or false by hand", lines_like(code, r"return (true|false);")),
        ("5 a fact in the contracts of three or more", [f"{fact}: {len(places)}" for fact, places in facts.items() if len(places) >= 3]),
        ("5 parameters of three or more that go together", [f"({', '.join(g)}): {len(groups[g])}" for g in largest]),
        ("6 a buffer, and an index or a length beside it", [f"{p}: {n}" for p, n, params, *_ in all_functions if {"at", "from", "end", "next"} & set(params) and {"out", "places", "marks", "heights", "input"} & set(params)]),
        ("7 a flag that picks the step", [f"{p}: {n}({flag})" for p, n, params, *_ in all_functions for flag in params if flag in ("turned", "corner", "near", "inside", "good", "void", "kept")]),
        ("8 answers", lines_like(proofs, r"^pub .* : goal\.")),
        ("8 files of answers and invariants", list(proofs)),
    ]


for name, places in counted(sys.argv[1]):
    print(f"{len(places):4} {name}")
    if "--list" in sys.argv:
        print("".join(f"       {place}\n" for place in places), end="")
