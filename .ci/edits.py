"""Must-fail edits: whether `rt` reads every line of one, and whether what `rt ci` tells of its refusal is a fact that
failed. `rt ci` tells one line an edit: of what the check said the first message that names nothing which the edit
took away, up to its 160th character. What lies behind that is not judged."""
import re


def edit_faults(text):
    """A comment may stand before the first `file:`. Then `rt` reads one line after each word, and passes over all others."""
    lines = text.splitlines()
    first = next((n for n, line in enumerate(lines) if line.startswith("file: ")), len(lines))
    faults = [f"line {n + 1} stands before the first `file:`" for n in range(first) if re.match(r"(old|new|file)\s*:", lines[n])]
    due = ("file: ",)
    old = None
    for number, line in enumerate(lines[first:], first + 1):
        word = next((w for w in ("file: ", "old: ", "new:") if line.startswith(w)), None)
        if word not in due:
            return faults + [f"line {number} is not read, or not where it stands: {line}"]
        if word == "file: " and not line.startswith(("file: src/", "file: specs/")):
            faults.append(f"line {number} is of a proof: an edit is of the code or of the rules")
        if word == "old: ":
            old = line.removeprefix(word)
        if word == "new:" and line.removeprefix(word).removeprefix(" ") == old:
            faults.append(f"line {number} changes nothing")
        due = {"file: ": ("old: ",), "old: ": ("new:",), "new:": ("file: ", "old: ")}[word]
    return faults if "old: " in due and "file: " in due else faults + ["it ends before its edit does"]


def told_of_edits(log):
    """What `rt ci` told of each edit, by crate and name: all its lines, of which there is to be one."""
    told = {}
    for name, said in re.findall(r"^rt: must-fail (\w+/[\w.-]+)\.edit: (.*)$", log, re.M):
        told.setdefault(name, []).append(said)
    return told


# `rt ci` gives so much of a message.
SHOWN = 160

# What says that a proof, or an edit, does not fit the code: a name, a field or a form that is not there, or a proof
# that only rests on another.
SHAPE = re.compile(
    r"(?:^|^`[^`]*`: )(?:`[^`]*` is not in scope|expected an? |missing field)|that can be named from here|has no field|is no name|"
    r"was not (?:admitted|checked)|was rejected|were not checked|no clause covers|write the clause")

DIFFER = re.compile(r"the two types (?:differ only|first differ) where one has `([^`]*)(?:`.*?and the other has `([^`]*))?")
ARE = re.compile(r"computed as far as they go, the two types are `([^`]*)(?:`\s*\(expected\) and `([^`]*))?")
HAS = re.compile(r"expected type `([^`]*)(?:`,? but this has type `([^`]*))?")
VALUES = re.compile(r"computed as far as they go, the two values are `")
OMEGA = re.compile(r"`omega`: [^`]*(?:`[^`]*`[^`]*)?does not follow from what it read")
# `rw` leaves an equation, and its sides differ.
LEAVES = re.compile(r"give a proof of that as the last argument, `rw L t`")
HOLDS = re.compile(r"`[^`]*` ≟ `[^`]*`: does not hold")
# An equation does not begin, or end, where it says.
FACE = re.compile(r"on the face `[^`]*` this λ's body is `")
# How those begin: of a message that is cut off sooner no more can be asked.
BEGIN = [way + types for way in ("as printed, ", "computed as far as they go, ") for types in (
    "the two types differ only where one has `", "the two types first differ where one has `", "the two types are `", "the two values are `")]
BEGIN += ["expected type `", "`omega`: the goal does not follow from what it read", "`omega`: the part `", "give a proof of that as the last argument, `rw L t`", "on the face `"]
# Where a proof stands, or what it is given: no claim of the rules.
PLACE = re.compile(r"\b(?:lts|tie|goal|given|reads|Lts|Tie|Goals|Given|Reads)\.|\b(?:After|At|In)-")


def named(term):
    """The name that a term begins with, without its module and what is in braces before it."""
    return re.sub(r"^\{[^}]*\}? ?", "", term).lstrip("(").split(" ")[0].rsplit(".", 1)[-1].rstrip(")")


def is_value(term, cut):
    """Not a type: those have names with a capital letter. Of a name that is cut off it is not known."""
    return not PLACE.search(term) and (not named(term)[:1].isupper() or cut and " " not in term)


def relation(claim):
    """What a claim says of its two sides."""
    return "≡" if named(claim) in ("Path", "◌≡◌") else next((r for r in "≡≢≤<" if f" {r} " in claim), None)


def same_claim(expected, found):
    """Whether two claims say the same of other values. A negation may be shown computed, as what leads to ⊥."""
    said = relation(expected)
    if said is None:
        return named(expected)[:1].isupper() and named(expected) == named(found) and expected != found
    return said == relation(found) or said == "≢" and found.endswith("→ ⊥")


def failed_fact(error, cut):
    """Whether an error says that something is not so: an equation whose sides differ, or a bound that numbers break."""
    if any(said.search(error) for said in (VALUES, OMEGA, LEAVES, HOLDS, FACE)):
        return True
    # the term in which the message ends
    last = error.rsplit("`", 1)[-1] if cut and error.count("`") % 2 else None
    differ = DIFFER.search(error)
    if differ:
        expected, found = differ.groups()
        found = None if found == last and " " not in (found or "") else found
        # what was learnt from a call is not what is claimed; or it is only told how the claim is printed
        if not PLACE.search(expected) and (named(found or "") == "Learnt" or found is None and "as printed, " in error):
            return True
        return all(is_value(term, term == last) for term in (expected, found) if term)
    both = ARE.search(error) or HAS.search(error)
    if not both:
        return cut and (any(begin.startswith(error) for begin in BEGIN) or re.match(r"`[^`]*` ≟ `[^`]*$", error) is not None)
    expected, found = both.groups()
    if PLACE.search(expected) or PLACE.search(found or ""):
        return False
    if found is None or found == last and relation(found) is None:
        return relation(expected) is not None or named(expected)[:1].isupper() or expected == last
    return same_claim(expected, found)


def refusal_fault(said):
    """What is wrong with what `rt ci` told of an edit, or nothing."""
    refused = re.fullmatch(r"refused, as it must be(?: (\(.*?\)))?(?:: (.*))?", said)
    if not refused:
        return f"it was not refused: {said[:200]}"
    if refused[1]:
        return f"refused {refused[1][:200]}"
    message = refused[2] or ""
    if re.match(r"note: \S+:\d+:\d+: it is not proved that ", message):
        return None
    error = re.match(r"\S+:\d+:\d+: error: (?:`[^`]*`: )?(.*)", message)
    if not error:
        return f"no error, and nothing that is not proved: {message[:200]}"
    if SHAPE.search(error[1]):
        return f"refused for its shape: {error[1][:200]}"
    return None if failed_fact(error[1], len(message) >= SHOWN) else f"its error tells of no fact that failed: {error[1][:200]}"


def all_edit_faults(edits, log):
    """The text of each edit, by crate and name, and what `rt ci` printed: one line an edit, and no other."""
    faults = [] if edits else ["no must-fail edit was found"]
    told = told_of_edits(log)
    faults += [f"{name}: a line without its edit" for name in told if name not in edits]
    for name, text in edits.items():
        faults += [f"{name}: {fault}" for fault in edit_faults(text)]
        said = told.get(name, [])
        faults += [f"{name}: told {len(said)} times of, and tried once"] if len(said) != 1 else []
        faults += [f"{name}: {fault}" for fault in map(refusal_fault, said) if fault]
    return faults
