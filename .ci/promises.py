"""docs/PROMISES.md beside the code: every function that another crate can call has an `ensures`, and is named there by its path, once."""
import re

ENSURES = re.compile(r"\bensures(?: \w+)? \{")

FUNCTION = re.compile(r'^( *)pub (?:[a-z]+ |"C" )*fn (\w+)(.*?)(?:\n\1\{|\{$)', re.M | re.S)
TYPE = re.compile(r"^impl(?:<[^>\n]*>)? (\w+)(?:<[^>\n]*>)? \{$(.*?)^\}$", re.M | re.S)

# A trait of the standard library for a type: what its function answers is said by a ghost member.
TRAIT = re.compile(r"^impl (\w+)<(\w+)> for (\w+) \{$(.*?)^\}$", re.M | re.S)
GIVES = re.compile(r"^    ghost \w+_gives = \{(.*?)\};$", re.M)


def module_of(path):
    """crates/grid/src/points.rt is grid::points, and lib.rt is the crate itself."""
    crate, _, *inner = path.removeprefix("crates/").removesuffix(".rt").split("/")
    return "::".join([crate] + [part for part in inner if part != "lib"])


def functions_of(path, text):
    """Each public function of a file, by its path: what stands before its body."""
    module = module_of(path)
    blocks = [(f"{module}::{name}", body) for name, body in TYPE.findall(text)]
    blocks.append((module, TRAIT.sub("", TYPE.sub("", text))))
    named = [(f"{where}::{name}", head) for where, body in blocks for _, name, head in FUNCTION.findall(body)]
    return named + [(f"{module}::{kind[0].upper()}{kind[1:]}{trait}{of}::{name}", "".join(f"ensures {{{said}}}" for said in GIVES.findall(body)))
                    for trait, of, kind, body in TRAIT.findall(text) for name in re.findall(r"^    fn (\w+)", body, re.M)]


def reading_faults(path, text, found):
    """What the patterns here do not see must not pass for nothing."""
    public = len(re.findall(r"^\s*pub [^(\n]*\bfn ", text, re.M)) + sum(len(re.findall(r"^    fn ", body, re.M)) for *_, body in TRAIT.findall(text))
    faults = [] if public == len(found) else [f"{path}: {public} public functions, of which {len(found)} could be read"]
    return faults + [f"{path}: {line.strip()}: not read" for line in re.findall(r"^\s*(?:pub )?(?:mod \w+ \{|trait |impl.* for ).*$", TRAIT.sub("", text), re.M)]


def named_in(table):
    """The paths in the first column. A name alone has the path of the first in its row."""
    rows = re.findall(r"^\| (`\w+::[^|]*) \|", table, re.M)
    names = [re.findall(r"`([\w:]+)`", row) for row in rows]
    return [name if "::" in name else f"{row[0].rsplit('::', 1)[0]}::{name}" for row in names for name in row]


def says_nothing_of(call, head):
    """A public call's promise speaks of all that is handed over, and of what is lent as it was and as it is left."""
    taken, promised = head.split("ensures", 1)
    faults = []
    for name, kind in re.findall(r"(\w+): (&mut|&)?", taken):
        says = {"&mut": (f"{name}.old", f"{name}.new"), "&": (f"{name}.now",), "": (name,)}[kind]
        faults += [f"{call}: its promise does not speak of {s}" for s in says if not re.search(rf"(?<!\w){re.escape(s)}(?!\w)", promised)]
    return faults


def once_faults(contracts, sources):
    """Of each function that another crate can call: that no second answer fits its contract, as the checker has it."""
    faults = []
    for path, text in sources.items():
        for name, _ in functions_of(path, text):
            crate, *inner = name.split("::")
            read = re.search(rf"^use Rattle\.{crate}\.proofs\.{re.escape('.'.join(inner))}\.Reads as ([\w-]+)$", contracts, re.M)
            said = read and re.search(rf"^pub {read[1].replace('-', '_')}_once(?:_lem)? : .* → {read[1]}\.Learnt k a r o → {read[1]}\.Learnt k a r' o' →", contracts, re.M)
            if not said:
                faults.append(f"{name}: crates/settled/proofs/Contracts.antt does not say that no second answer fits its contract")
    return faults


def export_faults(exported, sources):
    """A static library, whose functions no crate can call: those of the library below it, each with what it takes, its answer and its clauses word for word,
    the names in them brought in from where that one has them."""
    ours = {name.split("::")[-1]: head for path, text in exported.items() for name, head in functions_of(path, text)}
    theirs = {name.split("::")[-1]: head for path, text in sources.items() for name, head in functions_of(path, text)}
    faults = [f"{name} is exported, and not as the library has it" for name in ours if ours[name] != theirs.get(name)]
    faults += [f"{name} is not exported" for name in theirs if name not in ours] + ([] if ours else ["nothing is exported"])
    uses = {use for text in sources.values() for use in re.findall(r"^(?:ghost )?use .*;$", text, re.M)}
    strange = [u for text in exported.values() for u in re.findall(r"^ghost use .*;$", text, re.M) if u not in uses]
    return faults + [f"the library has not: {use}" for use in strange]


def promise_faults(document, sources):
    """`sources`: the text of each file of the libraries, by its path."""
    found, faults = {}, []
    for path, text in sources.items():
        here = functions_of(path, text)
        faults += reading_faults(path, text, here)
        faults += [f"{name} is there twice" for name, _ in here if name in found]
        found.update(here)
    public = named_in(document.split("## Public calls")[1].split("\n## ")[0])
    between = named_in(document.split("## Functions between crates")[1].split("\n## ")[0])
    faults += [f"docs/PROMISES.md names {name}, and it is not there" for name in public + between if name not in found]
    faults += [f"docs/PROMISES.md names {name} {(public + between).count(name)} times" for name in found if (public + between).count(name) != 1]
    faults += [f"{name}: no `ensures`" for name, head in found.items() if not ENSURES.search(head)]
    for name in public:
        head = found.get(name, "")
        if "requires" in head:
            faults.append(f"{name}: a public call has no `requires`")
        elif ENSURES.search(head):
            faults += says_nothing_of(name, head)
    return faults


def path_faults(document, exists):
    """A file or folder that a document names is there: `grid/proofs/Rule`, `crates/mesh/specs/Meshed.antt`."""
    cited = sorted(set(re.findall(r"`(?:crates/)?((?:[a-z_]+)/(?:specs|proofs|src)/[\w+/]+?)(?:\.antt|\.rt)?(?:/\*)?`", document)))
    return [f"{path} is named, and not there" for path in cited if not exists(path)]


def cited_faults(document, edits, words):
    """A name with an underscore is that of an edit, or a word of the code, or defined in the rules or the proofs."""
    cited = sorted(set(re.findall(r"`([a-z]+(?:_[a-z0-9]+)+)`", document)))
    return [f"docs/PROMISES.md names {name}, which is no edit and no word of the crates" for name in cited if name not in edits and name not in words]
