"""docs/SPEED.md beside what the bench prints: its tables row by row, its table in short, and the numbers in its sentences."""
import re

SHORT = "In short, on a real window of size 7:"
REAL = ("real, t = 5", "7")
SELECTION = "Selection, instructions a sample:"
TRIANGLES = "Triangles: the look at the marks, instructions a sample; then the list, instructions a triangle:"
STRIP = "The strip, instructions a triangle, the look at the marks included; and the list so counted:"
QUERIES = "Height and plane, instructions a query, the mean over 4096 points:"
RATIOS = "Ours against C by size: selection, and triangles as a whole, in one call with room:"
VOIDS = "Selection of nothing but voids beside the corners, against the full real grid:"
STACK = "Stack, the most bytes that a call took on any of these grids:"


def tables_of(text):
    """Each table's lines, by the line above it."""
    return {title: rows.splitlines() for title, rows in re.findall(r"^([^|\n]+:)\n\n((?:\|.*\n)+)", text + "\n", re.M)}


def cells(row):
    return [cell.strip() for cell in row.strip("|").split("|")]


def row_of(tables, title, *first):
    """The row that begins so."""
    return next(c for c in map(cells, tables[title][2:]) if tuple(c[:len(first)]) == first)


def in_short(tables):
    """The table in short, made of the others."""
    marks = row_of(tables, TRIANGLES, *REAL)
    asked = row_of(tables, QUERIES, *REAL)
    rows = [("selection, a sample", row_of(tables, SELECTION, *REAL)[2:]), ("the look at the marks, a sample", marks[3:6]), ("the list, a triangle", marks[6:])]
    rows += [(what, [f"{float(ours):.0f}", f"{float(c):.0f}", ratio]) for what, (ours, c, ratio) in (("height, a query", asked[2:5]), ("plane, a query", asked[5:]))]
    return ["| | ours | C | ratio |", "|---|---|---|---|"] + [f"| {what} | {' | '.join(numbers)} |" for what, numbers in rows]


def ratios(tables, *grids):
    """Selection's ratios on these grids, at every size."""
    return [float(r) for c in map(cells, tables[RATIOS][2:]) if c[0].rsplit(",", 1)[0] in grids for r in c[1:6]]


def sentences(tables):
    """Sentences, a brace for each number, and the numbers."""
    smooth = max(float(c[-1]) for c in map(cells, tables[TRIANGLES][2:]) if c[0].startswith("smooth"))
    strip = [f"{float(n):.0f}" for n in row_of(tables, STRIP, *REAL)[4:]]
    stack = max(int(c[1]) for c in map(cells, tables[STACK][2:]) if c[0].startswith("strip"))
    grounds = [("real",), ("smooth", "flat"), ("void but the corners", "real, 90 % void")]
    return [
        ("the list alone takes {} times C's on smooth grids of few triangles", [f"{smooth:.2f}"]),
        ("Selection takes up to {} times C's on real ground, up to {} on smooth and flat ground and up to {} where nearly all is void.",
         [f"{max(ratios(tables, *grids)):.2f}" for grids in grounds]),
        ("A grid of nothing but voids costs {} times a full one", [f"{float(row_of(tables, VOIDS, '7')[1]):.1f}"]),
        ("takes {} instructions a triangle on the real window of size 7, the look at the marks included, where there is room for two places a triangle. "
         "Where there is less it is passed twice, once to count, and takes {}. The list takes {} a triangle so counted. Its stack is {} kB at size 7.",
         [*strip, f"{stack / 1000:.1f}"]),
    ]


def most(tables):
    """The largest ratio of height, of plane and of triangles as a whole."""
    return max([float(r) for c in map(cells, tables[QUERIES][2:]) for r in (c[4], c[7])] + [float(r) for c in map(cells, tables[RATIOS][2:]) for r in c[6:]])


def aims(tables):
    """What SPEED.md says of all rows: height, plane and triangles as a whole within 1.2 times C."""
    return [f"height, plane or triangles are not within 1.2 times C: {most(tables):.2f}"] if most(tables) > 1.2 else []


def limits(tables):
    """What must not be passed, whatever the kit: no call above 2 times C, voids below 3."""
    faults = ["a selection is above twice C"] if max(float(r) for c in map(cells, tables[RATIOS][2:]) for r in c[1:6]) > 2 else []
    faults += ["height, plane or triangles are above twice C"] if most(tables) > 2 else []
    return faults + (["voids cost more than 3 times a full grid"] if max(float(c[1]) for c in map(cells, tables[VOIDS][2:])) > 3 else [])


def pattern(sentence):
    """A sentence with any numbers, over any line breaks."""
    return r"\s+".join(re.escape(word).replace(r"\{\}", r"(\d+(?:\.\d+)?)") for word in sentence.split())


def numbers_in(document, sentence):
    found = re.findall(pattern(sentence), document)
    return [] if len(found) != 1 else [found[0]] if isinstance(found[0], str) else list(found[0])


def renumbered(document, sentence, numbers):
    """The sentence's numbers exchanged, its lines left as they are."""
    found = re.search(pattern(sentence), document)
    for group in range(len(numbers), 0, -1) if found else ():
        start, end = found.span(group)
        document = document[:start] + numbers[group - 1] + document[end:]
    return document


def with_figures(document, bench):
    """The document with the bench's figures; a table or a sentence that it lacks stays lacking."""
    tables = tables_of(bench)
    for title, rows in {**tables, SHORT: in_short(tables)}.items():
        document = re.sub(rf"(^{re.escape(title)}\n\n)(?:\|.*\n)+", lambda found: found[1] + "\n".join(rows) + "\n", document, flags=re.M)
    for sentence, numbers in sentences(tables):
        document = renumbered(document, sentence, numbers)
    return document


def ours_alone(rows):
    """What another compiler does not change: no number of C, and no ratio."""
    heads = cells(rows[0])
    kept = [n for n, head in enumerate(heads) if head not in ("C", "ratio") and not re.search(r"^\d$|m = \d", head)]
    return [[cells(row)[n] for n in kept] for row in rows if not row.startswith("| plain.o")]


def without_ours(rows, same_compiler):
    """What another kit does not change: what a row is of, what comes out, and C's numbers, if those are of the same compiler."""
    heads = cells(rows[0])
    kept = [n for n, head in enumerate(heads) if head in ("", "grid", "m", "call", "triangles", "places") or head == "C" and same_compiler]
    return [[cells(row)[n] for n in kept] for row in rows]


KIT = re.compile(r"^Kit: .*$", re.M)


def of_kit(document, kit):
    """Whether the document's figures are of this kit."""
    return KIT.findall(document) == [f"Kit: `{kit}`."]


def with_kit(document, kit):
    return KIT.sub(f"Kit: `{kit}`.", document)


def figure_faults(document, bench, same_compiler=True, same_kit=True):
    tables = tables_of(bench)
    there = tables_of(document)

    def compared(rows):
        return without_ours(rows, same_compiler) if not same_kit else rows if same_compiler else ours_alone(rows)

    wanted = {**tables, SHORT: in_short(tables)}
    faults = [] if len(KIT.findall(document)) == 1 else ["it does not say once of which kit it is"]
    faults += [f"it has no table: {title}" for title in wanted if title not in there]
    faults += [f"the bench prints no such table: {title}" for title in there if title not in wanted]
    faults += [f"the bench printed other rows: {title}" for title in wanted if title in there and title != SHORT and compared(there[title]) != compared(wanted[title])]
    if same_compiler:
        faults += limits(tables)
    if same_compiler and same_kit:
        faults += aims(tables)
        faults += [f"the bench printed other rows: {SHORT}"] if SHORT in there and there[SHORT] != wanted[SHORT] else []
        faults += [f"it does not say: {text.format(*numbers)}" for text, numbers in sentences(tables) if numbers_in(document, text) != numbers]
    return faults
