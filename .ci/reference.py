"""What meshprint prints of a survey, from document 01 by plain coordinates: fills by recursion, the closed set by adding what is missing, triangles by
cutting. It shares nothing with the proved code. Only for surveys that selection accepts."""

VOID = -32768


def relatives(n, x, y):
    """A point's ends, and what it depends on, inside the square."""
    s = 1
    while x % (2 * s) == 0 and y % (2 * s) == 0:
        s *= 2
    if x // s % 2 and y // s % 2:
        around = [(x + i * s, y + j * s) for i in (-1, 1) for j in (-1, 1)]
        ends = [(a, b) for a, b in around if (a // (2 * s) + b // (2 * s)) % 2 == 0]
        depends = [p for p in around if p not in ends]
    elif x // s % 2:
        ends, depends = [(x - s, y), (x + s, y)], [(x, y - s), (x, y + s)]
    else:
        ends, depends = [(x, y - s), (x, y + s)], [(x - s, y), (x + s, y)]
    return ends, [(a, b) for a, b in depends if 0 <= a <= n and 0 <= b <= n]


def kept_points(survey, m, tolerance):
    n = 2 ** m
    corners = {(0, 0), (n, 0), (0, n), (n, n)}
    known = {}

    def height(p):
        if p not in known:
            h = survey[p[1] * (n + 1) + p[0]]
            known[p] = h if h != VOID else sum(map(height, relatives(n, *p)[0])) // 2
        return known[p]

    kept = set(corners)
    for p in [(x, y) for y in range(n + 1) for x in range(n + 1)]:
        if p not in corners and survey[p[1] * (n + 1) + p[0]] != VOID:
            if abs(2 * height(p) - sum(map(height, relatives(n, *p)[0]))) > 2 * tolerance:
                kept.add(p)
    grown = True
    while grown:
        missing = {q for p in kept - corners for q in relatives(n, *p)[1]} - kept
        kept |= missing
        grown = bool(missing)
    return kept


def printed(survey, m, tolerance):
    n = 2 ** m
    kept = kept_points(survey, m, tolerance)
    lines = []

    def cut(l, a, r, cuts):
        across, up = l[0] + r[0], l[1] + r[1]
        c = (across // 2, up // 2)
        if across % 2 == 0 and up % 2 == 0 and c in kept:
            cut(l, c, a, cuts + 1)
            cut(a, c, r, cuts + 1)
        else:
            order = (r, a, l) if cuts % 2 else (l, a, r)
            lines.append(" ".join(str(y * (n + 1) + x) for x, y in order))

    cut((0, 0), (n, 0), (n, n), 0)
    cut((n, n), (0, n), (0, 0), 0)
    return "".join(line + "\n" for line in [f"T {len(lines)}"] + lines)
