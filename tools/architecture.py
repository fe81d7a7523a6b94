#!/usr/bin/env python3
"""Draws the crates of crates.txt and the way of a sheet's bytes through a call.

    python3 tools/architecture.py            writes docs/data/architecture.svg and docs/data/call.svg
    python3 tools/architecture.py --check    fails where a stored picture is not what this script draws

Which crate uses which is read from crates.txt; whether one is a program, from its src/main.rt. What a box says stands
below in GROUPS and STEPS: a new crate needs a line there, and the script says so.
"""

import pathlib
import sys
from html import escape

ROOT = pathlib.Path(__file__).resolve().parent.parent
WIDTH = 900
SANS = "system-ui, -apple-system, 'Segoe UI', Helvetica, Arial, 'DejaVu Sans', sans-serif"
MONO = "ui-monospace, SFMono-Regular, Menlo, Consolas, 'DejaVu Sans Mono', monospace"
# Words and lines outside the boxes: a grey that is read on a white page and on a dark one.
GREY = "#727b85"
LINE = "#8b949e"

# What the crates are for: a colour, what it stands for, and for each crate the words in its box.
GROUPS = [
    ("#b45309", "the calls", {
        "answers": "the three calls, proved",
        "exports": "the static library for C",
    }),
    ("#1d4ed8", "types in lent buffers", {
        "buffers": "compare, copy, lay types",
        "partners": "which field feeds which",
        "wrappers": "Dictionary and run ends",
        "rule_order": "the order of the rules",
        "merge": "two types into one",
        "resolution": "fold a list, join a pair",
    }),
    ("#7c3aed", "the rules of the source", {
        "coercion": "all rules, as definitions",
        "plain": "types without parts",
    }),
    ("#0f766e", "the sheet", {
        "sheet": "the format: records, labels",
        "refusals": "the check: refusals 1 to 5",
    }),
    ("#57606a", "programs and what they share", {
        "shelf": "asks the three questions",
        "replay": "runs the stored answers",
        "plain_pairs": "every pair of plain types",
        "sheet_check": "stored sheets, checked",
        "harness": "reads files, counts runs",
    }),
]


def crates():
    """Each crate of crates.txt with those of the file that it uses, and the crates that are run or linked."""
    uses, last = {}, set()
    for line in (ROOT / "crates.txt").read_text(encoding="utf-8").splitlines():
        line = line.split("#")[0]
        if line.strip():
            head, _, used = line.partition(":")
            name, *words = head.split()
            uses[name] = used.split()
            if "staticlib" in words or (ROOT / "crates" / name / "src" / "main.rt").exists():
                last.add(name)
    return {name: [u for u in used if u in uses] for name, used in uses.items()}, last


def reduced(uses):
    """The same without a use that follows from the others."""
    below = {}

    def reach(name):
        if name not in below:
            below[name] = set(uses[name]).union(*(reach(u) for u in uses[name]))
        return below[name]

    def follows(u, used):
        return any(u in reach(v) for v in used if v != u)

    return {name: [u for u in used if not follows(u, used)] for name, used in uses.items()}


def layers(uses, last):
    """The row of each crate, from 0 at the bottom: one above all that it uses; what is run or linked, in the top row;
    a crate that uses none, just below the lowest that uses it."""
    row = {}

    def depth(name):
        if name not in row:
            row[name] = 1 + max((depth(u) for u in uses[name]), default=-1)
        return row[name]

    top = max(depth(name) for name in uses)
    row.update((name, top) for name in last)
    users = {name: [v for v in uses if name in uses[v]] for name in uses}
    for name in uses:
        if not uses[name] and users[name]:
            row[name] = min(row[v] for v in users[name]) - 1
    return row, top


class Graph:
    """The boxes in their rows, with a point in each row that a line passes."""

    BOX, HEIGHT, GAP_LEAST, GAP, POINT, TOP, SIDE = 168, 42, 22, 10, 22, 8, 10

    def __init__(self, uses, last):
        row, self.top = layers(uses, last)
        self.rows = [[] for _ in range(self.top + 1)]
        self.below = {}
        for name in uses:
            self.rows[row[name]].append(name)
            self.below.setdefault(name, [])
        self.lines = []
        for name in uses:
            for used in uses[name]:
                path = [name] + [(name, used, r) for r in range(row[name] - 1, row[used], -1)] + [used]
                for point in path[1:-1]:
                    self.rows[point[2]].append(point)
                    self.below[point] = []
                for a, b in zip(path, path[1:]):
                    self.below[a].append(b)
                self.lines.append(path)
        self.above = {a: [] for a in self.below}
        for a, bs in self.below.items():
            for b in bs:
                self.above[b].append(a)
        self.order()
        self.place()

    def crossings(self):
        count = 0
        for high, low in zip(self.rows[1:], self.rows):
            at = {a: i for i, a in enumerate(low)}
            ends = [at[b] for a in high for b in sorted(self.below[a], key=at.get)]
            count += sum(x > y for i, x in enumerate(ends) for y in ends[i + 1:])
        return count

    def order(self):
        """Few crossings: each row by the middle of its neighbours, up and down, then by exchange of neighbours."""
        def middle(a, near, at):
            return sum(at[b] for b in near[a]) / len(near[a]) if near[a] else at[a]

        best, count = [list(r) for r in self.rows], self.crossings()
        for turn in range(40):
            down = turn % 2 == 0
            near = self.above if down else self.below
            for r in range(self.top - 1, -1, -1) if down else range(1, self.top + 1):
                other = self.rows[r + 1 if down else r - 1]
                at = {a: (i + 0.5) / len(other) for i, a in enumerate(other)}
                at.update((a, (i + 0.5) / len(self.rows[r])) for i, a in enumerate(self.rows[r]))
                self.rows[r].sort(key=lambda a: middle(a, near, at))
            for r in self.rows:
                for i in range(len(r) - 1):
                    now = self.crossings()
                    r[i], r[i + 1] = r[i + 1], r[i]
                    if self.crossings() >= now:
                        r[i], r[i + 1] = r[i + 1], r[i]
            if self.crossings() < count:
                best, count = [list(r) for r in self.rows], self.crossings()
        self.rows = best

    def wide(self, a):
        return self.BOX if isinstance(a, str) else self.POINT

    def place(self):
        """Where each box and each long line stands: near what it is tied to, and no two on each other. A line is
        straight from the row below its upper end to the row above its lower one."""
        unit = {a: a if isinstance(a, str) else a[:2] for r in self.rows for a in r}
        units = list(dict.fromkeys(unit[a] for r in self.rows for a in r))
        apart = {}
        for r in self.rows:
            for a, b in zip(r, r[1:]):
                apart[unit[a], unit[b]] = (self.wide(a) + self.wide(b)) / 2 + self.GAP
        near = {u: [] for u in units}
        for a, bs in self.below.items():
            for b in bs:
                u, v = unit[a], unit[b]
                if u != v:
                    alone = len(self.below[a]) == 1 and len(self.above[b]) == 1
                    weight = (12 if alone else 3) if isinstance(a, str) and isinstance(b, str) else 1
                    near[u].append((v, weight))
                    near[v].append((u, weight))
        half = {u: (self.BOX if isinstance(u, str) else self.POINT) / 2 for u in units}
        x = {u: WIDTH / 2 for u in units}
        for r in self.rows:
            at = (WIDTH - sum(self.wide(a) + self.GAP for a in r)) / 2
            for a in r:
                x[unit[a]] = at + self.wide(a) / 2
                at += self.wide(a) + self.GAP
        for turn in range(3000):
            for u in units if turn % 2 else reversed(units):
                if near[u]:
                    wish = sum(w * x[v] for v, w in near[u]) / sum(w for _, w in near[u])
                    x[u] += (wish - x[u]) * 0.5
            for turn in range(3):
                for (u, v), least in apart.items():
                    over = least - (x[v] - x[u])
                    if over > 0:
                        x[u] -= over / 2
                        x[v] += over / 2
                for u in units:
                    x[u] = min(max(x[u], self.SIDE + half[u]), WIDTH - self.SIDE - half[u])
        for _ in units:
            for (u, v), least in apart.items():
                x[v] = max(x[v], x[u] + least)
        for _ in units:
            for (u, v), least in apart.items():
                x[v] = min(x[v], WIDTH - self.SIDE - half[v])
                x[u] = min(x[u], x[v] - least)
        self.x = {a: round(x[u], 1) for a, u in unit.items()}
        self.space()

    def space(self):
        """The height of the gap below each row: more where many lines go far to the side."""
        self.ys = [0.0] * (self.top + 1)
        y = float(self.TOP)
        for r in range(self.top, -1, -1):
            self.ys[r] = y
            far = sum(abs(self.x[a] - self.x[b]) > 90 for a in self.rows[r] for b in self.below[a])
            y += self.HEIGHT + self.GAP_LEAST + min(6 * max(0, far - 1), 34)

    def y(self, r):
        return self.ys[r]

    def height(self):
        return self.y(0) + self.HEIGHT

    def ports(self, a, ends):
        """A place on a box's side for each line that ends there, from left to right."""
        ends = sorted(set(ends), key=self.x.get)
        apart = min(26, (self.BOX - 40) / max(1, len(ends) - 1))
        return {b: self.x[a] + apart * (i - (len(ends) - 1) / 2) for i, b in enumerate(ends)}

    def path(self, line):
        rows = {a: i for i, r in enumerate(self.rows) for a in r}
        points = []
        for i, a in enumerate(line):
            y = self.y(rows[a])
            if i == 0:
                points.append((self.ports(a, self.below[a])[line[1]], y + self.HEIGHT))
            elif i == len(line) - 1:
                points.append((self.ports(a, self.above[a])[line[-2]], y - 6))
            else:
                points += [(self.x[a], y), (self.x[a], y + self.HEIGHT)]
        d = f"M{points[0][0]:.1f},{points[0][1]:.1f}"
        for i in range(0, len(points) - 1, 2):
            (x, y), (u, v) = points[i], points[i + 1]
            bend = (v - y) / 2
            d += f" C{x:.1f},{y + bend:.1f} {u:.1f},{v - bend:.1f} {u:.1f},{v:.1f}"
            if i + 2 < len(points):
                d += f" V{points[i + 2][1]:.1f}"
        return d


def page(height, title, described, body):
    return (
        f'<svg xmlns="http://www.w3.org/2000/svg" width="{WIDTH}" height="{height:g}" '
        f'viewBox="0 0 {WIDTH} {height:g}" role="img" aria-labelledby="title desc" font-family="{escape(SANS)}">\n'
        f'<title id="title">{escape(title)}</title>\n<desc id="desc">{escape(described)}</desc>\n'
        + "".join(body)
        + "</svg>\n"
    )


def text(x, y, words, size=11.5, fill=GREY, anchor="start", weight="normal", family=None):
    more = f' font-family="{escape(family)}"' if family else ""
    return (
        f'<text x="{x:g}" y="{y:g}" font-size="{size:g}" fill="{fill}" text-anchor="{anchor}" '
        f'font-weight="{weight}"{more}>{escape(words)}</text>\n'
    )


def arrow(name):
    return (
        f'<marker id="{name}" viewBox="0 0 8 8" refX="1" refY="4" markerWidth="7" markerHeight="7" orient="auto">'
        f'<path d="M0,0.6 L7,4 L0,7.4 z" fill="{LINE}"/></marker>\n'
    )


def drawn(path, marker):
    return f'<path d="{path}" fill="none" stroke="{LINE}" stroke-width="1.5" marker-end="url(#{marker})"/>\n'


def listed(names):
    names = list(names)
    return names[0] if len(names) == 1 else ", ".join(names[:-1]) + " and " + names[-1]


def draw_crates(uses, last):
    lean = reduced(uses)
    graph = Graph(lean, last)
    colour = {name: c for c, _, names in GROUPS for name in names}
    words = {name: w for _, _, names in GROUPS for name, w in names.items()}
    body = ["<defs>\n", arrow("uses"), "</defs>\n"]
    for line in graph.lines:
        body.append(drawn(graph.path(line), "uses"))
    for r, row in enumerate(graph.rows):
        for name in row:
            if isinstance(name, str):
                x, y = graph.x[name], graph.y(r)
                body.append(
                    f'<rect x="{x - graph.BOX / 2:.1f}" y="{y:g}" width="{graph.BOX}" height="{graph.HEIGHT}" '
                    f'rx="7" fill="{colour[name]}"/>\n'
                )
                body.append(text(round(x, 1), y + 18, name, 13, "#ffffff", "middle", "bold", MONO))
                body.append(text(round(x, 1), y + 33, words[name], 11, "#ffffff", "middle"))
    at, base = 14, graph.height() + 34
    for c, group, _ in GROUPS:
        body.append(f'<rect x="{at:g}" y="{base - 11:g}" width="14" height="14" rx="3" fill="{c}"/>\n')
        body.append(text(at + 21, base, group, 12.5))
        at += 42 + 6.5 * len(group)
    body.append(drawn(f"M{at:g},{base - 4:g} h22", "uses"))
    body.append(text(at + 36, base, "uses", 12.5))
    uses_in_words = "; ".join(f"{name} uses {listed(used)}" for name, used in lean.items() if used)
    return page(
        base + 14,
        "The crates of Pemzhulaq",
        f"Each crate of crates.txt is a box above the crates that it uses, without uses that follow: {uses_in_words}.",
        body,
    )


# The way of a sheet's bytes: for each step its words, the crates whose code does it, and what happens to the parts of
# what was lent. A part is a letter: r read, w written, 0 set to zero, and . as it was. Sheet and halves have two parts,
# records and labels; the output has what is answered and the rest.
STEPS = [
    ("The sheet is checked", ["refusals"],
     ["torn, kind, chain, figure, label: refused 1 to 5"], "rr", "..", "..", ".."),
    ("Mask, number of types, room", ["answers"],
     ["mask, pair, space: refused 6 to 8", "up to here no lent byte has changed"], "r.", "..", "..", ".."),
    ("What is asked", ["resolution", "plain"],
     ["a list: all the same? of one category? then the fold", "union, compare: the two types; plain ones by value"],
     "rr", "..", "..", ".."),
    ("The other side is laid out", ["resolution"],
     ["the candidate comes over from the second half;", "for the first pair, a copy of the sheet"],
     "..", "ww", "rr", ".."),
    ("Two types are merged", ["merge", "buffers"],
     ["left from the sheet, right from the first half;", "the common type is the next candidate"],
     "rr", "rr", "ww", ".."),
    ("The answer is written", ["answers"],
     ["the common type, as a one-type sheet"], "..", "..", "rr", "w."),
    ("The work space is cleared", ["answers"],
     ["both halves; then none or a byte length is reported"], "..", "00", "00", ".."),
]
# The step that is done again, from which one on, for each further type of a list.
AGAIN = (3, 4)
STATES = {"r": ("#2563eb", "read"), "w": ("#b45309", "written"), "0": ("#57606a", "zero"), ".": (None, "as it was")}
# Where the columns of memory begin and end, and where their parts meet.
COLUMNS = [
    ("sheet", 398, 542, 0.7), ("first half", 566, 660, 0.7), ("second half", 666, 760, 0.7), ("output", 784, 890, 0.6),
]
HEADS = [
    ("records", 448), ("labels", 520), ("first half", 613), ("second half", 713), ("answer", 816), ("rest", 869),
]


def memory(x, y, high, low, left, right, meet):
    body = []
    cut = x + (left - x) + (right - left) * meet
    for at, end, state in ((left, cut, high), (cut, right, low)):
        fill, _ = STATES[state]
        body.append(
            f'<rect x="{at:g}" y="{y:g}" width="{end - at:g}" height="24" fill="{fill or "none"}" stroke="{LINE}"/>\n'
        )
        if fill and at == left:
            body.append(text((at + end) / 2, y + 16, STATES[state][1], 11, "#ffffff", "middle"))
    return body


def draw_call(names):
    for title, used, *_ in STEPS:
        for name in used:
            if name not in names:
                sys.exit(f"tools/architecture.py: STEPS names {name}, which crates.txt does not")
    tall, step, top = 60, 76, 58
    body = ["<defs>\n", arrow("then"), "</defs>\n"]
    for words, left, right, _ in COLUMNS:
        if words not in ("first half", "second half"):
            body.append(text((left + right) / 2, 20, words, 13.5, GREY, "middle", "bold"))
    body.append(text((COLUMNS[1][1] + COLUMNS[2][2]) / 2, 20, "work space", 13.5, GREY, "middle", "bold"))
    for words, x in HEADS:
        body.append(text(x, 40, words, 11, GREY, "middle"))
    for i, (title, used, words, *parts) in enumerate(STEPS):
        y = top + step * i
        body.append(f'<rect x="34" y="{y}" width="338" height="{tall}" rx="7" fill="#424a53"/>\n')
        first = y + (22 if len(words) == 2 else 26)
        body.append(text(46, first, f"{i + 1}  {title}", 13, "#ffffff", "start", "bold"))
        body.append(text(362, first, ", ".join(used), 11, "#ffffff", "end", "normal", MONO))
        for j, line in enumerate(words):
            body.append(text(63, first + 17 + 14 * j, line, 11.5, "#ffffff"))
        for (_, left, right, meet), state in zip(COLUMNS, parts):
            body += memory(left, y + 18, state[0], state[1], left, right, meet)
        if i + 1 < len(STEPS):
            body.append(drawn(f"M203,{y + tall} V{y + step - 6}", "then"))
    low, high = (top + step * i + tall / 2 for i in reversed(AGAIN))
    body.append(drawn(f"M34,{low:g} H24 Q16,{low:g} 16,{low - 8:g} V{high + 8:g} Q16,{high:g} 24,{high:g} H28", "then"))
    base = top + step * len(STEPS) + 12
    body.append(text(16, base, f"steps {AGAIN[0] + 1} and {AGAIN[1] + 1} again for each further type of a list", 12.5))
    at = 398
    for state in "rw0.":
        fill, words = STATES[state]
        body.append(
            f'<rect x="{at:g}" y="{base - 11}" width="14" height="14" fill="{fill or "none"}" stroke="{LINE}"/>\n'
        )
        body.append(text(at + 21, base, words, 12.5))
        at += 46 + 6.5 * len(words)
    said = []
    places = ["the sheet", "the first half of the work space", "the second half", "the output"]
    for i, (title, used, words, *parts) in enumerate(STEPS):
        done = [f"{place} is {STATES[p[0]][1]}" for place, p in zip(places, parts) if p[0] != "."]
        seen = listed(done).capitalize() if done else "All is as it was"
        said.append(f"{i + 1}. {title} ({', '.join(used)}): {' '.join(words)}. {seen}.")
    return page(base + 14, "The way of a sheet's bytes through a call", " ".join(said), body)


def main():
    uses, last = crates()
    known = {name for _, _, names in GROUPS for name in names}
    for name in sorted(set(uses) ^ known):
        where = "crates.txt" if name in uses else "GROUPS"
        sys.exit(f"tools/architecture.py: {name} stands in {where} alone: a crate needs a line in both")
    pictures = {"docs/data/architecture.svg": draw_crates(uses, last), "docs/data/call.svg": draw_call(uses)}
    stale = 0
    for name, picture in pictures.items():
        path = ROOT / name
        if "--check" in sys.argv[1:]:
            if not path.exists() or path.read_text(encoding="utf-8") != picture:
                print(f"{name}: not what tools/architecture.py draws from crates.txt; run it")
                stale = 1
        else:
            path.write_text(picture, encoding="utf-8")
            print(name)
    return stale


if __name__ == "__main__":
    sys.exit(main())
