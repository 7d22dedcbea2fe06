"""The crates of the repository as an SVG, from crates.txt."""

from collections import namedtuple

from svg import SOFT, rect, sheet, short, tag, words

BOX, FLOOR, GAP, EDGE, TOP = 44, 104, 22, 70, 64
LETTER, SMALL, BEND = 8.6, 5.6, 8  # pixels of a letter of a name, of the small line below it, and of a bend
COLOURS = ["#dbe9fb", "#fbe5d3", "#dff1e1", "#f6ddec", "#e9e4f7", "#f3efce", "#d9f0f0"]
SWEEPS = 12

# A crate: its heading in crates.txt, the repository's crates that it stands on, the kit's that it uses.
Crate = namedtuple("Crate", "name heading stands_on uses")


class Bend(namedtuple("Bend", "upper lower floor")):
    """Where a line passes a floor between its two crates."""

    @property
    def name(self):
        return "%s > %s at %d" % self


def read_crates(text):
    """The crates of crates.txt, by name, in their order."""
    heading, lines = "", []
    for row in text.splitlines():
        row = row.strip()
        if row.startswith("#"):
            heading = row.lstrip("# ")
        elif row:
            head, _, rest = row.partition(":")
            lines.append((head.split()[0], heading, rest.split()))
    names = {name for name, _, _ in lines}
    return {name: Crate(name, heading, [one for one in rest if one in names], [one for one in rest if one not in names])
            for name, heading, rest in lines}


def below(crates, name):
    """All crates under one."""
    found = set()
    for one in crates[name].stands_on:
        found |= {one} | below(crates, one)
    return found


def direct(crates, name):
    """Those that a crate stands on and that no other one of them stands on."""
    stands_on = crates[name].stands_on
    return [one for one in stands_on if not any(one in below(crates, other) for other in stands_on)]


def floor_of(crates, name):
    """1 for a crate that stands on none, else one more than the highest below it."""
    return 1 + max([floor_of(crates, one) for one in crates[name].stands_on] + [0])


def width_of(node):
    """How wide a box is; a bend of a line has no box."""
    if isinstance(node, Bend):
        return BEND
    return max(LETTER * len(node.name), SMALL * len(" ".join(node.uses))) + 22


def lines_of(crates):
    """Each line of the drawing, as its nodes from above to below: a crate, a bend on each floor between, a crate."""
    found = []
    for name, crate in crates.items():
        for one in direct(crates, name):
            between = range(floor_of(crates, name) - 1, floor_of(crates, one), -1)
            found.append([crate] + [Bend(name, one, floor) for floor in between] + [crates[one]])
    return found


def spread(row, wanted):
    """The nodes of one floor in the order of their wanted middles, moved apart where they would touch."""
    row = sorted(row, key=lambda node: wanted[node.name])
    middles, edge = {}, None
    for node in row:
        half, want = width_of(node) / 2, wanted[node.name]
        middles[node.name] = want if edge is None else max(want, edge + GAP + half)
        edge = middles[node.name] + half
    shift = sum(wanted[node.name] - middles[node.name] for node in row) / len(row)
    return {name: middle + shift for name, middle in middles.items()}


def places(crates, lines):
    """The middle of each node: each near the middle of those that it is joined with."""
    nodes = {node.name: node for node in list(crates.values()) + [node for one in lines for node in one]}
    joined = {name: [] for name in nodes}
    for one in lines:
        for upper, lower in zip(one, one[1:]):
            joined[upper.name].append(lower.name)
            joined[lower.name].append(upper.name)
    floors = {}
    for name, node in nodes.items():
        floors.setdefault(node.floor if isinstance(node, Bend) else floor_of(crates, name), []).append(node)
    middle = {name: 60.0 * index for index, name in enumerate(nodes)}
    for _ in range(SWEEPS):
        for floor in sorted(floors):
            wanted = {node.name: sum(middle[one] for one in joined[node.name]) / len(joined[node.name])
                      if joined[node.name] else middle[node.name] for node in floors[floor]}
            middle.update(spread(floors[floor], wanted))
    return packed(nodes, joined, middle)


def packed(nodes, joined, middle):
    """The parts of the drawing that no line joins, one beside the other."""
    edge, left = EDGE, set(nodes)
    for name in nodes:
        if name not in left:
            continue
        part, more = set(), [name]
        while more:
            one = more.pop()
            if one not in part:
                part.add(one)
                more += joined[one]
        left -= part
        start = min(middle[one] - width_of(nodes[one]) / 2 for one in part)
        for one in part:
            middle[one] += edge - start
        edge = max(middle[one] + width_of(nodes[one]) / 2 for one in part) + 2 * GAP
    return middle


def draw(text):
    """The SVG."""
    crates = read_crates(text)
    lines = lines_of(crates)
    middle = places(crates, lines)
    highest = max(floor_of(crates, name) for name in crates)
    top = {name: TOP + FLOOR * (highest - floor_of(crates, name)) for name in crates}
    headings = list(dict.fromkeys(crate.heading for crate in crates.values()))
    parts = []
    for floor in range(1, highest + 1):
        parts.append(words(14, TOP + FLOOR * (highest - floor) + BOX / 2 + 4, "floor %d" % floor, 10, SOFT))
    for one in lines:
        parts.append(joint(one, middle, top, highest))
    carries = {one for crate in crates.values() for one in crate.stands_on}
    for name, crate in crates.items():
        parts += box(crate, middle[name], top[name], COLOURS[headings.index(crate.heading) % len(COLOURS)],
                     name in carries)
    width = max(middle[name] + width_of(crates[name]) / 2 for name in crates) + EDGE / 2
    height = TOP + FLOOR * highest
    parts += legend(headings, height - 24)
    return sheet(max(width, sum(46 + 6.6 * len(heading) for heading in headings) + 190), height + 10, parts)


def joint(nodes, middle, top, highest):
    """The line from a crate down to one that it stands on, straight past the boxes between."""
    first, last = nodes[0].name, nodes[-1].name
    path = ["M%s %s" % (short(middle[first]), short(top[first] + BOX))]
    for bend in nodes[1:-1]:
        y = TOP + FLOOR * (highest - bend.floor)
        path.append("L%s %sv%d" % (short(middle[bend.name]), short(y), BOX))
    path.append("L%s %s" % (short(middle[last]), short(top[last])))
    return tag("path", d="".join(path), fill="none", stroke="#8a8a8a", stroke_width=1.3)


def box(crate, middle, top, colour, carries):
    """A crate. Its edge is dashed where nothing stands on it."""
    width = width_of(crate)
    more = {} if carries else {"stroke_dasharray": "5 3"}
    parts = [rect(middle - width / 2, top, width, BOX, colour, None, rx=5, stroke="#666", **more),
             words(middle, top + (19 if crate.uses else 27), crate.name, 13, anchor="middle", font_weight="bold")]
    if crate.uses:
        parts.append(words(middle, top + 34, " ".join(crate.uses), 9, SOFT, "middle"))
    return parts


def legend(headings, y):
    """What the colours and edges mean."""
    parts, x = [words(14, 30, "The crates, each above those that it stands on", 16, font_weight="bold")], 14
    for index, heading in enumerate(headings):
        parts.append(rect(x, y, 16, 12, COLOURS[index % len(COLOURS)], None, stroke="#666"))
        parts.append(words(x + 22, y + 10, heading, 11))
        x += 46 + 6.6 * len(heading)
    parts += [rect(x, y, 16, 12, "white", None, stroke="#666", stroke_dasharray="5 3"),
              words(x + 22, y + 10, "nothing stands on it", 11)]
    return parts
