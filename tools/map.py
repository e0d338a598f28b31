#!/usr/bin/env python3
"""Draws the crates of crates.txt: docs/map.svg, and the table of docs/MAP.md.

    tools/map.py            writes both
    tools/map.py --check    fails if one of them is not what would be written

A heading is a comment of crates.txt of the form `# Word: what it is`. It holds for the crates after it, up to the next heading, or to another comment
after an empty line: what follows that is under Others. A crate stands higher than all that it stands on, and a line leads down to each of these that
it does not reach through another. What crates.txt does not list, the toolchain's own crates, is left out.
"""
import itertools
import os
import re
import sys
from collections import namedtuple
from xml.sax.saxutils import escape

ROOT = os.path.join(os.path.dirname(os.path.abspath(__file__)), '..')
CRATES, PICTURE, PAGE = 'crates.txt', 'docs/map.svg', 'docs/MAP.md'
HEADING = re.compile(r'# ([A-Z][a-z]+): (.+)')
OTHERS = ('Others', 'under no heading')
TABLE = re.compile(r'(?<=<!-- made by tools/map.py -->\n).*?(?=<!-- end -->\n)', re.S)

# Sizes in the picture: a letter of a box and of a heading's words, a line of these; a box's height, the space beside boxes and around columns.
LETTER, SMALL, LINE, BOX, SPACE, MARGIN = 7.3, 6.2, 15, 24, 14, 12
LEAST_COLUMN = 118
# Between lines side by side, between those that leave one box, above and below all lines between two floors; how round a corner is; an arrow's tip.
TRACK, PORT, ABOVE, BELOW, ROUND, TIP = 9, 10, 9, 15, 5, 7
# Of so many orders of lines between two floors each is tried, and a line that runs over another counts as so many crossings.
MOST_ORDERS, OVER = 6, 20
STYLE = ('text{font:12px "DejaVu Sans Mono",Menlo,Consolas,monospace;fill:#1f2328;text-anchor:middle}'
         '.h{font:bold 15px Verdana,"DejaVu Sans",sans-serif}.w{font:10px Verdana,"DejaVu Sans",sans-serif;fill:#57606a}path{fill:none;stroke-width:1.4}')
# The colours of a column: its ground, its boxes, and its boxes' edges and the lines that lead to them.
COLOURS = [('#f3f7fc', '#dbe9f9', '#1f5fae'), ('#f2f9f3', '#d8f0dc', '#1a7f37'), ('#fbf5fc', '#f0ddf5', '#8a3ea8'), ('#fdf7ef', '#fbe6c8', '#a85a00'),
           ('#f6f7f8', '#e6e9ec', '#6b7480')]

# A heading with its words and its crates, and the column that it is drawn as: where it begins, how wide its boxes stand, how wide it is with the lines
# beside them, and which of these lines is a crate's.
Part = namedtuple('Part', 'name words crates')
Column = namedtuple('Column', 'part left inner width tracks')
# What is drawn: the columns, what each crate stands on, its floor, the middle of its box, and its column.
House = namedtuple('House', 'columns below floors middles column_of')
# The lines between two floors that lead to one place: the crate to which they lead, where they go on below, whether to its box, and where each begins.
Net = namedtuple('Net', 'crate end is_box starts')


# The text of a file of the repository.
def read(path):
    with open(os.path.join(ROOT, path), encoding='utf-8') as file:
        return file.read()


# The parts of crates.txt in their order, Others last, and what each crate stands on.
def parts_of(text):
    found, below, heading, before = {}, {}, OTHERS, ''
    for line in map(str.strip, text.split('\n')):
        match = HEADING.fullmatch(line)
        if match:
            heading = match.groups()
        elif line.startswith('#') and not before:
            heading = OTHERS
        elif line and not line.startswith('#'):
            name, _, words = line.partition(':')
            name = name.split()[0]
            found.setdefault(heading, []).append(name)
            below[name] = words.split()
        before = line
    known = {name: [each for each in words if each in below] for name, words in below.items()}
    return [Part(*each, found[each]) for each in sorted(found, key=lambda each: each == OTHERS)], known


# All that a crate stands on, through others too.
def reached(below, name):
    return set(below[name]).union(*(reached(below, each) for each in below[name]))


# What each crate stands on without what it reaches through another.
def nearest(below):
    return {name: [each for each in words if not any(each in reached(below, other) for other in words)] for name, words in below.items()}


# The floor of each crate: 0 on nothing, else one above the highest that it stands on.
def floors_of(below):
    floors = {}

    def floor(name):
        if name not in floors:
            floors[name] = 1 + max(map(floor, below[name]), default=-1)
        return floors[name]
    for name in below:
        floor(name)
    return floors


# The lines beside the boxes of a part: one for each crate to which a line leads from two or more floors above. Those that would meet stand side by side.
def tracks_of(part, below, floors):
    tracks, taken = {}, []
    for name in sorted(part.crates, key=lambda each: floors[each]):
        top = max((floors[other] for other in below if name in below[other]), default=0)
        if top > floors[name] + 1:
            free = next((i for i, end in enumerate(taken) if end <= floors[name]), len(taken))
            taken[free:free + 1] = [top]
            tracks[name] = free
    return tracks


# How wide the box of a crate is.
def box_width(name):
    return round(LETTER * len(name) + 16)


# The columns from left to right, each as wide as its widest floor and the lines beside it need.
def columns_of(parts, below, floors):
    columns, left = [], MARGIN
    for part in parts:
        widths = {}
        for name in part.crates:
            widths[floors[name]] = widths.get(floors[name], SPACE) + box_width(name) + SPACE
        inner = max([LEAST_COLUMN, *widths.values()])
        tracks = tracks_of(part, below, floors)
        columns.append(Column(part, left, inner, inner + TRACK * len(set(tracks.values())), tracks))
        left += columns[-1].width + MARGIN
    return columns


# The house: each crate in its column and on its floor. On a floor of a column, those whose lines lead further left stand further left.
def house_of(parts, below):
    floors = floors_of(below)
    columns, middles = columns_of(parts, below, floors), {}
    column_of = {name: number for number, column in enumerate(columns) for name in column.part.crates}

    def aim(name):
        return sum(middles[each] for each in below[name]) / max(len(below[name]), 1)
    for floor in sorted(set(floors.values())):
        for column in columns:
            names = sorted((name for name in column.part.crates if floors[name] == floor), key=aim)
            x = column.left + (column.inner - sum(map(box_width, names)) - SPACE * (len(names) - 1)) / 2
            for name in names:
                middles[name] = x + box_width(name) / 2
                x += box_width(name) + SPACE
    return House(columns, below, floors, middles, column_of)


# Where the line beside the boxes runs that leads to a crate.
def track_of(house, name):
    column = house.columns[house.column_of[name]]
    return column.left + column.inner + TRACK * column.tracks[name]


# The lines just below a floor, by the crate to which they lead and whether they lead to its box: from which crates of the floor they come.
def wanted(house, floor):
    found = {}
    for name, lower in ((name, lower) for name in house.below for lower in house.below[name]):
        if house.floors[name] == floor:
            found.setdefault((lower, house.floors[lower] == floor - 1), []).append(name)
    return found


# Where the lines of a crate leave its box, side by side in the order of the places to which they go. One that goes straight down leaves in the middle.
def ports(house, name, ends):
    middle, order = house.middles[name], sorted(ends)
    spread = min(PORT, (box_width(name) / 2 - 8) / max(len(ends) - 1, 1))
    centre = order.index(middle) if middle in order else (len(order) - 1) / 2
    return {end: middle + spread * (i - centre) for i, end in enumerate(order)}


# The nets between a floor and the one below it.
def nets_of(house, floor):
    want = wanted(house, floor)
    for lower in {name for column in house.columns for name in column.tracks if house.floors[name] == floor - 1}:
        want.setdefault((lower, True), [])
    end_of = {key: house.middles[key[0]] if key[1] else track_of(house, key[0]) for key in want}
    leaving = {}
    for key, names in want.items():
        for name in names:
            leaving.setdefault(name, []).append(end_of[key])
    nets = []
    for (lower, is_box), names in sorted(want.items()):
        end = end_of[lower, is_box]
        starts = [ports(house, name, leaving[name])[end] for name in names]
        if is_box and lower in house.columns[house.column_of[lower]].tracks:
            starts.append(track_of(house, lower))
        nets.append(Net(lower, end, is_box, starts))
    return nets


# How often the lines of nets cross or run over one another, where the first has the highest level.
def crossings(nets):
    count = 0
    for (i, one), (j, other) in itertools.permutations(enumerate(nets), 2):
        left, right = min(one.starts + [one.end]), max(one.starts + [one.end])
        count += sum(left < x < right for x in other.starts if j > i)
        count += left < other.end < right and j < i
        count += OVER * sum(x == other.end for x in one.starts if i > j)
    return count


# The nets in an order with the fewest crossings, the highest first.
def ordered(nets):
    orders = itertools.permutations(nets) if len(nets) <= MOST_ORDERS else [sorted(nets, key=lambda net: net.end)]
    return min(orders, key=crossings)


# A line down from a place, along a level and down to another place.
def line_along(x, top, level, end, bottom):
    if abs(x - end) < 1:
        return 'M%g %gV%g' % (x, top, bottom)
    bend = min(ROUND, abs(end - x) / 2) * (1 if end > x else -1)
    return 'M%g %gV%gQ%g %g %g %gH%gQ%g %g %g %gV%g' % (x, top, level - ROUND, x, level, x + bend, level, end - bend, end, level, end, level + ROUND, bottom)


# The colours of the column in which a crate stands.
def colours(house, name):
    return COLOURS[house.column_of[name] % len(COLOURS)]


# The lines between a floor, whose boxes end at `top`, and the one below it, whose boxes begin at `bottom`. A line beside boxes goes on to their end.
def drawn_nets(house, nets, top, bottom):
    lines = []
    for number, net in enumerate(nets):
        level, colour = top + ABOVE + TRACK * number, colours(house, net.crate)[2]
        below = bottom - TIP if net.is_box else bottom + BOX
        for x in net.starts:
            lines.append('<path stroke="%s" d="%s"/>' % (colour, line_along(x, top, level, net.end, below)))
        if net.is_box:
            lines.append('<polygon fill="%s" points="%g,%g %g,%g %g,%g"/>' % (colour, net.end, bottom, net.end - 3.5, below, net.end + 3.5, below))
    return lines


# The lines beside boxes that only go past a floor and what is below it, down to the end of the next boxes.
def drawn_tracks(house, floor, top, bottom):
    lines = []
    for name in (name for column in house.columns for name in column.tracks):
        above = max(house.floors[other] for other in house.below if name in house.below[other])
        if house.floors[name] + 1 < floor < above:
            lines.append('<path stroke="%s" d="M%g %gV%g"/>' % (colours(house, name)[2], track_of(house, name), top, bottom + BOX))
    return lines


# The words of a heading in lines that fit a column.
def wrapped(words, width):
    lines = ['']
    for word in words.split():
        if lines[-1] and SMALL * len(lines[-1] + ' ' + word) > width - SPACE:
            lines.append('')
        lines[-1] = (lines[-1] + ' ' + word).strip()
    return lines


# A column: its ground and its heading.
def drawn_column(column, colour, height):
    x = column.left + column.width / 2
    lines = ['<rect x="%g" y="%g" width="%g" height="%g" rx="6" fill="%s"/>' % (column.left, MARGIN, column.width, height - 2 * MARGIN, colour),
             '<text class="h" x="%g" y="%g">%s</text>' % (x, MARGIN + 22, escape(column.part.name))]
    for number, words in enumerate(wrapped(column.part.words, column.width)):
        lines.append('<text class="w" x="%g" y="%g">%s</text>' % (x, MARGIN + 40 + LINE * number, escape(words)))
    return lines


# A box with the crate's name; the mouse shows what it stands on.
def drawn_box(house, name, top):
    _, fill, edge = colours(house, name)
    stands = '%s stands on %s' % (name, ', '.join(house.below[name]) or 'no other')
    width = box_width(name)
    return ['<g><title>%s</title><rect x="%g" y="%g" width="%g" height="%g" rx="4" fill="%s" stroke="%s"/>'
            % (escape(stands), house.middles[name] - width / 2, top, width, BOX, fill, edge),
            '<text x="%g" y="%g">%s</text></g>' % (house.middles[name], top + BOX / 2 + 4, escape(name))]


# The whole picture.
def picture(parts, below):
    house = house_of(parts, nearest(below))
    y = MARGIN + 48 + LINE * max(len(wrapped(column.part.words, column.width)) for column in house.columns)
    lines, boxes = [], []
    for floor in range(max(house.floors.values()), -1, -1):
        for name in (name for name in house.below if house.floors[name] == floor):
            boxes += drawn_box(house, name, y)
        if floor > 0:
            nets = ordered(nets_of(house, floor))
            top, y = y + BOX, y + BOX + ABOVE + TRACK * (len(nets) - 1) + BELOW
            lines += drawn_nets(house, nets, top, y) + drawn_tracks(house, floor, top, y)
    width, height = house.columns[-1].left + house.columns[-1].width + MARGIN, y + BOX + 2 * MARGIN
    head = ['<svg xmlns="http://www.w3.org/2000/svg" width="%g" height="%g" viewBox="0 0 %g %g">' % (width, height, width, height),
            '<style>%s</style>' % STYLE, '<rect width="100%" height="100%" fill="#fff"/>']
    for number, column in enumerate(house.columns):
        head += drawn_column(column, COLOURS[number % len(COLOURS)][0], height)
    return '\n'.join(head + lines + boxes + ['</svg>']) + '\n'


# The table of the page: under each heading its crates in the order of crates.txt.
def table(parts):
    lines = ['| Heading | Crates |', '|---|---|']
    lines += ['| **%s**: %s | %s |' % (part.name, part.words, ', '.join('`%s`' % name for name in part.crates)) for part in parts]
    return '\n'.join(lines) + '\n'


# Writes the picture and the table, or says which of them is not as it would be written.
def main():
    parts, below = parts_of(read(CRATES))
    page = read(PAGE)
    if not TABLE.search(page):
        sys.exit('tools/map.py: %s has no place for the table' % PAGE)
    made = {PICTURE: picture(parts, below), PAGE: TABLE.sub(lambda _: table(parts), page)}
    if '--check' not in sys.argv:
        for path, text in made.items():
            with open(os.path.join(ROOT, path), 'w', encoding='utf-8') as file:
                file.write(text)
        return
    wrong = [path for path, text in made.items() if not os.path.exists(os.path.join(ROOT, path)) or read(path) != text]
    if wrong:
        sys.exit('tools/map.py: not as this script writes it: %s; run it without --check' % ', '.join(wrong))
    print('tools/map.py: %s and the table of %s are those of %s, %d crates' % (PICTURE, PAGE, CRATES, len(below)))


main()
