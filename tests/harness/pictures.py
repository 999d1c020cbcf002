"""Pictures of worlds by `mud_keep map --svg`: each room has a place of its own, exits keep the directions of their
names, and no label hides another in a regular town of 200 rooms.
"""
import re
import time
import xml.etree.ElementTree as ET

from harness.keep import Author, history_of, kept
from harness.parts import part

SEEDS = 12
CHANGES = 160
SVG = "{http://www.w3.org/2000/svg}"
WIDE, TALL = 230, 120
COLUMNS, ROWS = 20, 10
MOST_SECONDS = 5
# The width of a letter, and the height of a line, about as a browser draws them.
LETTER, LINE = 6, 11


def cell_of(box):
    """Returns the column and the row of a room's box."""
    x, y = int(box.get("x")) + int(box.get("width")) // 2, int(box.get("y")) + int(box.get("height")) // 2
    assert x % WIDE == WIDE // 2 and y % TALL == TALL // 2, (x, y)
    return x // WIDE, y // TALL


class Picture:
    """A picture: the cells of rooms, the groups of exits, and all texts."""

    def __init__(self, text):
        self.root = ET.fromstring(text)
        groups = [(int(re.match(r"#(\d+) ", it.find(f"{SVG}title").text)[1]), it) for it in self.root.iter(f"{SVG}g")]
        self.rooms = {number: it for number, it in groups if it.get("class") == "room"}
        self.exits = {number: it for number, it in groups if it.get("class") == "exit"}
        self.count = len(groups)
        self.cells = {number: cell_of(it.find(f"{SVG}rect")) for number, it in self.rooms.items()}

    def texts(self):
        """Returns the rectangle of each text."""
        found = []
        for it in self.root.iter(f"{SVG}text"):
            wide, x, y = LETTER * len(it.text), int(it.get("x")), int(it.get("y"))
            found.append((x - wide // 2, y - LINE + 2, x + wide // 2, y + 1, it.text))
        return found


def meets(one, other):
    return one[0] < other[2] and other[0] < one[2] and one[1] < other[3] and other[1] < one[3]


def hidden(texts):
    """Returns the pairs of texts that hide one another."""
    texts = sorted(texts, key=lambda it: it[1])
    found = []
    for n, one in enumerate(texts):
        for other in texts[n + 1:]:
            if other[1] >= one[3]:
                break
            if meets(one, other):
                found.append((one[4], other[4]))
    return found


def numbers(world, kind):
    return {it for it, one in world.all.items() if one.kind == kind}


def drawn(count, seed):
    """Draws a random world: each room, exit and player, and no others, in places of their own."""
    author = Author(seed)
    text = author.write(CHANGES)
    status, svg, told = kept("map", text, "--svg", "-")
    picture = Picture(svg)
    fits = (status, told) == (0, b"") and set(picture.rooms) == numbers(author.world, "room")
    fits = fits and set(picture.exits) == numbers(author.world, "exit")
    count(f"picture {seed}: rooms and exits", fits and picture.count == len(picture.rooms) + len(picture.exits), svg)
    count(f"picture {seed}: places", len(set(picture.cells.values())) == len(picture.cells), picture.cells)
    for player in sorted(numbers(author.world, "player")):
        one = author.world.all[player]
        shown = [it.text for it in picture.rooms[one.place].iter(f"{SVG}text")]
        name = one.names[0] if len(one.names[0]) <= 17 else one.names[0][:17] + ".."
        count(f"picture {seed}: player #{player}", any(f" {name}" in it for it in shown), shown)


def town():
    """Returns a history of a town of 200 rooms in rows and columns, with exits in four directions, and its cells."""
    lines, cells, here, number = [], {(0, 0): 0}, (0, 0), 2
    words = {(1, 0): ("east", "west"), (-1, 0): ("west", "east"), (0, 1): ("south", "north")}

    def add(change):
        lines.append(f"{len(lines) + 1} 1 {change}\n")

    path = [(x if y % 2 == 0 else COLUMNS - 1 - x, y) for y in range(ROWS) for x in range(COLUMNS)]
    for there in path[1:]:
        out, back = words[there[0] - here[0], there[1] - here[1]]
        add(f'dig #1 new "Square {there[0]} {there[1]}" out "{out}" back "{back}"')
        cells[there] = number
        add(f"walk #1 #{number + 1}")
        number, here = number + 3, there
        above = here[0], here[1] - 1
        if above in cells and out != "south":
            add(f'dig #1 old #{cells[above]} out "north" back "south"')
            number += 2
    return history_of(lines), cells


def towns(count):
    """Draws the town within some seconds. The rooms lie as the exits say, and all texts can be read."""
    text, cells = town()
    start = time.monotonic()
    status, svg, told = kept("map", text, "--svg", "-")
    spent = time.monotonic() - start
    picture = Picture(svg)
    left, top = picture.cells[0]
    wanted = {room: (left + x, top + y) for (x, y), room in cells.items()}
    count("town: places", (status, told) == (0, b"") and picture.cells == wanted, picture.cells)
    count("town: labels", not hidden(picture.texts()), hidden(picture.texts())[:5])
    count("town: seconds", spent < MOST_SECONDS, spent)
    count("town: lines", len(list(picture.root.iter(f"{SVG}line"))) == len(picture.exits), len(picture.exits))


def house():
    """Returns a house with three floors, all directions, a lock, and signs that XML escapes."""
    return history_of([
        '1 1 dig #1 new "Attic" out "up" back "down"\n', '2 1 dig #1 new "Cellar <1>" out "d" back "u"\n',
        '3 1 dig #1 new "Garden" out "North-East" back "southwest"\n', '4 1 make #1 "key"\n',
        '5 1 lock #1 #3 #11\n', '6 1 player #12 "Ann"\n', '7 1 dig #12 new "Nook" out "hole"\n',
        '8 1 cost #1 #9 7\n',
    ])


def worked(count):
    """Draws a house by hand."""
    status, svg, told = kept("map", house(), "--svg", "-")
    picture = Picture(svg)
    hall, garden = picture.cells[0], picture.cells[8]
    count("house: north-east", (status, told) == (0, b"") and (garden[0] - hall[0], garden[1] - hall[1]) == (1, -1),
          picture.cells)
    floors = [it[4] for it in picture.texts() if it[4].startswith("floor")]
    count("house: floors", floors == ["floor +1", "floor -1"], floors)
    titles = [it.find(f"{SVG}title").text for it in picture.rooms.values()]
    count("house: escapes", "#5 Cellar <1>" in titles and b"Cellar &lt;1&gt;" in svg, titles)
    locked = picture.exits[3].find(f"{SVG}title").text
    count("house: a lock", locked == "#3 up, key #11", locked)
    shown = [it.text for it in picture.rooms[0].iter(f"{SVG}text")]
    count("house: players", shown == ["The Hall", "#0 Wizard Ann"], shown)
    far = [it.find(f"{SVG}text").text for it in picture.exits.values() if it.find(f"{SVG}line") is None]
    count("house: exits to floors", sorted(far) == ["d to #5", "down to #0", "u to #0", "up to #2"], far)
    count("house: a cost", picture.exits[9].find(f"{SVG}text").text == "North-East (7)", svg)
    count("house: labels", not hidden(picture.texts()), hidden(picture.texts()))


def graphs(count):
    """Compares the graph of the town with its picture: the positions are the same, upside down."""
    text, cells = town()
    picture = Picture(kept("map", text, "--svg", "-")[1])
    status, dot, told = kept("map", text, "--neato", "-")
    found = {int(n): (int(x), int(y)) for n, x, y in re.findall(rb'^(\d+) \[.* pos="(\d+),(\d+)"', dot, re.M)}
    tall = int(picture.root.get("height"))
    wanted = {n: (x * WIDE + WIDE // 2, tall - y * TALL - TALL // 2) for n, (x, y) in picture.cells.items()}
    count("graph: positions", (status, told) == (0, b"") and found == wanted, dot[:500])
    edges = re.findall(rb"^(\d+) -> (\d+) ", dot, re.M)
    count("graph: exits", len(edges) == len(picture.exits), len(edges))
    label = b'0 [label="The Hall\\n#0"'
    count("graph: labels", label in dot and f'label="Square {COLUMNS - 1} 0\\n'.encode() in dot, dot[:500])


def refused(count):
    """Asks for pictures that can't be drawn: each has a word, status 2 and no output."""
    given = kept("map", b"mud history 2\n1 1 walk #1 #3\nend 1\n", "--svg", "-")
    count("picture: a bad history", given == (2, b"", b"unreadable: history change 1\n"), given)
    status, svg, told = kept("map", house(), "--svg", "-", "/dev/null")
    count("picture: a certificate", (status, svg) == (2, b"") and told.startswith(b"error: a picture has one"), told)
    status, svg, told = kept("map", house(), "--svg", "--neato", "-")
    count("picture: two forms", (status, svg) == (2, b"") and told.startswith(b"error: a picture has one"), told)
    given = kept("map", house().rsplit(b"end", 1)[0] + b"9 1 sa", "--svg", "--journal", "-")
    count("picture: a journal", given[0] == 0 and given[2] == b"torn off: 6 bytes\n", given[2])


@part("pictures", "mud_keep map --svg draws random worlds and a town of 200 rooms")
def pictures(count):
    for seed in range(SEEDS):
        drawn(count, seed)
    towns(count)
    graphs(count)
    worked(count)
    refused(count)
