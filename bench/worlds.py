#!/usr/bin/env python3
"""Writes the input of a script that builds a world and then asks for routes.

worlds.py SHAPE ROUTES

SHAPE is `grid` or `mesh`. The grid has about 4,000 rooms, each with one exit into it, and the remaining exits as short
cuts. The mesh has about 2,000 rooms with three exits each. Both fill the world: 8,192 objects. Costs vary from 0 to
10,000, and some exits and rooms have locks. With ROUTES 0 the script only builds the world. The last line is `quit`.
"""

import sys

shape, routes = sys.argv[1], int(sys.argv[2])
state = 20261122


def dice(n):
    """Returns a number below n, the same in every run."""
    global state
    state = (state * 6364136223846793005 + 1442695040888963407) % 2**64
    return (state >> 33) % n


lines = []
objects = 2  # the next number
rooms = [0]
exits = []  # number, source, destination


def say(line):
    lines.append(line)


here = 0
entry = {}  # room: the exit that leads home


def walk_to(room, way_of):
    """Walks from the hall along the exits that lead there."""
    global here
    path = []
    at = room
    while at != 0:
        path.append(way_of[at])
        at = source[way_of[at]]
    for exit in reversed(path):
        say(f"go #{exit}")
    here = room


source = {}
way_of = {}
homes = {}


def dig(names, back=None):
    global objects, here
    room = objects
    exit = objects + 1
    objects += 2
    say(f'@dig {names} to "R{room}"')
    rooms.append(room)
    source[exit] = here
    way_of[room] = exit
    exits.append((exit, here, room))
    return room, exit


def dig_old(room):
    global objects
    exit = objects
    objects += 1
    say(f"@dig x to #{room}")
    source[exit] = here
    exits.append((exit, here, room))
    return exit


if shape == "grid":
    # a spine of 63 rooms, from each a row of 63; a home exit closes each row
    side = 62
    for row in range(side):
        dig("s")
        say(f"go #{exits[-1][0]}")
        here = rooms[-1]
        spine = here
        for column in range(side):
            dig("e")
            say(f"go #{exits[-1][0]}")
            here = rooms[-1]
        back = dig_old(spine)
        say(f"go #{back}")
        here = spine
    limit = 8185
else:
    # a chain of rooms, each with two further exits to existing rooms
    while objects + 4 < 8192 - 16:
        if here != 0 and len(rooms) > 4:
            dig_old(rooms[dice(len(rooms))])
            dig_old(rooms[dice(len(rooms))])
        dig("n")
        say(f"go #{exits[-1][0]}")
        here = rooms[-1]
    limit = 8185

home = dig_old(0)
say(f"go #{home}")
here = 0
say("@create lamp")
lamp = objects
objects += 1
while objects < limit:
    dig_old(rooms[dice(len(rooms))])

for exit, _, _ in exits:
    if dice(4) != 0:
        say(f"@cost #{exit} is {dice(10001)}")
for exit, _, room in exits:
    if dice(40) == 0:
        passing = f"#{lamp} || #1"
        keys = ["#1", passing, "!#1", f"!(#{lamp} && #1)"]
        say(f"@lock #{exit} with {keys[dice(4)] if way_of.get(room) != exit else passing}")
for room in rooms[1:]:
    if dice(50) == 0:
        say(f"@lock #{room} with #{lamp} || #1")
say("@version")
for k in range(routes):
    say(f"route to #{rooms[(k * 977) % len(rooms)]}")
say("quit")
sys.stdout.write("\n".join(lines) + "\n")
