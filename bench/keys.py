#!/usr/bin/env python3
"""Writes the input of a script in which builders lock exits with the most expensive keys.

keys.py EXITS ROUTES [WALKS]

There are three sets of 16 things. The key of each in the first asks about all of the second, and the key of each in the
second asks about all of the third. Then come EXITS exits, each to a room of its own and each locked with a key that
asks about all of the first set, so evaluating one key leads to 4,096 others. At last come ROUTES routes through such an
exit, and WALKS (0) new players, each of whom walks through one. The last line is `quit`.
"""

import sys

exits, routes = int(sys.argv[1]), int(sys.argv[2])
walks = int(sys.argv[3]) if len(sys.argv) > 3 else 0
lines = ["@create thing"] * 48
sets = [range(first, first + 16) for first in (2, 18, 34)]


def asking(things):
    """Returns a key that asks about all of these."""
    return " && ".join(f"?#{thing}" for thing in things)


lines += [f"@lock #{thing} with #1 || !#1" for thing in sets[2]]
lines += [f"@lock #{thing} with {asking(sets[2])}" for thing in sets[1]]
lines += [f"@lock #{thing} with {asking(sets[1])}" for thing in sets[0]]
first = 50
lines += [f'@dig x to "R{k}"' for k in range(exits)]
lines += [f"@lock #{first + 2 * k + 1} with {asking(sets[0])}" for k in range(exits)]
lines += [f"route to #{first + 2 * (k * 977 % exits)}" for k in range(routes)]
for k in range(walks):
    lines += [f"connect Walker{k}", f"go #{first + 2 * (k * 977 % exits) + 1}"]
lines.append("quit")
sys.stdout.write("\n".join(lines) + "\n")
