#!/usr/bin/env python3
"""Writes the input of a script in which players connect by name, and then change places by turns.

names.py PLAYERS TURNS

Each of PLAYERS players is new at first. Then each of TURNS lines becomes the player 977 behind the last. The cost of a
turn is that of a script with turns less that of one without. The last line is `quit`.
"""
import sys

players, turns = int(sys.argv[1]), int(sys.argv[2])
lines = [f"connect Player{number}" for number in range(players)]
lines += [f"connect player{turn * 977 % players}" for turn in range(turns)]
lines.append("quit")
sys.stdout.write("\n".join(lines) + "\n")
