#!/usr/bin/env python3
"""Drives two houses until a ring across them is freed. Usage: docs/driver.py crates/house/out/house"""
import subprocess
import sys

PIPES = {"stdin": subprocess.PIPE, "stdout": subprocess.PIPE, "text": True}
HOUSES = [subprocess.Popen([sys.argv[1], "--framed", str(i), "2"], **PIPES) for i in (0, 1)]


def tell(house, line):
    """Tells a house a line, prints what it shows, and then carries what it sends to whom it is for."""
    print(line, file=HOUSES[house].stdin, flush=True)
    sends = []
    while (answer := HOUSES[house].stdout.readline().strip()) != "ok":
        if not answer or answer.startswith("no "):
            sys.exit(f"house {house}, {line}: {answer or 'it has ended'}")
        if answer.startswith("send "):
            sends.append(answer.split()[1:])
        else:
            print(answer)
    for to, digits in sends:
        tell(int(to), "got " + digits)


MADE = ["make 1", "ask {own} {other}", "link {own} {far}", "drop {own}", "drop {far}"]  # a ring that nobody reaches
KEPT = ["word {other}", "collect", "show"]  # the lists keep it
FREED = ["join 1", "tell", "round", "round", "collect", "show", "status"]  # a census frees it
for each in MADE + KEPT + FREED:
    # only house 0 asks rounds
    for me in (0,) if each == "round" else (0, 1):
        tell(me, each.format(own=16 + me, far=17 - me, other=1 - me))
