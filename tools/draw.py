#!/usr/bin/env python3
"""Draws the ring of demo.txt in three frames, from what `show` prints: tools/draw.py REHEARSE >docs/ring.svg"""
import subprocess
import sys

# The number of a `show` in demo.txt, and what is to be said of it.
FRAMES = [
    (2, "Programs hold 16 and 17:", "both stay."),
    (3, "All let go. Each list says that the other", "house holds one: lists alone keep both."),
    (4, "A census found neither in use:", "lists and objects are gone."),
]
WIDTH, HEIGHT, HOUSE, GAP = 300, 250, 120, 30


def played(program, script):
    """What each line of the script leads to, in pairs of a line and its answer."""
    lines = [line for line in script.splitlines() if line and not line.startswith("#")]
    # after each line comes one that is refused, so that it can be seen where an answer ends
    told = "".join(f"{line}\n?\n" for line in lines)
    out = subprocess.run([program, "2"], input=told, capture_output=True, text=True, check=True).stdout
    return list(zip(lines, out.split("no 1\n")))


def tables(shown):
    """The houses of a `show`: objects with their fields, roots, and lines as object and holder."""
    houses = []
    for kind, *words in map(str.split, shown.splitlines()):
        numbers = [int(word) for word in words if word.isdigit()]
        if kind == "house":
            houses.append({"objects": {}, "roots": [], "lines": []})
        elif kind == "object":
            houses[-1]["objects"][numbers[0]] = numbers[1:]
        elif kind == "root":
            houses[-1]["roots"] += numbers
        else:
            houses[-1]["lines"].append(numbers[:2])
    return houses


def left(house):
    return GAP / 2 + house * (HOUSE + GAP)


def middle(name):
    """Where an object is drawn: one a house is enough for this ring."""
    return left(name % 16) + HOUSE / 2, 115


def text(x, y, words, size=12, anchor="middle", colour="#222"):
    return f'<text x="{x:g}" y="{y:g}" font-size="{size}" text-anchor="{anchor}" fill="{colour}">{words}</text>'


def arrow(start, end, bend, colour, dashes=""):
    """A line from one place to another, bent upwards by so much, that ends at the rim of an object."""
    (x, y), (u, v) = start, end
    length = ((u - x) ** 2 + (v - y) ** 2) ** 0.5
    u, v = u - 24 * (u - x) / length, v - 24 * (v - y) / length - bend / 3
    path = f"M{x:g} {y:g} Q{(x + u) / 2:g} {(y + v) / 2 - bend:g} {u:.1f} {v:.1f}"
    return f'<path d="{path}" fill="none" stroke="{colour}" stroke-width="2" marker-end="url(#tip)"{dashes}/>'


def house(number, parts):
    x = left(number)
    out = [f'<rect x="{x:g}" y="40" width="{HOUSE}" height="165" rx="8" fill="#f4f6f8" stroke="#8895a5"/>']
    out.append(text(x + HOUSE / 2, 58, f"house {number}", 13))
    for place, (name, holder) in enumerate(parts["lines"]):
        out.append(text(x + HOUSE / 2, 78 + 14 * place, f"list: {name} for house {holder}", 11, colour="#9a5b00"))
    if parts["roots"]:
        out.append(f'<rect x="{x + 25:g}" y="173" width="70" height="22" rx="4" fill="#dcebdc" stroke="#3c7a3c"/>')
        out.append(text(x + HOUSE / 2, 188, "program", 11))
    for name in parts["objects"]:
        u, v = middle(name)
        out.append(f'<circle cx="{u:g}" cy="{v:g}" r="20" fill="#fff" stroke="#222" stroke-width="2"/>')
        out.append(text(u, v + 5, str(name), 14))
    return out


def roots(number, parts):
    return [arrow((left(number) + HOUSE / 2, 173), middle(name), 0, "#3c7a3c") for name in parts["roots"]]


def fields(parts):
    out = []
    for name, names in parts["objects"].items():
        x, y = middle(name)
        for target in names:
            to_the_right = target % 16 > name % 16
            side = 1 if to_the_right else -1
            out.append(arrow((x + 18 * side, y - 9 * side), middle(target), 22 * side, "#1f4e8c"))
    return out


def frame(place, shown, first, second):
    houses = tables(shown)
    out = [f'<g transform="translate({place * WIDTH} 0)">', text(GAP / 2, 24, str(place + 1), 14, "start")]
    for number, parts in enumerate(houses):
        out += house(number, parts)
    # what leads from one house to another lies over both
    for number, parts in enumerate(houses):
        out += roots(number, parts) + fields(parts)
    out += [text(WIDTH / 2 - GAP / 4, 224, first), text(WIDTH / 2 - GAP / 4, 240, second), "</g>"]
    return out


def main():
    shows = [answer for line, answer in played(sys.argv[1], open("demo.txt").read()) if line == "show"]
    width = WIDTH * len(FRAMES)
    print(f'<svg xmlns="http://www.w3.org/2000/svg" viewBox="0 0 {width} {HEIGHT}" font-family="sans-serif">')
    print('<defs><marker id="tip" viewBox="0 0 8 8" refX="6" refY="4" markerWidth="6" markerHeight="6" orient="auto">')
    print('<path d="M0 0 L8 4 L0 8 z" fill="#444"/></marker></defs>')
    print(f'<rect width="{width}" height="{HEIGHT}" fill="#fff"/>')
    for place, (number, first, second) in enumerate(FRAMES):
        print("\n".join(frame(place, shows[number - 1], first, second)))
    print("</svg>")


if __name__ == "__main__":
    main()
