# Pairs of places in src/ that read alike: six lines or more of the same shape, names, numbers and strings rubbed out. `python3 tools/alike.py [FOLDER]`.
import collections
import glob
import os
import re
import sys

LEAST = 6
WORDS = set("as break const else enum extern fn for ghost if impl in let loop match mod move mut pub ref return self struct trait type unsafe use while requires ensures".split())


def shape(line):
    line = re.sub(r'b?"[^"]*"', "S", line)
    line = re.sub(r"\b\d[\d_]*\b", "N", line)
    return re.sub(r"\b[A-Za-z_]\w*\b", lambda m: m[0] if m[0] in WORDS else "I", line)


def lines_of(path):
    kept = []
    for number, line in enumerate(open(path), 1):
        text = line.strip()
        if text and not text.startswith(("//", "ghost use", "use ", "mod ", "requires", "ensures")):
            kept.append((number, shape(text)))
    return kept


os.chdir(sys.argv[1] if len(sys.argv) > 1 else ".")
texts = {f: lines_of(f) for f in sorted(glob.glob("crates/*/src/*.rt")) if "_tests" not in f}
windows = collections.defaultdict(list)
for f, lines in texts.items():
    for i in range(len(lines) - LEAST + 1):
        run = tuple(text for _, text in lines[i : i + LEAST])
        # closing brackets and single names make no shape
        if sum(len(text) > 6 for text in run) >= 4:
            windows[run].append((f, i))
pairs = {}
for places in windows.values():
    if 2 <= len(places) <= 8:
        for n, (f, i) in enumerate(places):
            for g, j in places[n + 1 :]:
                if f != g or abs(i - j) >= LEAST:
                    pairs.setdefault((f, g, j - i), []).append(i)
for (f, g, gap), starts in sorted(pairs.items()):
    first, last = min(starts), max(starts) + LEAST - 1
    print(f"{f}:{texts[f][first][0]}-{texts[f][last][0]} ~ {g}:{texts[g][first + gap][0]}-{texts[g][last + gap][0]}")
print(len(pairs))
