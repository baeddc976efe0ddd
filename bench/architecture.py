#!/usr/bin/env python3
"""Makes docs/architecture.svg: how a deck becomes a report, and what is proved of each part (docs/proof/PROVED.md has the clauses).

    bench/architecture.py            writes the picture
    bench/architecture.py --check    ends with status 1 where the picture is another one than it would write
"""
import html
import pathlib
import sys

PATH = pathlib.Path(__file__).resolve().parent.parent / "docs/architecture.svg"
WIDE, HIGH = 800, 622
LINE = 16                  # from one line of text to the next
# What is in the picture besides its parts: light, and dark where the reader's system is.
STYLE = """
text { font: 12.5px system-ui, "Segoe UI", Helvetica, Arial, sans-serif; fill: #55636f; }
.name { font-size: 14.5px; font-weight: 600; fill: #1d2733; }
.proved { fill: #00633f; }
.bar { fill: #00875a; }
.ground { fill: #ffffff; }
.whole { fill: #f3f6f9; stroke: #b9c4cf; }
.group { fill: #e8eef4; stroke: #b9c4cf; }
.part { fill: #ffffff; stroke: #8494a3; }
.way { fill: none; stroke: #55636f; stroke-width: 1.6; }
.tip { fill: #55636f; }
@media (prefers-color-scheme: dark) {
  text { fill: #a9b6c2; }
  .name { fill: #e9eff5; }
  .proved { fill: #5fd6a4; }
  .bar { fill: #2fb57f; }
  .ground { fill: #0d1117; }
  .whole { fill: #141b23; stroke: #3d4a57; }
  .group { fill: #1c2631; stroke: #3d4a57; }
  .part { fill: #0d1117; stroke: #6b7a88; }
  .way { stroke: #a9b6c2; }
  .tip { fill: #a9b6c2; }
}
"""
# Each part: its kind, place and size, its name, what it is, and what is proved of it.
PARTS = [
    ("part", 16, 16, 176, 104, "Deck", ["programs, files,", "entries, failures"], ["read exactly to its end"]),
    ("part", 213, 16, 176, 104, "Readers", ["tokens, names: from", "texts to trees"], ["refused exactly with", "its first fault"]),
    ("part", 410, 16, 176, 104, "Compiler", ["from trees to code"], ["code does what", "the trees mean"]),
    ("part", 607, 16, 177, 104, "Machine", ["runs the code", "from verb to verb"], ["runs code exactly", "as defined"]),
    ("whole", 16, 152, 768, 284, "World", ["keeps everything, and makes the entries of the log; up to 16 workers"], ["its log is always a run"]),
    ("group", 26, 222, 370, 198, "Terminal control process: a pair", ["runs terminals; the backup takes over"], []),
    ("part", 36, 276, 110, 132, "Primary", ["checkpoints", "at each unit"], ["each call", "exactly as", "defined"]),
    ("part", 156, 276, 110, 132, "Images", ["a context", "as bytes"], ["one context,", "one image"]),
    ("part", 276, 276, 110, 132, "Backup", ["images, and", "numbers of", "ended units"], ["goes on from", "these alone"]),
    ("group", 412, 222, 362, 198, "Disc process: TMF", ["in memory, as a pair, or over an audit trail"], []),
    ("part", 421, 276, 110, 132, "Files", ["records by", "their keys"], ["answer as one", "sorted list"]),
    ("part", 538, 276, 110, 132, "Locks", ["on keys and", "on spans"], ["a conflict is", "found exactly"]),
    ("part", 655, 276, 110, 132, "Units", ["begin, commit", "or go back"], ["backed out", "all or none"]),
    ("part", 16, 468, 374, 104, "Report", ["serial order, screens, files, log"], ["screens and files of one machine", "its log can be read back"]),
    ("part", 410, 468, 374, 104, "Store on a disk", ["pathway_store: its trail keeps each unit that commits"],
     ["acknowledged units outlast disk crashes", "a crash leaves no half unit"]),
]
# Ways from one part to another, by their corners; the last one has the tip.
WAYS = [
    [(192, 68), (211, 68)], [(389, 68), (408, 68)], [(586, 68), (605, 68)], [(695, 120), (695, 150)],
    [(146, 318), (155, 318)], [(266, 318), (275, 318)], [(396, 318), (410, 318)], [(203, 436), (203, 466)], [(597, 436), (597, 466)],
]
LAST = ["For every deck, schedule and failure script: ", "the printed log is a run of the paired system"]


def text(x, y, words, kind=""):
    look = f' class="{kind}"' if kind else ""
    return f'<text x="{x}" y="{y}"{look}>{html.escape(words)}</text>'


def part(kind, x, y, wide, high, name, says, proved):
    """A part's box, its name, what it is below that, and what is proved at its foot, or beside what it is where it holds others."""
    yield f'<rect class="{kind}" x="{x}" y="{y}" width="{wide}" height="{high}" rx="7"/>'
    left = x + 12
    yield text(left, y + 21, name, "name")
    for i, words in enumerate(says):
        yield text(left, y + 21 + LINE * (i + 1) + 2, words)
    foot = y + high - 11 - LINE * (len(proved) - 1) if kind == "part" else y + 24 + LINE * (len(says) + 1)
    if proved:
        yield f'<rect class="bar" x="{x + 4}" y="{foot - 11}" width="3" height="{LINE * len(proved) - 2}"/>'
    for i, words in enumerate(proved):
        yield text(left, foot + LINE * i, words, "proved")


def way(corners):
    (fromx, fromy), (x, y) = corners[-2:]
    right, down = (x > fromx) - (x < fromx), (y > fromy) - (y < fromy)
    yield f'<polyline class="way" points="{" ".join(f"{one},{two}" for one, two in corners)}"/>'
    back, side = 7, 4
    tip = [(x, y), (x - back * right - side * down, y - back * down - side * right), (x - back * right + side * down, y - back * down + side * right)]
    yield f'<polygon class="tip" points="{" ".join(f"{one},{two}" for one, two in tip)}"/>'


def picture():
    told = "; ".join(f"{name}: {', '.join(proved)}" for _, _, _, _, _, name, _, proved in PARTS if proved)
    yield f'<svg xmlns="http://www.w3.org/2000/svg" viewBox="0 0 {WIDE} {HIGH}" width="{WIDE}" height="{HIGH}" role="img" aria-labelledby="name what">'
    yield '<title id="name">The architecture, and what is proved of each part</title>'
    yield f'<desc id="what">{html.escape(f"{told}. {chr(32).join(LAST)}.")}</desc>'
    yield f"<style>{STYLE}</style>"
    yield f'<rect class="ground" width="{WIDE}" height="{HIGH}" rx="8"/>'
    for one in PARTS:
        yield from part(*one)
    for one in WAYS:
        yield from way(one)
    says, proved = map(html.escape, LAST)
    yield f'<rect class="bar" x="8" y="591" width="3" height="14"/>'
    yield f'<text x="16" y="602">{says}<tspan class="proved">{proved}</tspan></text>'
    yield "</svg>"


def main(words):
    made = "".join(f"{line}\n" for line in picture())
    if words == ["--check"]:
        same = PATH.exists() and PATH.read_text() == made
        if not same:
            print(f"architecture: {PATH} is another picture than bench/architecture.py makes")
        return 0 if same else 1
    PATH.write_text(made)
    print(f"architecture: {PATH} has {len(made)} bytes")
    return 0


if __name__ == "__main__":
    sys.exit(main(sys.argv[1:]))
