"""The house as a picture: a band for each wing of `crates.txt`, the lowest at the bottom, with its rooms as boxes.

At the right edge each wing has a line to the wings that it stands on, but for those that another way covers. At the left edge
stand the doors: what the product has of the system outside.
"""
from html import escape

WIDTH, LEFT, RIGHT = 1200, 190, 90
BOX, GAP, LINE, HEAD, PAD = 24, 8, 32, 24, 10
LETTER = 7.3
DOORS = {"adr_io": "streams", "adr_file": "file", "adr_outside": "socket, clock"}
STYLE = """
svg { background: #fff; font-family: ui-monospace, monospace; font-size: 12px }
.wing { fill: #f2f2f2; stroke: #999 } .head { font-family: system-ui, sans-serif; font-weight: 600; fill: #222 }
.room { stroke: #555; fill: #fff } .law { fill: #dbe9f6 } .run { fill: #fdebc8 } .test { fill: #e6e6e6 } .program { fill: #d8efd3 }
.name, .door { fill: #111 } .stands { fill: none; stroke: #666 } .way { stroke: #111; stroke-width: 2 }
@media (prefers-color-scheme: dark) {
  svg { background: #161616 } .wing { fill: #242424; stroke: #777 } .head, .name, .door { fill: #eee } .room { fill: #333; stroke: #999 }
  .law { fill: #24405c } .run { fill: #5a4415 } .test { fill: #3c3c3c } .program { fill: #27502a } .stands { stroke: #aaa } .way { stroke: #eee }
}
"""


def kind(name):
    """The class of a room's box."""
    for prefix in ("law", "run", "test"):
        if name.startswith(f"adr_{prefix}_"):
            return prefix
    return "program" if name in ("adr_words", "adr_cmd", "adrep") else "product"


def rows_of(names):
    """The rooms of a wing, row by row, each with its place and its width."""
    rows, at = [[]], LEFT + PAD
    for name in names:
        width = round(len(name.removeprefix("adr_")) * LETTER) + 2 * GAP
        if at + width > WIDTH - RIGHT - PAD and rows[-1]:
            rows.append([])
            at = LEFT + PAD
        rows[-1].append((name, at, width))
        at += width + GAP
    return rows


def wings_below(groups):
    """For each wing the wings that it stands on, but for those that another one of them stands on."""
    wing = {name: at for at, (_, crates) in enumerate(groups) for name, _ in crates}
    below = [{wing[it] for _, uses in crates for it in uses if it in wing} - {at} for at, (_, crates) in enumerate(groups)]
    reached = []
    for own in below:
        reached.append(own.union(*(reached[it] for it in own)))
    return [sorted(it for it in own if not any(it in reached[other] for other in own)) for own in below]


def picture(groups):
    """The text of the picture."""
    laid = [(heading, rows_of([name for name, _ in crates])) for heading, crates in groups]
    heights = [HEAD + LINE * len(rows) + PAD // 2 for _, rows in laid]
    total = sum(heights) + GAP * (len(laid) + 1)
    tops = [total - sum(heights[: at + 1]) - GAP * (at + 1) for at in range(len(laid))]
    lines = [
        f'<svg xmlns="http://www.w3.org/2000/svg" viewBox="0 0 {WIDTH} {total}" role="img">',
        "<title>The rooms of adrep</title>",
        "<desc>A band for each group of rooms; each stands on the bands to which its lines go down.</desc>",
        f"<style>{STYLE}</style>",
    ]
    for (heading, rows), top, height in zip(laid, tops, heights):
        lines.append(f'<rect class="wing" x="{LEFT}" y="{top}" width="{WIDTH - LEFT - RIGHT}" height="{height}" rx="4"/>')
        lines.append(f'<text class="head" x="{LEFT + PAD}" y="{top + 17}">{escape(heading)}</text>')
        for number, row in enumerate(rows):
            y = top + HEAD + LINE * number
            doors = ", ".join(DOORS[name] for name, _, _ in row if name in DOORS)
            if doors:
                lines.append(f'<path class="way" d="M{LEFT} {y + 12} H{LEFT - 16}"/>')
                lines.append(f'<text class="door" x="{LEFT - 20}" y="{y + 16}" text-anchor="end">{doors}</text>')
            for name, x, width in row:
                lines.append(f'<rect class="room {kind(name)}" x="{x}" y="{y}" width="{width}" height="{BOX}" rx="3"/>')
                lines.append(f'<text class="name" x="{x + GAP}" y="{y + 16}">{escape(name.removeprefix("adr_"))}</text>')
    for at, below in enumerate(wings_below(groups)):
        for it in below:
            start, end = tops[at] + heights[at] - 8, tops[it] + 8
            out = WIDTH - RIGHT + 12 + min(at - it, 10) * 7
            lines.append(f'<path class="stands" d="M{WIDTH - RIGHT} {start} C{out} {start} {out} {end} {WIDTH - RIGHT} {end}"/>')
    return "\n".join([*lines, "</svg>"]) + "\n"
