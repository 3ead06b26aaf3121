"""Draws docs/figures.svg from the tables of docs/FIGURES.md. It is not a program.

Each row has a bar for `ThinVec` and one for the `Vec` of Rattle's library, in times of Rust's
`Vec`. The colours can be told apart by their brightness, and change with the light or dark scheme
of the reader."""
import html
import re

from lib.command import Stopped

# The contenders that have a bar, and how the tables call them.
BARS = {"thin": "`ThinVec`", "kit": "Rattle's `Vec`"}
RUST = "Rust's `Vec`"
# The measures of the picture in pixels, and the greatest ratio that has a whole bar.
WIDTH, LEFT, RIGHT, TOP_OF_ROWS, BAR, ROW, GROUP, MOST = 800, 240, 60, 92, 10, 28, 34, 2.5

STYLE = """
text { font: 13px system-ui, -apple-system, "Segoe UI", Roboto, Arial, sans-serif; fill: #1f2328; }
.back { fill: #ffffff; } .head { font-weight: 600; } .title { font-size: 16px; font-weight: 600; }
.small { font-size: 11px; fill: #59636e; } .value { font-size: 11px; fill: #59636e; }
.value { paint-order: stroke; stroke: #ffffff; stroke-width: 3px; }
.line { stroke: #d1d9e0; } .one { stroke: #59636e; }
.thin { fill: #0550ae; } .kit { fill: #9fb8d9; }
@media (prefers-color-scheme: dark) {
text { fill: #f0f6fc; } .back { fill: #0d1117; } .small { fill: #9198a1; }
.value { fill: #9198a1; stroke: #0d1117; } .line { stroke: #3d444d; } .one { stroke: #9198a1; }
.thin { fill: #79c0ff; } .kit { fill: #3a5f8a; }
}
"""


def tables_of(page):
    """The tables of the page: rows by the name in their first cell, with their cells by heads."""
    found, heads = [], None
    for line in page.splitlines():
        cells = [cell.strip() for cell in line.strip("|").split(" | ")]
        if not line.startswith("|"):
            heads = None
        elif heads is None:
            heads = cells
            found.append({})
        elif name := re.match(r"`(\w+)`", cells[0]):
            found[-1][name.group(1)] = dict(zip(heads[1:], cells[1:]))
    return found


def ratios(page):
    """The ratios to Rust's `Vec`: (`time` or `memory`, workload, contender) -> number."""
    tables = tables_of(page)
    if len(tables) != 2:
        raise Stopped(f"docs/FIGURES.md has {len(tables)} tables, not 2")
    found = {}
    for name, cells in tables[0].items():
        for who, called in BARS.items():
            found["time", name, who] = number(cells.get(f"time: {called}"))
    for name, cells in tables[1].items():
        unit = number(cells.get(f"MiB: {RUST}"))
        for who, called in BARS.items():
            one = number(cells.get(f"MiB: {called}"))
            found["memory", name, who] = one / unit if one and unit else None
    return found


def number(cell):
    """The number of a cell, or None."""
    return float(cell) if cell and re.fullmatch(r"\d+(\.\d+)?", cell) else None


def across(ratio):
    """Where a bar of this ratio ends, from the left."""
    return LEFT + (WIDTH - LEFT - RIGHT) * min(ratio, MOST) / MOST


def text(x, y, said, kind="", anchor="start"):
    said = html.escape(said)
    return f'<text x="{x:g}" y="{y:g}" class="{kind}" text-anchor="{anchor}">{said}</text>'


def bar(y, ratio, who):
    """A bar with its number. A bar that would be too long ends in two gaps."""
    width = f"{across(ratio) - LEFT:.1f}"
    lines = [f'<rect x="{LEFT}" y="{y}" width="{width}" height="{BAR}" class="{who}"/>']
    if ratio > MOST:
        lines += [
            f'<rect x="{across(ratio) - gap:.1f}" y="{y}" width="3" height="{BAR}" class="back"/>'
            for gap in (10, 18)
        ]
    said = f"{ratio:.2f}" if ratio < 10 else f"{ratio:.0f}"
    return lines + [text(across(ratio) + 6, y + BAR - 1, said, "value")]


def drawn(page, groups):
    """The picture of groups: a title, a measure, and rows of a workload and a label."""
    known, lines, y = ratios(page), [], TOP_OF_ROWS
    for group in groups:
        lines.append(text(16, y + 14, group["title"], "head"))
        y += GROUP - 10
        for name, label in group["rows"]:
            found = {who: known.get((group["measure"], name, who)) for who in BARS}
            if None in found.values():
                raise Stopped(f"docs/FIGURES.md has no {group['measure']} of {name}")
            lines.append(text(LEFT - 10, y + BAR + 4, label, "", "end"))
            for at, (who, ratio) in enumerate(found.items()):
                lines += bar(y + at * (BAR + 1), ratio, who)
            y += ROW
        y += 8
    measured = re.search(r"Measured\s+on:\s+([^;]*);", page)
    date = f"Measured on {measured.group(1)}. " if measured else ""
    height = y + 30
    head = [
        f'<svg xmlns="http://www.w3.org/2000/svg" viewBox="0 0 {WIDTH} {height}" width="{WIDTH}"'
        f' height="{height}" role="img" aria-labelledby="title">',
        "<title id=\"title\">ThinVec and Rattle's Vec beside Rust's Vec</title>",
        f"<style>{STYLE}</style>",
        f'<rect width="{WIDTH}" height="{height}" class="back"/>',
        text(16, 28, "Beside Rust's Vec, which is 1: shorter is better", "title"),
    ]
    for at, (who, called) in enumerate(BARS.items()):
        head.append(f'<rect x="{16 + at * 110}" y="44" width="14" height="{BAR}" class="{who}"/>')
        head.append(text(36 + at * 110, 54, called.replace("`", "")))
    for half in range(int(MOST * 2) + 1):
        x, kind = across(half / 2), "one" if half == 2 else "line"
        head.append(f'<line x1="{x:g}" y1="84" x2="{x:g}" y2="{y}" class="{kind}"/>')
        head.append(text(x, 78, f"{half / 2:g}", "small", "middle"))
    told = "Of a proved program; docs/FIGURES.md has the machine and all workloads."
    foot = text(16, height - 10, date + told, "small")
    return "\n".join([*head, *lines, foot, "</svg>"]) + "\n"
