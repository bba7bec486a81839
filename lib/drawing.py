"""Draws the rows of pages as an SVG, which a browser shows without a script."""
import html

import page

# The size of a cell, the space around the page, and the colours of a terminal with a dark
# background, by the code of a style.
WIDTH, HEIGHT, MARGIN, TITLE = 8.4, 19, 16, 30
PAPER, BAR, INK = "#161b22", "#2b323b", "#c9d1d9"
COLOURS = {31: "#ff6b62", 32: "#56d364", 33: "#e3b341", 36: "#4fc3d9", 37: "#f0f3f6"}
COLOURS |= {30: "#0d1117", 91: "#ffa198"}
DOTS = ("#ff6b62", "#e3b341", "#56d364")
GROUNDS = {41: "#ff6b62", 42: "#56d364", 43: "#e3b341", 47: "#f0f3f6", 101: "#ffa198"}
DARK = {30: "#0d1117", 31: "#a40e26", 32: "#0b5c24", 37: "#3d2f00"}


def run_drawn(row, column, cells, style):
    """Yields the elements of a run: its ground, and its text at the width of its cells."""
    x, y, width = MARGIN + column * WIDTH, TITLE + MARGIN + row * HEIGHT, len(cells) * WIDTH
    ground = next((GROUNDS[it] for it in style if it in GROUNDS), None)
    if ground:
        yield f'<rect x="{x:.1f}" y="{y}" width="{width:.1f}" height="{HEIGHT}" fill="{ground}"/>'
    # spaces at the ends are not drawn, and would move the rest
    inked = [n for n, it in enumerate(cells) if it != " "]
    if not inked:
        return
    colour = next(((DARK if ground else COLOURS)[it] for it in style if it in COLOURS), INK)
    shape = ' font-weight="bold"' if 1 in style else ""
    shape += ' opacity="0.6"' if 2 in style and not ground else ""
    x, width = x + inked[0] * WIDTH, (inked[-1] + 1 - inked[0]) * WIDTH
    yield (
        f'<text x="{x:.1f}" y="{y + 14}" textLength="{width:.1f}" lengthAdjust="spacingAndGlyphs"'
        f' fill="{colour}"{shape}>{html.escape("".join(cells).strip(" "))}</text>'
    )


def row_drawn(n, row):
    """Returns the lines of a row, which is the one of this number."""
    return [line for run in page.runs(row) for line in run_drawn(n, *run)]


def framed(title, columns, rows, style, drawn):
    """Returns the picture of a terminal of this size, which has what is drawn."""
    width, height = 2 * MARGIN + columns * WIDTH, TITLE + 2 * MARGIN + rows * HEIGHT
    lines = [
        f'<svg xmlns="http://www.w3.org/2000/svg" width="{width:.0f}" height="{height}"'
        f' viewBox="0 0 {width:.0f} {height}" role="img">',
        f"<title>{html.escape(title)}</title>",
        *style,
        f'<rect width="{width:.0f}" height="{height}" rx="8" fill="{PAPER}"/>',
        f'<path d="M0 {TITLE}V8a8 8 0 0 1 8-8H{width - 8:.0f}a8 8 0 0 1 8 8V{TITLE}z"'
        f' fill="{BAR}"/>',
        *(f'<circle cx="{18 + 20 * n}" cy="15" r="6" fill="{it}"/>' for n, it in enumerate(DOTS)),
        '<g font-family="DejaVu Sans Mono, Menlo, Consolas, monospace" font-size="14"'
        ' xml:space="preserve">',
        *drawn,
        "</g>",
        "</svg>",
    ]
    return "\n".join(lines) + "\n"


def still(title, columns, rows, window):
    """Returns the picture of the rows of a window."""
    drawn = [line for n, row in enumerate(window) for line in row_drawn(n, row)]
    return framed(title, columns, rows, [], drawn)


def spans(frames, n):
    """Yields each run of frames in which a row is the same and not blank: its ends and the row.

    The ends are the numbers of its first frame and of the first after it.
    """
    rows = [window[n] if n < len(window) else [] for _, window in frames]
    begin = 0
    for end in range(1, len(rows) + 1):
        if end == len(rows) or rows[end] != rows[begin]:
            if any(it != " " for it, _ in rows[begin]):
                yield begin, end, rows[begin]
            begin = end


def moving(title, columns, frames, rest):
    """Returns the picture of frames, which are pairs of a time in seconds and the rows of a window.

    It begins again some seconds after the last frame. What doesn't play it shows the last of the
    frames that have the most rows.
    """
    height = max(len(window) for _, window in frames)
    times = [time for time, _ in frames]
    ends = [*times, times[-1] + rest]
    chosen = max(range(len(frames)), key=lambda n: (inked(frames[n][1]), n))
    style, drawn = [], []
    for n in range(height):
        for begin, end, row in spans(frames, n):
            at = [f"{100 * ends[it] / ends[-1]:.4g}%" for it in (begin, end)]
            is_shown = begin <= chosen < end
            name = f"r{n}-{begin}"
            drawn.append(f'<g id="{name}" visibility="{"visible" if is_shown else "hidden"}">')
            drawn += [*row_drawn(n, row), "</g>"]
            steps = f"0%{{visibility:hidden}}{at[0]}{{visibility:visible}}" * (begin > 0)
            steps = steps or "0%{visibility:visible}"
            steps += f"{at[1]}{{visibility:hidden}}" * (end < len(frames))
            style.append(f"@keyframes {name}{{{steps}}}#{name}{{animation-name:{name}}}")
    head = ["<style>", "@media not (prefers-reduced-motion:reduce){"]
    head.append(f"g[id]{{animation:{ends[-1]:.4g}s step-end infinite}}")
    return framed(title, columns, height, [*head, *style, "}", "</style>"], drawn)


def inked(window):
    """Returns the number of rows that aren't blank."""
    return sum(any(it != " " for it, _ in row) for row in window)
