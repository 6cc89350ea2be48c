"""Figures of benches: on the terminal, as tables of docs/BENCHMARKS.md, and as a chart of those that are beside the original."""

import dataclasses
import html
import re

ORIGINAL = ("Proved", "Original")


@dataclasses.dataclass
class Figure:
    """What was measured, ours, the other's if there is one, their unit, and the ratio that is allowed if one is."""

    measured: str
    here: float
    there: float | None
    unit: str
    allowed: float | None = None

    @property
    def ratio(self):
        return None if self.there is None else self.here / self.there

    def is_within(self):
        return self.ratio is None or self.allowed is None or self.ratio <= self.allowed


def number(value):
    """A number with three digits or more."""
    return f"{value:,.0f}" if value >= 1000 else f"{value:.{max(0, 2 - (value >= 10) - (value >= 100))}f}" if value >= 1 else f"{value:.3f}"


def cells(figure):
    """The cells of a figure: measured, ours, the other's, their ratio, and what is allowed."""
    there, ratio, allowed = figure.there, figure.ratio, figure.allowed
    return [
        figure.measured,
        f"{number(figure.here)} {figure.unit}",
        "–" if there is None else f"{number(there)} {figure.unit}",
        "–" if ratio is None else f"{ratio:.2f}",
        "–" if allowed is None else f"{allowed:.1f}" if round(allowed, 1) == allowed else f"{allowed:.2f}",
    ]


def add_argument(parser):
    parser.add_argument("--markdown", action="store_true", help="prints the figures as a table of Markdown")


def markdown_table(rows):
    """A table of Markdown, with its head in the first row."""
    head, *rest = ["| " + " | ".join(row) + " |" for row in rows]
    return "\n".join([head, "|" + "---|" * len(rows[0]), *rest])


def print_rows(rows, markdown):
    """Prints rows, of which the first is the head."""
    if markdown:
        print(markdown_table(rows))
        return
    widths = [max(map(len, column)) for column in zip(*rows)]
    for row in rows:
        print(row[0].ljust(widths[0]), *(cell.rjust(width) for cell, width in zip(row[1:], widths[1:])), sep="  ")


def show(figures, names=ORIGINAL, markdown=False):
    """Prints figures, with the names of ours and the other's. Returns whether all are within what is allowed."""
    print_rows([["Measured", *names, "Ratio", "Allowed"], *map(cells, figures)], markdown)
    return all(figure.is_within() for figure in figures)


def show_values(figures, markdown=False):
    """Prints figures that are beside nothing."""
    print_rows([["Counted", "Value"], *(cells(figure)[:2] for figure in figures)], markdown)


# ---- the chart

@dataclasses.dataclass
class Group:
    """The bars under a heading: what was measured, and the ratio."""

    heading: str
    bars: list


def label_of(cell, before):
    """What a row measured, without explanations. In it 'the same' means the subject of the row before."""
    label = re.split(r"; |, (?:which|here) ", cell)[0].replace("`", "")
    subject = re.split(r",(?!\d)", before)[0]
    return subject + label.removeprefix("the same") if label.startswith("the same") else label


def groups_of(text):
    """The ratios to the original in the tables of a text in Markdown, by the headings above them."""
    groups, heading, columns = [], "", None
    for line in text.splitlines():
        if line.startswith("#"):
            heading = re.sub(r" \(`.*`\)$", "", line.lstrip("# ")).replace("`", "")
        if not line.startswith("|"):
            columns = None
            continue
        row = [cell.strip() for cell in line.strip("|").split("|")]
        if columns is None:
            columns, label = row, ""
            groups.append(Group(heading, []))
        elif {"Original", "Ratio"} <= set(columns) and not row[0].startswith("---"):
            label = label_of(row[0], label)
            if (ratio := row[columns.index("Ratio")]) != "–":
                groups[-1].bars.append((label, float(ratio)))
    return [group for group in groups if group.bars]


# Sizes in pixels: labels end at LABELS, and the longest bar is BARS long.
WIDTH, LABELS, BARS, ROW, MARGIN = 960, 470, 430, 20, 14


TITLE = "Time as a multiple of the original's; less is faster"


def chart(groups):
    """A chart of the ratios as SVG: a bar for each, and a line at 1.0, the original's time."""
    top = max(ratio for group in groups for _, ratio in group.bars)
    scale = BARS / max(1.25, top)
    first = MARGIN + 36
    texts, labels, bars, at = [], [], {"less": [], "more": []}, first

    def text(x, y, content, more=""):
        return f'<text x="{x:.0f}" y="{y:.0f}"{more}>{html.escape(content, quote=False)}</text>'

    for group in groups:
        texts.append(text(MARGIN, at + 15, group.heading, ' class="heading"'))
        at += ROW + 2
        for label, ratio in group.bars:
            labels.append(text(LABELS - 8, at + 14, f"{label}: {ratio:.2f}"))
            width = round(ratio * scale)
            bars["less" if ratio <= 1 else "more"].append(f"M{LABELS} {at + 3}h{width}v{ROW - 6}h-{width}z")
            at += ROW
        at += 6
    height = at + MARGIN
    return "\n".join([
        f'<svg xmlns="http://www.w3.org/2000/svg" width="{WIDTH}" height="{height}" viewBox="0 0 {WIDTH} {height}">',
        "<style>text{font:12px sans-serif;fill:#222}.title{font-weight:bold;font-size:14px}.heading{font-weight:bold}.axis{fill:#555}"
        ".less{fill:#4878a8}.more{fill:#c8843c}.one{stroke:#555;stroke-dasharray:4 3}</style>",
        '<rect width="100%" height="100%" fill="#fff"/>',
        text(MARGIN, MARGIN + 12, TITLE, ' class="title"'),
        text(LABELS + scale, MARGIN + 30, "1.0", ' class="axis" text-anchor="middle"'),
        *(f'<path class="{kind}" d="{"".join(those)}"/>' for kind, those in bars.items() if those),
        *texts, '<g text-anchor="end">', *labels, "</g>",
        f'<path class="one" d="M{LABELS + scale:.1f} {first}V{at}"/>', "</svg>", "",
    ])
