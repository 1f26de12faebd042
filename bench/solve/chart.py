"""Draws ratios to CaDiCaL's time, a row for each formula and a dot for each number of engines."""
import math
from typing import Dict, List, NamedTuple

COLOURS = ("#e08e0b", "#2a9d8f", "#1d3557", "#a01a58")
LEFT, WIDTH, GAP, TOP, ROW = 235, 205, 30, 62, 17


class Row(NamedTuple):
    title: str
    # For each panel, by number of engines; empty for a family's heading.
    ratios: List[Dict[int, float]]


class Panel:
    """The dots of one measure, on a logarithmic axis between two powers of two."""

    def __init__(self, place: int, title: str, rows: List[Row]) -> None:
        ratios = [ratio for row in rows if row.ratios for ratio in row.ratios[place].values()]
        self.place, self.title, self.left = place, title, LEFT + place * (WIDTH + GAP)
        self.low = math.floor(min([-1, *(math.log2(ratio) for ratio in ratios)]))
        self.high = math.ceil(max([1, *(math.log2(ratio) for ratio in ratios)]))

    def at(self, ratio: float) -> float:
        return self.left + WIDTH * (math.log2(ratio) - self.low) / (self.high - self.low)

    def frame(self, bottom: int) -> List[str]:
        lines = [f'<text x="{self.left + WIDTH / 2}" y="{TOP - 22}" '
                 f'text-anchor="middle">{self.title}</text>']
        for power in range(self.low, self.high + 1):
            x, colour = self.at(2 ** power), "#d00000" if power == 0 else "#ddd"
            label = str(2 ** power) if power >= 0 else f"1/{2 ** -power}"
            lines += [
                f'<line x1="{x:.1f}" y1="{TOP - 4}" x2="{x:.1f}" y2="{bottom}" stroke="{colour}"/>',
                f'<text x="{x:.1f}" y="{TOP - 8}" text-anchor="middle" '
                f'font-size="10">{label}</text>']
        return lines

    def dots(self, row: Row, y: int) -> List[str]:
        ratios = row.ratios[self.place]
        if not ratios:
            return []
        first, last = self.at(min(ratios.values())), self.at(max(ratios.values()))
        lines = [f'<line x1="{first:.1f}" y1="{y}" x2="{last:.1f}" y2="{y}" stroke="#999"/>']
        for colour, ratio in zip(COLOURS, ratios.values()):
            lines.append(f'<circle cx="{self.at(ratio):.1f}" cy="{y}" r="4" fill="{colour}"/>')
        return lines


def legend(engines: List[int], note: str) -> List[str]:
    lines = []
    for place, (colour, count) in enumerate(zip(COLOURS, engines)):
        x = LEFT + 100 * place
        lines += [f'<circle cx="{x}" cy="14" r="4" fill="{colour}"/>',
                  f'<text x="{x + 9}" y="18">{count} engine{"s" * (count > 1)}</text>']
    return [*lines, f'<text x="{LEFT + 100 * len(engines)}" y="18" font-size="11">{note}</text>']


def chart(rows: List[Row], titles: List[str], engines: List[int], note: str) -> str:
    bottom = TOP + ROW * len(rows)
    panels = [Panel(place, title, rows) for place, title in enumerate(titles)]
    lines = [f'<svg xmlns="http://www.w3.org/2000/svg" width="{panels[-1].left + WIDTH + 16}" '
             f'height="{bottom + 26}" font-family="sans-serif" font-size="12">',
             '<rect width="100%" height="100%" fill="white"/>', *legend(engines, note)]
    for panel in panels:
        lines += panel.frame(bottom)
    for place, row in enumerate(rows):
        y = TOP + ROW * place + ROW // 2
        end, weight = (LEFT - 12, "normal") if row.ratios else (10, "bold")
        anchor = "end" if row.ratios else "start"
        lines.append(f'<text x="{end}" y="{y + 4}" text-anchor="{anchor}" '
                     f'font-weight="{weight}">{row.title}</text>')
        if row.ratios:
            lines += [dot for panel in panels for dot in panel.dots(row, y)]
    lines.append(f'<text x="{LEFT}" y="{bottom + 18}" font-size="11" fill="#d00000">1: CaDiCaL '
                 'alone, without a proof</text>')
    return "\n".join([*lines, "</svg>", ""])
